"""The properties of the applications (examples/properties) hold on drawn networks, and refuse applications that do nothing.

Seen to fail: on each of BROKEN, which the checks beside the examples pass, by the property that is named; on a property without its least
counts. The group `mutants` asks how much else they notice. `--runs N` tries each property on N scenarios.
"""
from __future__ import annotations

import resource
import sys
from collections import Counter
from pathlib import Path
from typing import List

import pytest

from harness import EXAMPLES, TOP, Group, call, with_variables

from copperfinch.program import Program
from copperfinch.testing.properties import Property, load, properties_of

FILES = sorted((EXAMPLES / "properties").glob("test_*.py"))
RUNS = 24
# An application, what is wrong with it, texts and their replacements, and the property that refuses it.
BROKEN = [
    ("gateways", "a gateway never opens", [("generate Event.locate(open(from, to), 1 - SELF);", "")], "test_flows_leave"),
    ("firewall", "the firewall lets nothing out", [("generate Event.locate(passed(from, to), outer);", "")], "test_inside_leaves"),
    ("rip", "rip forwards nothing", [("generate Event.locate(packet(dst, ttl - 1), way - 1);", "")], "test_packets_arrive"),
    ("sro", "sro sends no replies", [("generate Event.locate(reply(register, number, value), asker);", "")], "test_each_read_is_answered"),
    ("flowcache", "the flow cache loses all vectors", [("collector = 2", "collector = 3")], "test_each_feature_once"),
    ("reroute", "reroute gets no answers to its probes", [("generate Event.locate(alive(SELF), asker);", "")], "test_hellos_are_answered"),
    ("dns", "dns gets no questions", [("generate Event.locate(ask(client, number), servers);", "")], "test_questions_are_answered"),
]


# What a section of examples/README.md says to try next.
TRIED = [("arp", "return now + hold", "return stored + hold"), ("bfd", "sent > patience", "sent >= patience"),
         ("telemetry", "number > before + 1", "number > before"), ("balancer", "asked > patience", "asked > patience + 1"),
         ("bucket", "before < depth", "before <= depth"), ("synguard", "cookie == cookie_of(client)", "cookie != 0")]


def properties(group: Group, path: Path) -> List[Property]:
    """The properties of a file, asked of the program under test."""
    found = properties_of(load(path))
    for it in found:
        it.network.__dict__["lucid"] = Program(str(group.options.program))
    return found


@pytest.mark.parametrize("path", FILES, ids=lambda path: path.stem)
def test_properties(group: Group, path: Path, monkeypatch: pytest.MonkeyPatch) -> None:
    """Each property holds on drawn scenarios, and looks at enough of them."""
    runs = group.options.runs or RUNS
    monkeypatch.setenv("COPPERFINCH_RUNS", str(runs))
    monkeypatch.setenv("COPPERFINCH_FAILED", str(group.room))
    found = properties(group, path)
    group.check(f"{path.name} has properties of both kinds", len(found) >= 2, found)
    begin = resource.getrusage(resource.RUSAGE_CHILDREN).ru_utime + resource.getrusage(resource.RUSAGE_SELF).ru_utime
    for it in found:
        seen: Counter = Counter()
        it.parts = 1
        failure = it.find(0, seen)
        group.check(f"{path.stem}: {it.name}", failure is None, failure and it.report(failure, 0))
        few = {name for name, least in it.least.items() if seen[name] < min(1, least)}
        group.check(f"{path.stem}: {it.name} looks at {', '.join(it.least)}", it.least and not few, few)
    if group.options.runs:
        spent = resource.getrusage(resource.RUSAGE_CHILDREN).ru_utime + resource.getrusage(resource.RUSAGE_SELF).ru_utime - begin
        group.note(f"{path.stem}: {runs * len(found)} scenarios, {spent:.0f} s of a processor")


@pytest.mark.parametrize("name, what, edits, refuses", BROKEN, ids=[it[0] for it in BROKEN])
def test_broken(group: Group, name: str, what: str, edits: list, refuses: str, monkeypatch: pytest.MonkeyPatch) -> None:
    """An application that does nothing is refused by its property, and by its name."""
    text = (EXAMPLES / f"{name}.luc").read_text()
    for old, _ in edits:
        group.check(f"{name}.luc has the text {old}", old in text)
    path = group.file(f"{name}.luc", "".join(text))
    for old, new in edits:
        path.write_text(path.read_text().replace(old, new))
    found = [it for it in properties(group, EXAMPLES / f"properties/test_{name}.py") if it.name == refuses]
    if not group.check(f"{name}: there is {refuses}", len(found) == 1):
        return
    it = found[0]
    it.network.program = path
    failures = [it.judge(scene, Counter()) for scene in it.scenes(20)]
    group.check(f"{what}: {refuses} refuses it", any(failures))
    monkeypatch.setenv("COPPERFINCH_FAILED", str(group.room))
    said = next((it.report(failure, 0) for failure in failures if failure), "")
    group.check(f"{what}: the failure names the property", said.startswith(f"{refuses} does not hold: ") and str(path) in said, said[:400])


@pytest.mark.parametrize("name, old, new", TRIED, ids=[it[0] for it in TRIED])
def test_try_next(group: Group, name: str, old: str, new: str) -> None:
    """The change that the page says to try breaks a property."""
    text = (EXAMPLES / f"{name}.luc").read_text()
    group.check(f"examples/README.md says {new}", old in text and f"`{new}` for `{old}`" in (EXAMPLES / "README.md").read_text())
    found = properties(group, EXAMPLES / f"properties/test_{name}.py")
    scenes = found[0].scenes(30)
    found[0].network.program = group.file(f"{name}.luc", text.replace(old, new))
    broken = {it.name for it in found if any(it.judge(scene, Counter()) for scene in scenes)}
    group.check(f"{name}: {new} breaks a property", len(broken) >= 1, broken)
    group.note(f"{name}: {new} breaks {', '.join(sorted(broken))}")


def test_by_pytest(group: Group) -> None:
    """pytest runs a file of properties as a user's CI does."""
    words = [sys.executable, "-B", "-m", "pytest", "-q", "-p", "no:cacheprovider", "-n", "2", EXAMPLES / "properties/test_nat.py"]
    env = with_variables(LUCID=group.options.program, COPPERFINCH_FAILED=group.room, COPPERFINCH_RUNS=120)
    ended = call(words, cwd=group.room, env=env)
    group.check("pytest -n 2 examples/properties/test_nat.py", ended.status == 0 and b"6 passed" in ended.out, (ended.out + ended.err).decode()[-800:])
