"""On demand: how many small breaks of each application its properties notice (tools/mutants), on drawn networks.

Fails if fewer than LEAST of 100 of those that change a log are noticed, on a break that survives and is not in tests/survivors with a reason,
and on a line of that file that no longer survives. Prints a row of the table in tests/README.md for each application. `--runs N` draws N
networks of each plan. Seen to fail: without the replay, since the others notice 24 of 52 of
reroute, and on a property that asserts nothing.
"""
from __future__ import annotations

import sys
from pathlib import Path
from typing import Dict

import pytest

from harness import EXAMPLES, TESTS, TOP, Group, call, with_variables

from copperfinch.program import Program
from copperfinch.testing.score import RUNS, score_of

FILES = sorted((EXAMPLES / "properties").glob("test_*.py"))
LEAST = 95
TOOL = [sys.executable, "-B", TOP / "tools/mutants"]


def survivors() -> Dict[str, str]:
    """The breaks that may survive, with the reason for each: `NAME LINE:COLUMN CHANGE | REASON`."""
    lines = [line.partition(" | ") for line in (TESTS / "survivors").read_text().splitlines() if line and not line.startswith("#")]
    return {line: reason for line, _, reason in lines}


@pytest.mark.parametrize("path", FILES, ids=lambda path: path.stem[5:])
def test_score(group: Group, path: Path) -> None:
    """The properties of an application notice its breaks."""
    name, listed = path.stem[5:], survivors()
    score = score_of(EXAMPLES / f"{name}.luc", path, group.options.runs or RUNS, Program(str(group.options.program)))
    left = {f"{name} {it}" for it in score.survivors}
    group.check(f"{name}: at least {LEAST} of 100 are noticed", score.percent >= LEAST and score.changing > 20, score)
    group.check(f"{name}: each that survives has a reason", all(listed.get(it) for it in left), sorted(left - set(listed)))
    group.check(f"{name}: no reason is left over", {it for it in listed if it.split()[0] == name} <= left)
    group.note(f"| {name} | {score.changing} | {len(score.noticed)} | {score.same} | {score.refused} |")


def test_tool(group: Group) -> None:
    """tools/mutants prints and writes the breaks of a program, and what tests notice of them."""
    files = [EXAMPLES / "nat.luc", EXAMPLES / "nat.limits.json"]
    env = with_variables(LUCID=group.options.program)
    made = call([*TOOL, *files, "--write", group.room / "made"], env=env)
    lines = made.out.decode().splitlines()
    group.check("it prints the breaks", made.status == 0 and lines[-1] == f"{len(lines) - 1} breaks are accepted and fit" and len(lines) > 50, made)
    programs = sorted((group.room / "made").iterdir())
    texts = {path.read_text() for path in programs}
    group.check("it writes them", len(programs) == len(texts) == len(lines) - 1 and files[0].read_text() not in texts, len(texts))
    group.check("each is accepted", all(group.call("check", path).status == 0 for path in programs))
    said = call([*TOOL, *files, EXAMPLES / "properties/test_nat.py", "--runs", "10"], env=env)
    group.check("it scores tests", said.status == 0 and b"that change a log" in said.out, said)
    weak = group.file("test_weak.py", WEAK.format(program=str(files[0]), limits=str(files[1])))
    said = call([*TOOL, *files, weak, "--runs", "10"], env=env)
    group.check("weak tests notice less", said.status == 0 and b"not noticed: " in said.out and b"noticed 0 of" in said.out, said)
    for bad, line in ((group.room / "none.py", b"mutants: "), (EXAMPLES / "properties/test_sro.py", b"has no properties of")):
        said = call([*TOOL, *files, bad], env=env)
        group.check(f"{bad.name} is refused by a line", said.status == 1 and line in said.err and said.err.count(b"\n") == 1, said)


WEAK = """from copperfinch.testing import network, scenarios, some
nat = network({program!r}, {limits!r})

@nat.given(scenarios(3, {{"out": some(50, (1, 14), 1, switch=0)}}, links=[(0, 1), (0, 2)]))
def test_nothing(run):
    assert all(e.tick >= 0 for e in run.events())
"""
