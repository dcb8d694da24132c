"""copperfinch.testing: what a test of a user's own program prints, for properties that fail, and for those that say nothing.

Each test writes a file for pytest and calls pytest on it. Seen to fail: on eight and nine events, which hypothesis left by itself; on a property
that the firewall itself breaks; on an interrupt that named no scenario. Sees nothing of how well scenarios are drawn, which the
groups `properties` and `mutants` ask.
"""
from __future__ import annotations

import json
import os
import re
import signal
import subprocess
import sys
import time
from pathlib import Path
from typing import List

from harness import EXAMPLES, TOP, Ended, Group, call, with_variables

HEAD = """from copperfinch.testing import event, network, scenarios, send, some
from hypothesis import strategies as st
fw = network({program!r}, {limits!r})
plan = scenarios(switches=3, links="star", events={{"inside": some(40, (1, 6), (100, 103), switch=0), "outside": some(40, (100, 103), (1, 6), switch=0)}}, failures=2)
"""
# A flow that another one moves is lost, if the move is not sent.
BROKEN = "found != 0 && found != flow", "found != 0 && found == flow"
KEPT = """
@fw.given(plan, runs=60, parts=1)
def test_answers_pass(run):
    \"\"\"An answer to a flow passes, since nothing is swept.\"\"\"
    flows, moving = set(), set()
    for e in run.events("inside", "move", "again"):
        if e.name == "again":
            if e.args[::-1] in flows - moving:
                run.expect(e, send("passed", *e.args, to=1))
            continue
        flows.add(e.args[:2])
        moving.discard(e.args[:2])
        for out in e.sent:
            moving |= {out.args[:2]} if out.name in ("move", "given_up") else set()
"""


def tests(group: Group, name: str, text: str, program: Path = EXAMPLES / "firewall.luc") -> Path:
    """Writes a file of tests of the firewall, or of another program."""
    return group.file(f"test_{name}.py", HEAD.format(program=str(program), limits=str(EXAMPLES / "firewall.limits.json")) + text)


def pytest_words(*words: object) -> List[str]:
    return [sys.executable, "-B", "-m", "pytest", "-q", "-p", "no:cacheprovider", "--color=no", *map(str, words)]


def tried(group: Group, *words: object, **more: object) -> Ended:
    """Calls pytest in the group's folder."""
    variables = {"LUCID": group.options.program, "PYTHONPATH": TOP, **more}
    return call(pytest_words(*words), cwd=group.room, env=with_variables(**variables))


def test_broken_firewall(group: Group) -> None:
    """A broken firewall shrinks to few events, and the failure says all that one wants to know."""
    text = (EXAMPLES / "firewall.luc").read_text()
    group.check("the firewall has the text", BROKEN[0] in text)
    program = group.file("broken.luc", text.replace(*BROKEN))
    path = tests(group, "broken", KEPT, program)
    ended = tried(group, path)
    said = ended.out.decode()
    group.check("the property fails", ended.status == 1 and "test_answers_pass does not hold: [" in said, said[-2000:])
    group.check("it says its text and its line", "it says: An answer to a flow passes" in said and re.search(r"test_broken[.]py:\d+: run[.]expect", said) is not None, said)
    kept = group.room / "failed/test_answers_pass.0.scenario.json"
    if not group.check("it keeps the scenario", kept.exists(), said[-500:]):
        return
    scene = json.loads(kept.read_text())
    group.check("at most six events are left, and no outage", len(scene["events"]) <= 6 and not scene["down"], scene)
    group.check("ticks and arguments are small", all(it["at"] <= 4 for it in scene["events"]) and scene["links"] == [[0, 1, 1], [0, 2, 1]], scene)
    group.check("it prints the scenario", all(line in said for line in kept.read_text().splitlines()), said)
    group.check("it follows the event", re.search(r"what became of the event:\n  event \d+ \[\d+\] s0 outside.*sends again.*sends dropped", said, re.S) is not None, said[-900:])
    command = re.search(r"^  (lucid run whole .*)$", said, re.M)
    again = group.call(*command[1].split()[1:], cwd=group.room) if command else Ended(1, b"", b"")
    group.check("its call runs the scenario", again.status == 0 and b" again(" in again.out, again)
    again = tried(group, path, COPPERFINCH_SCENARIO=kept)
    group.check("the scenario breaks the property again", again.status == 1 and b"does not hold: [" in again.out, again.out.decode()[-500:])
    again = tried(group, tests(group, "good", KEPT), COPPERFINCH_SCENARIO=kept)
    group.check("and not the one of the firewall", again.status == 0, again.out.decode()[-500:])


def test_page(group: Group) -> None:
    """The test of docs/TESTING.md holds for the firewall, and fails as the page shows for one that lets nothing out."""
    blocks = re.findall(r"^```(?:python)?\n(.*?)^```$", (TOP / "docs/TESTING.md").read_text(), re.M | re.S)
    text = (EXAMPLES / "firewall.luc").read_text()
    group.file("test_firewall.py", blocks[0])
    group.file("firewall.limits.json", (EXAMPLES / "firewall.limits.json").read_bytes())
    group.file("firewall.luc", text)
    ended = tried(group, "test_firewall.py", COPPERFINCH_RUNS=60)
    group.check("the test of the page", ended.status == 0 and b"2 passed" in ended.out, ended.out.decode()[-500:])
    group.file("firewall.luc", text.replace("generate Event.locate(passed(from, to), outer);", ""))
    said = tried(group, "test_firewall.py", COPPERFINCH_RUNS=60).out.decode().splitlines()
    for line in blocks[1].splitlines():
        group.check(f"the failure of the page: {line}", line in said, said[:30])


VACUOUS = """
@fw.given(plan, runs=10, parts=1)
def test_of_nothing(run):
    assert not run.log.cells or True

@fw.given(plan, runs=10, parts=1)
def test_of_what_never_comes(run):
    for e in run.events("sweep"):
        assert False

@fw.given(plan, runs=10, parts=1, least={"again": 10000})
def test_of_too_few(run):
    for e in run.events("again"):
        pass
"""


def test_vacuous(group: Group) -> None:
    """A property that is true of an empty log is refused."""
    said = tried(group, tests(group, "vacuous", VACUOUS)).out.decode()
    for name, why in (("nothing", "looked at no event"), ("what_never_comes", "looked at 0 of sweep, and at least 1"), ("too_few", "of again, and at least 10000")):
        group.check(f"a property of {name}", re.search(rf"test_of_{name}: it says too little: it looked at .*{why.replace('looked at ', '')}", said) is not None, said[-1500:])


WRONG = """
@fw.given(plan, runs=20, parts=1)
def test_raises(run):
    for e in run.events("inside"):
        {}["nothing"]

@fw.given(scenarios(events={"inside": some(5, (0, 2**32), 1)}), runs=5, parts=1)
def test_range(run):
    pass

@fw.given(scenarios(events={"inside": some(5, st.integers(2**32, 2**33), 1)}), runs=5, parts=1)
def test_strategy(run):
    pass

@fw.given(scenarios(events={"nobody": 3}), runs=5, parts=1)
def test_name(run):
    pass
"""
BAD_INPUT = ("test_raises does not hold: KeyError: 'nothing'", '{}["nothing"]', "test_raises.0.scenario.json",
             "test_range: parameter 1 of inside is 0 to 4294967295, and not 4294967296", "test_strategy: parameter 1 of inside is 0 to 4294967295, and not",
             "test_name: the program has no event nobody")


def test_bad_input(group: Group) -> None:
    """Another exception, values that do not fit, a program that is refused or killed: each has its line, and no traceback."""
    ended = tried(group, tests(group, "wrong", WRONG))
    said = ended.out.decode()
    for line in BAD_INPUT:
        group.check(f"bad input: {line}", line in said, said[-3000:])
    group.check("no traceback of the package", "Traceback" not in said and "copperfinch/testing" not in said, said[-3000:])
    refused = tried(group, tests(group, "refused", KEPT, EXAMPLES / "crossed.luc")).out.decode()
    group.check("a program that is refused", "test_answers_pass: lucid check: order: declaration 4 line 5 cycle x y" in refused, refused[-800:])
    killer = group.file("killed", f"#!/bin/sh\n[ \"$1\" = run ] && kill -9 $$\nexec {group.options.program} \"$@\"\n")
    killer.chmod(0o755)
    killed = tried(group, tests(group, "killed", KEPT), LUCID=killer).out.decode()
    group.check("a program that is killed", "cannot be asked: lucid run whole: it ended with -9" in killed and "the scenario, of 0 events" in killed, killed[-1500:])


SLOW = """
import time

@fw.given(plan, runs=10000, parts=4)
def test_slow(run):
    for e in run.events():
        time.sleep(0.01)
"""


def test_interrupted(group: Group) -> None:
    """An interrupt of 10,000 scenarios, on one process or on several, leaves none of them, and says which scenario ran."""
    path = tests(group, "slow", SLOW)
    for processes in ([], ["-n", "2"]):
        name = " ".join(["interrupted", *processes])
        env = with_variables(LUCID=group.options.program, PYTHONPATH=TOP, COPPERFINCH_FAILED=name)
        child = subprocess.Popen(pytest_words(*processes, path), cwd=group.room, env=env, stdin=subprocess.DEVNULL,
                                 stdout=subprocess.PIPE, stderr=subprocess.STDOUT, start_new_session=True)
        time.sleep(5)
        group.check(f"{name}: it runs", child.poll() is None and len(members(child.pid)) >= 1 + len(processes), members(child.pid))
        os.killpg(child.pid, signal.SIGINT)
        said = child.communicate(timeout=300)[0].decode()
        end = time.monotonic() + 10
        while members(child.pid) and time.monotonic() < end:
            time.sleep(0.1)
        group.check(f"{name}: no process stays", not members(child.pid), members(child.pid))
        kept = list((group.room / name).glob("test_slow.*.interrupted.scenario.json"))
        group.check(f"{name}: the scenario is kept", kept and "events" in json.loads(kept[0].read_text()), said[-800:])
        if not processes:
            group.check("it is named", f"test_slow was interrupted in the scenario {name}/{kept[0].name if kept else ''}" in said, said[-800:])


def members(session: int) -> List[str]:
    """The processes of a session, zombies excepted."""
    found = []
    for path in Path("/proc").glob("[0-9]*/stat"):
        try:
            name, _, rest = path.read_text().rpartition(")")
        except OSError:
            continue
        state, _, _, own = rest.split()[:4]
        if int(own) == session and state != "Z":
            found.append(name)
    return found
