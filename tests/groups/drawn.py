"""Drawn calls of all commands, with their files: the built program against the second implementation of copperfinch/model.

    tests/run drawn [--runs N] [--seed S]
    tests/run drawn --whole --runs N            other calls in each run; those that fail are kept in .hypothesis/, and tried first
    tests/run drawn --seed S --only NUMBER      one call, with its files and both answers

Hypothesis draws them, the same ones for the same seed. Fails on another exit
code, output or line of errors (of status 6 any cycle that the order allows is right); hypothesis makes the files of a call that fails smaller,
and they are printed with both answers. Fewer placed programs, losses, windows, waiting events, operations that never act, changed or
accepted texts than LEAST for each 1,000 calls count as a failure, so that a generator that draws only refusals is seen. Sees no fault that
both implementations have, and no form that tests/drawn does not draw.
"""
from __future__ import annotations

import json
import re
from collections import Counter
from typing import Tuple

import pytest
from copperfinch.model import Answer, agrees
from copperfinch.model.nodes import Literal
from copperfinch.bounded import deeply
from drawn.cases import COMMANDS, Case, cases, draw_case
from harness import TOP, Ended, Group
from hypothesis import HealthCheck, Phase, given, settings
from hypothesis import seed as seeded
from hypothesis.database import DirectoryBasedExampleDatabase

RUNS, PIECES = 3000, 4
LEAST = {"accepted": 250, "placed": 120, "never acts": 20, "lost": 20, "windows": 2, "waiting": 40}
LEAST.update({"changed": 100, "changed and accepted": 10})
ALWAYS = {"deadline": None, "suppress_health_check": list(HealthCheck), "report_multiple_bugs": False, "print_blob": False}


def contradicts(guard: Tuple[Literal, ...]) -> bool:
    """Whether the literals of a guard never hold together."""
    return any(
        a.field == b.field and (a.equal and b.equal and a.value != b.value or a.equal != b.equal and a.value == b.value)
        for a in guard
        for b in guard
    )


def look(case: Case, answer: Answer, seen: Counter) -> None:
    """Counts what a call met."""
    seen["changed"] += case.changed
    if answer.status != 0 or case.command in ("gen", "bench"):
        return
    seen["accepted"] += 1
    seen["changed and accepted"] += case.changed
    if answer.program.code is not None:
        seen["placed"] += 1
        seen["never acts"] += any(contradicts(op.guard) for op in answer.program.code.ops)
    ending = re.search(rb"\nentered (\d+) lost (\d+) pending (\d+)\n$", b"\n" + answer.out)
    if ending:
        for name, count in zip(("entered", "lost", "waiting"), ending.groups()):
            seen[name] += int(count) > 0
        scenario = answer.call.files["scenario"]
        scene = json.loads(case.files[scenario])
        if scene.pop("down", None) and int(ending.group(2)) > 0:
            other = Case(case.words, {**case.files, scenario: json.dumps(scene).encode()})
            seen["windows"] += other.model().out != answer.out


def differs(case: Case, program: str, folder: str) -> bool:
    """Whether the program answers other than the second implementation does."""
    ended = case.call(program, folder)
    return not agrees(case.model(), ended.status, ended.out, ended.err)


def shown(case: Case, program: str, folder: str) -> str:
    """A call with its files and both answers."""
    made, ended = case.model(), case.call(program, folder)
    lines = ["words: " + " ".join(case.words)]
    lines += [f'-- {name}\n{data.decode("latin-1")}' for name, data in case.files.items()]
    for title, answer in (("second implementation", Ended(made.status, made.out, made.err)), ("program", ended)):
        lines.append(f'-- {title}: status {answer.status}\n{answer.out.decode("latin-1")[:2000]}{answer.err.decode("latin-1")}')
    return "\n".join(lines)


@pytest.mark.parametrize("piece", range(PIECES))
def test_drawn(group: Group, piece: int) -> None:
    program, room, options = str(group.options.program), str(group.room), group.options
    runs, counts, seen = (options.runs or RUNS) // PIECES, Counter(), Counter()

    def answers_alike(case: Case) -> None:
        ended, answer = case.call(program, room), case.model()
        counts[case.command, ended.status] += 1
        look(case, answer, seen)
        assert agrees(answer, ended.status, ended.out, ended.err), shown(case, program, room)

    test = given(cases())(answers_alike)
    if options.whole:
        test = settings(max_examples=runs, database=DirectoryBasedExampleDatabase(TOP / ".hypothesis"), **ALWAYS)(test)
    else:
        test = seeded(options.seed * PIECES + piece)(settings(max_examples=runs, phases=[Phase.generate, Phase.shrink], **ALWAYS)(test))
    try:
        deeply(test)
        group.passed += runs
    except AssertionError as differs:
        group.check("a drawn call", False, differs)
    report(group, counts, seen, runs)


def report(group: Group, counts: Counter, seen: Counter, runs: int) -> None:
    """Prints the counts by command and status, and checks that enough of each kind were drawn."""
    statuses = sorted({status for _, status in counts})
    group.note("drawn: command      " + "".join(f"{status:>7}" for status in statuses))
    for command in COMMANDS:
        group.note(f"drawn: {command:<13}" + "".join(f"{counts[command, status]:>7}" for status in statuses))
    group.note("drawn: " + ", ".join(f"{name} {count}" for name, count in sorted(seen.items())))
    for name, least in LEAST.items():
        if runs >= 500:
            group.check(f"{name}: {least} of 1,000", seen[name] * 1000 >= least * runs, seen[name])


def test_only(group: Group) -> None:
    """Shows the calls of `--only`, which are drawn without hypothesis."""
    program, room = str(group.options.program), str(group.room)
    for number in group.options.only:
        case = deeply(lambda: draw_case(group.options.seed, int(number)))
        group.note(deeply(lambda: shown(case, program, room)))
        group.check(number, not deeply(lambda: differs(case, program, room)))
