"""Instructions of calls, which a busy machine does not change: the workloads of docs/SPEED.md at a small size, and the hardest inputs at two.

Compares them with the counts of tests/instructions, and the digest of the sources with that of tests/instructions and of docs/SPEED.md.
Fails on a count that differs by more than TOLERANCE, on a digest that is not that of the sources, and without valgrind. `--fill` counts anew
(also the plain program of reference.rs, if `rustc` is there); with another program than the built one nothing is compared. Seen to fail: a
count that was lowered by 4 %; a source with one more line. Sees no cost beside instructions, as of memory that is far away.
"""
from __future__ import annotations

import json
import re
import shutil
from pathlib import Path
from typing import Dict, List, Tuple

from harness import PROGRAM, TESTS, TOP, Group, digest_of_sources, instructions, table

from . import hostile, speed

COUNTS = TESTS / "instructions"
TOLERANCE = 0.03
# Two sizes of an input at which its instructions are counted. Inputs are left out that differ from these by their size alone, or that take
# more than 100 million at the smallest.
SIZES: Dict[str, Tuple[int, int]] = {
    "8 matches of 4 behind 20 tests": (5, 10),
    "8 matches of 2 behind 60 tests": (7, 15),
    "8 matches of 16": (2, 4),
    "15 arrays in 32 arms each": (1, 3),
    "15 arrays in 32 arms each behind 40 tests": (1, 2),
    "128 sends behind an else": (8, 16),
    "512 sends behind tests of 8 parameters": (1, 2),
    "10,000 early returns": (150, 300),
    "1 MiB of assignments": (2000, 4000),
    "1 MiB of calls": (2000, 4000),
    "a chain of 1,000 functions": (125, 250),
    "4,900 names with one beginning": (150, 300),
    "a tower of 20 functions": (8, 9),
    "65,536 ticks of 8 sends": (128, 256),
    "65,536 ticks of 8 sends with 1,024 windows": (128, 256),
    "8 MiB of deep lists": (64, 128),
    "8 MiB of keys": (128, 256),
}
# Events of the networks and steps of the drive, for which speed.py takes 60,000 and 120,000.
SMALL = 1000


def measured(group: Group, with_plain: bool) -> Dict[str, List[int]]:
    """The counts: of a workload by ours and by the plain program (0 if it is not counted), of an input at both sizes."""
    speed.write_files(group, SMALL)
    programs = [group.options.program.resolve()] + ([speed.compile_reference(group)] if with_plain else [])
    jobs = [(words, [[program, *words.split()] for program in programs[: 1 if words in speed.OURS_ALONE else 2]]) for words in speed.WORKLOADS]
    counted = group.side_by_side(lambda job: [instructions(words, group.room) for words in job[1]], jobs)
    found = {f"`{words}`": [*counts, 0][:2] for (words, _), counts in zip(jobs, counted)}
    both = lambda name: [hostile.count_instructions(group, hostile.SHAPES[name], size) for size in SIZES[name]]
    return {**found, **dict(zip(SIZES, group.side_by_side(both, SIZES)))}


def recorded() -> Tuple[str, Dict[str, List[int]]]:
    """The digest and the counts of the file."""
    lines = [line.rsplit(" | ", 2) for line in COUNTS.read_text().splitlines() if line and not line.startswith("#")] if COUNTS.exists() else []
    return next((f"{line[1]} {line[2]}" for line in lines if line[0] == "sources"), ""), {line[0]: [int(it) for it in line[1:]] for line in lines if line[0] != "sources"}


def run(group: Group) -> None:
    if not group.check("valgrind is there (tests/setup installs it)", shutil.which("valgrind") is not None):
        return
    found, digest = measured(group, group.options.fill and shutil.which("rustc") is not None), digest_of_sources()
    group.check("all calls are counted", all(counts[0] for counts in found.values()), found)
    kind = "built" if group.options.program == PROGRAM else "other"
    if group.options.fill:
        plain = recorded()[1]
        lines = [f"{name} | {ours} | {other or plain.get(name, [0, 0])[1]}" for name, (ours, other) in found.items()]
        head = "# Instructions: of ours and of the plain program, or at two sizes. Made by `tests/run instructions --fill`.\n"
        COUNTS.write_text(head + "".join(f"{line}\n" for line in [f"sources | {digest} | {kind}", *lines]))
    before, counts = recorded()
    if kind == "built":
        group.check("tests/instructions is of these sources: tests/run instructions --fill", before == f"{digest} built", (before, digest))
        text = (TOP / "docs/SPEED.md").read_text()
        stale = [it for it in re.findall(r"<!-- measured by (.+?) -->.*?sources `(\w*)`\.", text, re.S) if it[1] != digest]
        group.check("the tables of docs/SPEED.md are of these sources: tests/measure", not stale and "sources `" in text, stale)
        for name, pair in found.items():
            wanted = counts.get(name, [0, 0])
            for now, then in list(zip(pair, wanted))[: 2 if name in SIZES else 1]:
                group.check(f"{name}: at most {TOLERANCE:.0%} from {then}", abs(now - then) <= TOLERANCE * then, now)
    show(group, found, counts)


def show(group: Group, found: Dict[str, List[int]], counts: Dict[str, List[int]]) -> None:
    """Prints two tables: factors of the workloads, and growth of the inputs."""
    millions = lambda count: f"{count / 1e6:.1f}" if count else ""
    ratio = lambda a, b: f"{a / b:.2f}" if a and b else ""
    plain = {name: pair[1] or counts.get(name, [0, 0])[1] for name, pair in found.items() if name not in SIZES}
    rows = [[name, millions(found[name][0]), millions(plain[name]), ratio(found[name][0], plain[name])] for name in plain]
    table(group, [f"Command, {SMALL} events or steps", "Ours, million instructions", "Plain Rust", "Factor"], rows)
    rows = [[name, *SIZES[name], *map(millions, found[name]), ratio(*found[name][::-1])] for name in SIZES]
    table(group, ["Input", "Smaller size", "Size", "Smaller, million instructions", "Million instructions", "Growth"], rows)
