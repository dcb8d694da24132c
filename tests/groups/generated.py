"""Texts that `gen` makes of a number, and the line of `bench` about their network.

Compares texts with sums that another program computed, runs each generated network whole and on pipelines, and compares the line of
`bench` with the length and the FNV-1a hash of that log. Fails if `gen`, `bench` or one of the forms is missing or differs. Sees no wrong
meaning that both ways to run share; `drawn` sees that.
"""
from __future__ import annotations

import hashlib
from typing import Iterable, List, Tuple

from harness import Ended, Group
from copperfinch.model.values import fnv

# The sums of texts whose length and FNV-1a of 64 bits another program computed: 656243 bytes and aaf906ff7e40814b, 257300 and
# 6bccb096ed300ec8, 496898 and ea67e8ae1584b9f7.
LAST = range(18446744073709551516, 18446744073709551616)
PROGRAMS = "58834ef9aef137ea21e5552285b9bd3530803fa7a83246e69b9f1b07ef38d8a4"
SCENES = "621c03fdab647fd6cf099a482ac76c87f13ed5d1982fdbafbe3606518efd55e4"
LONGEST = "854c6452662da9ace32b5b75a9e727ab283585affc34aba7dbcaed05c3ffb0a8"
EVENTS = 20


def run(group: Group) -> None:
    texts(group, "programs of 200 numbers", [("program", seed, 1) for seed in [*LAST, *range(100)]], PROGRAMS)
    texts(group, "scenarios of each length", [("scene", n - 1, n) for n in range(1, 101)], SCENES)
    texts(group, "the longest scenario", [("scene", 7, 10000)], LONGEST)
    count = group.options.runs or 50
    group.side_by_side(lambda seed: network(group, seed, EVENTS), range(group.options.seed, group.options.seed + count))
    longest_bench(group)


def texts(group: Group, name: str, asked: Iterable[Tuple[str, int, int]], wanted: str) -> None:
    """Checks the sum of generated texts, one behind the other."""
    made: List[Ended] = group.side_by_side(lambda it: group.call("gen", *map(str, it)), asked)
    group.check(name, hashlib.sha256(b"".join(it.out for it in made)).hexdigest() == wanted)


def network(group: Group, seed: int, events: int) -> None:
    """A generated program is accepted and placed, runs the same whole and on pipelines, and `bench` sums its log."""
    numbers = [str(seed), str(events)]
    files = []
    for kind in "program", "limits", "scene":
        made = group.call("gen", kind, *numbers)
        group.check(f"gen {kind} {seed}", made.status == 0 and not made.err, made)
        files.append(group.file(f"{seed}.{kind}", made.out))
    for words in ["check", files[0]], ["layout", *files[:2]]:
        ended = group.call(*words)
        group.check(f"{words[0]} of {seed}", ended.status == 0 and not ended.err, ended)
    log = group.call("run", "whole", *files)
    group.check(f"run whole of {seed}", log.status == 0 and not log.err, log)
    group.expect(f"run pipe of {seed}", group.call("run", "pipe", *files), 0, log.out)
    group.expect(f"bench {seed}", group.call("bench", *numbers), 0, line_of_bench(seed, events, log.out))


def line_of_bench(seed: int, events: int, log: bytes) -> bytes:
    last = log.splitlines()[-1].decode() if log else ""
    return f"bench seed {seed} n {events} {last} bytes {len(log)} fnv {fnv(log):016x}\n".encode()


def longest_bench(group: Group) -> None:
    """The longest network prints one line, twice the same."""
    first, second = (group.call("bench", "7", "10000") for _ in range(2))
    group.check("bench 7 10000", first.status == 0 and first.out.startswith(b"bench seed 7 n 10000 entered "), first)
    group.check("bench 7 10000 again", first == second, second)
