"""Names that are chosen to collide in a table of names: `check` takes no longer for them than for other names.

A search (collisions.c) finds names that fall into one group of the table with one tag, as many as the table is given: for the fixed hasher
that the kit's maps have by default, for the seeded hasher with no seed, with the seed of a text of the same size, and with the seed of the
text which that last search led to. Each list of names is written as events, at half and at full size. Prints a table. The gate takes
three of the lists; `--whole` takes all.

Fails on a text that takes more than twice the seconds of one with names that nobody chose, or more than 2.3 times those of its half, and
on names that fall into few groups under the seed that the text really has: seen with a program that reads a text of full size six times.
A table with a hasher of one fixed seed was not tried. Sees no tables of other commands than `check`.
"""
from __future__ import annotations

from pathlib import Path
from typing import Dict, List

from harness import Ended, Group, best, call, compile_c, table

COUNT, TURNS = 4096, 5
# How much a time may differ on a busy machine, in seconds, and how many names one group may have.
SLACK, FULLEST = 0.02, 64


def text_of(names: List[str]) -> bytes:
    """A program that declares an event of each name."""
    return "".join(f"event {name}();" for name in names).encode()


def lists(search: Path, whole: bool) -> Dict[str, List[str]]:
    """The lists of names, the first of names that nobody chose; some of them only if `whole` is set."""
    find = lambda *words: call([search, "find", str(COUNT), *words]).out.decode().split()
    seed = lambda names: call([search, "seed"], given=text_of(names)).out.decode().strip()
    plain = [f"n{number:07}" for number in range(COUNT)]
    found = {"names that nobody chose": plain, "for the hasher that maps have by default": find("fixed")}
    found["for the seed of the first text"] = first = find("seeded", seed(plain))
    if whole:
        found["for the seeded hasher without a seed"] = find("seeded")
        found["for the seed of the text before"] = find("seeded", seed(first))
    return found


def run(group: Group) -> None:
    search, spent = compile_c(group, "collisions.c", "-O2"), compile_c(group, "spent.c")
    rows: List[List[object]] = []
    plain = 0.0
    for name, names in lists(search, group.options.whole).items():
        times: List[float] = []
        for count in COUNT // 2, COUNT:
            path = group.file("names.luc", text_of(names[:count]))
            it = best(spent, [group.options.program, "check", path], TURNS)
            group.check(f"{name}: {count} events", it.ended.status == 0, it.ended)
            times.append(it.seconds)
        half, whole = times
        plain = plain or whole
        seed: Ended = call([search, "seed"], given=text_of(names))
        fullest = int(call([search, "fullest", seed.out.decode().strip()], given="\n".join(names).encode()).out)
        rows.append([name, f"{half:.3f}", f"{whole:.3f}", fullest])
        group.check(f"{name}: at most twice the seconds of other names", whole <= 2 * plain + SLACK, rows[-1])
        group.check(f"{name}: at most 2.3 times the seconds of its half", whole <= 2.3 * half + SLACK, rows[-1])
        group.check(f"{name}: at most {FULLEST} names in one group", fullest <= FULLEST, rows[-1])
    table(group, ["Names", "Half, s", "Whole, s", "In the fullest group"], rows)
