"""Shows what scenarios reach of a program: handlers, branches, cases, both sides of memops, what is sent, and the cells of arrays.

Each line of the program that has something to reach is printed behind `+` if all of it was reached, `-` if nothing was and `~` if some was, with
the number of times of what was reached least. Then come the places that were not reached, the cells, and the sum. --brief leaves out the lines.
"""
import argparse
import sys
from typing import Dict, List

from ..command import Once
from ..cover import Cover, Goal, cover
from ..errors import Error
from ..program import Program
from ..streams import Source, write

USAGE = "%(prog)s PROGRAM LIMITS SCENARIO.. [--brief] [--lucid COMMAND]"
COLOURS = {"+": "\33[32m", "-": "\33[31m", "~": "\33[33m"}


def add_words(parser: argparse.ArgumentParser) -> None:
    """Adds the words."""
    parser.add_argument("program", metavar="PROGRAM")
    parser.add_argument("limits", metavar="LIMITS")
    parser.add_argument("scenarios", metavar="SCENARIO", nargs="+")
    parser.add_argument("--brief", action="store_true", help="without the lines of the program")
    parser.add_argument("--lucid", action=Once, metavar="COMMAND", help="another program than the built one")


def listing(found: Cover, is_coloured: bool) -> List[str]:
    """The lines of the program."""
    goals: Dict[int, List[Goal]] = {}
    for goal in found.goals:
        goals.setdefault(goal.line, []).append(goal)
    lines = []
    for number, text in enumerate(found.lines, 1):
        counts = [goal.count for goal in goals.get(number, [])]
        sign = " " if not counts else "+" if all(counts) else "~" if any(counts) else "-"
        line = f"{sign} {min(counts) if counts else '':>6} {number:>4} {text}".rstrip()
        lines.append(f"{COLOURS[sign]}{line}\33[0m" if is_coloured and sign in COLOURS else line)
    return lines


def cells_of(numbers: List[int]) -> str:
    """Cells as ranges."""
    ranges: List[List[int]] = []
    for number in numbers:
        if ranges and number == ranges[-1][1] + 1:
            ranges[-1][1] = number
        else:
            ranges.append([number, number])
    texts = [str(first) if first == last else f"{first}-{last}" for first, last in ranges]
    return ", ".join(texts[:12]) + (f" and {len(texts) - 12} more" if len(texts) > 12 else "")


def report(found: Cover) -> List[str]:
    """What was not reached, the cells, and the sum."""
    lines = [f"not reached: {goal}" for goal in found.missed]
    for row in found.rows:
        missing = sorted(set(range(row.size)) - row.reached)
        lines.append(f"array {row.name}: {len(row.reached)} of {row.size} cells" + (f", not {cells_of(missing)}" if missing else ""))
    return [*lines, f"reached {len(found.goals) - len(found.missed)} of {len(found.goals)}"]


def run(given: argparse.Namespace) -> int:
    """Prints what is reached."""
    program, limits, *scenarios = (Source.of(path) for path in (given.program, given.limits, *given.scenarios))
    lucid = Program(given.lucid)
    lucid.check(program)
    found = cover(program, limits, scenarios, lambda scenario: lucid.answer("run whole", program, limits, scenario))
    if not found.goals:
        raise Error(f"{program.name} has no handlers")
    lines = [] if given.brief else listing(found, sys.stdout.isatty())
    write("".join(f"{line}\n" for line in [*lines, *report(found)]))
    return 0
