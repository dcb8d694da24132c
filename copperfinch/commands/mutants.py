"""Breaks a program in small ways, one at a time, and says which of the breaks its tests notice: how good are my tests?

A break is another comparison, operator, number, argument, array, event, memop or target, a condition that is always true or never, or a statement
that is left out. It counts if the program is accepted and fits the limits, and if it changes a log of the scenarios that the properties of TESTS
draw (docs/TESTING.md). Each break that no property notices is printed with its line. Without TESTS all breaks are printed that are accepted and
fit; --write FOLDER writes them as programs.
"""
import argparse
from pathlib import Path

from ..command import Once, number
from ..errors import Error
from ..mutants import mutants_of
from ..program import Program
from ..streams import Source, write

USAGE = "%(prog)s PROGRAM LIMITS [TESTS] [--runs N] [--write FOLDER] [--lucid COMMAND]"
RUNS = 40


def add_words(parser: argparse.ArgumentParser) -> None:
    """Adds the words."""
    parser.add_argument("program", metavar="PROGRAM")
    parser.add_argument("limits", metavar="LIMITS")
    parser.add_argument("tests", metavar="TESTS", nargs="?", help="a file of properties for pytest")
    parser.add_argument("--runs", type=number(1, 10000), default=RUNS, metavar="N", help=f"scenarios of each plan, {RUNS} if it is not given")
    parser.add_argument("--write", action=Once, metavar="FOLDER", help="write the programs")
    parser.add_argument("--lucid", action=Once, metavar="COMMAND", help="another program than the built one")


def run(given: argparse.Namespace) -> int:
    """Prints the breaks, or those that survive."""
    program, limits, lucid = Source.of(given.program), Source.of(given.limits), Program(given.lucid)
    lucid.layout(program, limits)
    if given.tests is None:
        folder = Path(given.write) if given.write else None
        if folder:
            folder.mkdir(parents=True, exist_ok=True)
        found = [it for it in mutants_of(program.data.decode("latin-1")) if lucid.call("layout", Source("a break", it.text.encode("latin-1")), limits).status == 0]
        for at, it in enumerate(found):
            if folder:
                (folder / f"{at}.luc").write_bytes(it.text.encode("latin-1"))
            write(f"{f'{at}.luc ' if folder else ''}{it}\n")
        write(f"{len(found)} breaks are accepted and fit\n")
        return 0
    if given.write:
        raise Error("--write goes without TESTS")
    try:
        from ..testing.score import score_of
    except ImportError as fault:
        raise Error(f"{fault}: pytest and hypothesis are needed (pip install pytest hypothesis)") from None
    score = score_of(Path(given.program), Path(given.tests), given.runs, lucid)
    write("".join(f"not noticed: {it}\n" for it in score.survivors) + f"{score}\n")
    return 0
