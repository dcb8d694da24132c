"""Writes a run as one HTML file that needs no network: the program, the layout, the time line, and the pipeline of each switch at each tick.

The page shows what `run pipe` and `layout` print, and the changes of cells that the second implementation makes of the log. If events enter at
more than --cells TICKS ticks the page has no cells, and says so. A program that does not fit the limits gives a page without pipelines.
"""
import argparse

from ..command import Once, number
from ..labels import labels_of
from ..page import page_of
from ..program import Program
from ..runs import FILES, SHOWN, add_labels
from ..streams import Source, write

USAGE = f"%(prog)s {FILES} [--lucid COMMAND] [--cells TICKS] {SHOWN}"


def add_words(parser: argparse.ArgumentParser) -> None:
    """Adds the words."""
    for name in ("program", "limits", "scenario"):
        parser.add_argument(name, metavar=name.upper())
    parser.add_argument("--lucid", action=Once, metavar="COMMAND", help="another program than the built one")
    parser.add_argument("--cells", type=number(0, 10**9), default=10**9, metavar="TICKS", help="the most ticks at which cells are shown")
    add_labels(parser)


def run(given: argparse.Namespace) -> int:
    """Writes the page."""
    files = [Source.of(path) for path in (given.program, given.limits, given.scenario)]
    labels = labels_of(given.show, given.names, files[0], given.scenario)
    write(page_of(Program(given.lucid), files[0], files[1], files[2], given.cells, labels))
    return 0
