"""Draws an answer of `lucid` as one SVG on standard output.

- `log` draws what `run` printed for this limits file and this scenario: switches side by side, time downwards, each event for as long as it
  waited and was in the pipeline, what it sent and to whom, what was lost, and the cells at the end. Each arrow is computed: an event
  departs `stages`, `recirc` and its delay after its sender entered, and arrives after the latency of its link. A log that no run of these
  files prints is refused. The options choose the events that are drawn: those of these switches, those that entered within these ticks,
  those of other names.
- `layout` draws what `layout` or `audit` printed: the stages, and their tables with rows, operations and arrays.
- `drive` draws what `drive` or `snap` printed for these files: which packet is before which stage, step by step.

The answer is in the last file, or on standard input. Labels are cut at 40 letters and have their whole text as a tooltip; so do bars and
arrows. --show and --names show values and switches as their owner reads them; formats need --program. An answer of another form, or one that does not fit the files, is refused, and nothing is drawn.
"""
import argparse
import re
from typing import Set, Tuple

from ..command import Once, Parser
from ..draw.drive import draw_drive
from ..draw.layout import draw_layout
from ..draw.log import Choice, LogPicture
from ..drive import read_drive
from ..files import read_limits, read_scene
from ..layout import read_layout
from ..log import read_log
from ..network import trace
from ..runs import add_labels, labels_given
from ..streams import ANSWER, read, write

USAGE = ("%(prog)s log LIMITS SCENARIO [LOG] [--switches A,B..] [--ticks FROM..TO] [--without NAME,NAME..]"
         " | layout LIMITS [LAYOUT] | drive LIMITS SCENARIO [DRIVE]")


def switches(word: str) -> Set[int]:
    """Reads switch numbers with commas between."""
    if not re.fullmatch(r"[0-9]{1,2}(,[0-9]{1,2})*", word):
        raise argparse.ArgumentTypeError("no switches")
    return {int(it) for it in word.split(",")}


def ticks(word: str) -> Tuple[int, int]:
    """Reads two ticks with dots between."""
    found = re.fullmatch(r"([0-9]{1,6})\.\.([0-9]{1,6})", word)
    if not found:
        raise argparse.ArgumentTypeError("no ticks")
    return int(found[1]), int(found[2])


def names(word: str) -> Set[str]:
    """Reads names with commas between."""
    return set(word.split(","))


def add_words(parser: argparse.ArgumentParser) -> None:
    """Adds the words."""
    kinds = parser.add_subparsers(dest="kind", required=True, parser_class=Parser, metavar="log|layout|drive")
    for kind in ("log", "layout", "drive"):
        own = kinds.add_parser(kind, prog=parser.prog, usage=USAGE, description=__doc__)
        own.add_argument("limits", metavar="LIMITS")
        if kind != "layout":
            own.add_argument("scenario", metavar="SCENARIO")
            add_labels(own, needs_program=True)
        own.add_argument("answer", nargs="?", metavar=kind.upper(), help="the answer; standard input if it is absent")
        if kind == "log":
            own.add_argument("--switches", type=switches, action=Once, metavar="A,B..", help="the switches that are drawn")
            own.add_argument("--ticks", type=ticks, action=Once, metavar="FROM..TO", help="the ticks that are drawn")
            own.add_argument("--without", type=names, action=Once, default=set(), metavar="NAME,NAME..", help="events that are not drawn")


def run(given: argparse.Namespace) -> int:
    """Draws the answer."""
    limits = read_limits(read(given.limits))
    if given.kind == "layout":
        write(draw_layout(read_layout(read(given.answer, ANSWER)), limits))
        return 0
    scene, labels = read_scene(read(given.scenario)), labels_given(given, given.scenario)
    text = read(given.answer, ANSWER)
    if given.kind == "drive":
        write(draw_drive(read_drive(text), limits, scene, labels))
    else:
        choice = Choice(given.switches, given.ticks, given.without)
        write(LogPicture(trace(read_log(text), limits, scene), limits, scene, choice, labels).draw())
    return 0
