"""Turns an answer of `lucid` into JSON: one object a line, in the order of the answer's lines.

`log` reads what `once` and `run` print; the other words name the call. The text is in FILE, or on standard input. docs/OUTPUT.md has the
grammar of the lines and the keys of the objects. A text of another form is refused before anything is written: a bad line, a number with
a leading zero, events or cells out of order, lines after the last one, counts that the events do not have. A log without its last line
(of `once`, or cut off between two lines) is accepted, and then has no object `end`.

With --limits and --scenario the log of a run is complete: each event has its number, its cause and its ticks, each event that was sent has the
number under which it entered or the reason why it did not, and those that were lost or are pending have objects of their own. A log that no run
of these files prints is refused. --csv prints a row for each event in place of objects, with the columns `arg0`, `arg1`.. for its arguments.

--show adds `shown` to each object with arguments or a cell: their texts by these formats, for which --program names the program. --names adds
`named`, the name of its switch.
"""
import argparse
import csv
import io
import itertools
import json
from typing import Iterable, Iterator, Optional

from ..command import Once
from ..drive import read_drive
from ..errors import FormatError
from ..files import read_limits, read_scene
from ..layout import read_layout
from ..lines import Json
from ..log import read_log
from ..network import trace
from ..runs import SHOWN_BY, add_labels, labels_given
from ..streams import ANSWER, read, write

KINDS = ("log", "layout", "audit", "drive", "snap")
USAGE = f"%(prog)s {'|'.join(KINDS)} [FILE] [--csv] [--limits LIMITS --scenario SCENARIO] {SHOWN_BY}"
PART = 10000  # so many objects are written together
COLUMNS = ["kind", "number", "at", "switch", "name"]
WAYS = ["cause", "sent", "ready", "waited", "why"]


def objects(kind: str, text: bytes, limits: Optional[str] = None, scenario: Optional[str] = None) -> Iterator[Json]:
    """Returns the objects of a text of this kind; of a log with two files, the complete ones. They are made one after another."""
    if kind == "log":
        log = read_log(text)
        if limits is not None and scenario is not None:
            return trace(log, read_limits(read(limits)), read_scene(read(scenario))).json()
        return itertools.chain((event.json() for event in log.events), log.json_end())
    if kind in ("layout", "audit"):
        return iter(read_layout(text).json())
    drive = read_drive(text)
    if (drive.snap is None) != (kind == "drive"):
        raise FormatError("it ends with a snapshot" if drive.snap else "it ends without a snapshot")
    return iter(drive.json())


def table(made: Iterable[Json]) -> str:
    """Returns a row for each event: what it is, its arguments, and of a complete log its cause and its ticks."""
    events = [it for it in made if "args" in it]
    is_complete, most = any("cause" in it for it in events), max((len(it["args"]) for it in events), default=0)
    args = [f"arg{at}" for at in range(most)]
    shown = [key for key in ("shown", "named") if any(key in it for it in events)]
    names = [name for name in COLUMNS if is_complete or name != "number"] + args + (WAYS if is_complete else []) + shown
    text = io.StringIO()
    rows = csv.DictWriter(text, names, lineterminator="\n", extrasaction="ignore")
    rows.writeheader()
    for it in events:
        cause = " ".join(f"{key} {value}" for key, value in it.get("cause", {}).items())
        rows.writerow({**it, "cause": cause, "shown": " ".join(it.get("shown", [])), **{f"arg{at}": value for at, value in enumerate(it["args"])}})
    return text.getvalue()


def add_words(parser: argparse.ArgumentParser) -> None:
    """Adds the words."""
    parser.add_argument("kind", choices=KINDS)
    parser.add_argument("file", nargs="?", metavar="FILE", help="the answer; standard input if it is absent")
    parser.add_argument("--limits", action=Once, metavar="LIMITS", help="the limits of the run, for a complete log")
    parser.add_argument("--scenario", action=Once, metavar="SCENARIO", help="its scenario")
    parser.add_argument("--csv", action="store_true", help="a table of the events of a log")
    add_labels(parser, needs_program=True)


def run(given: argparse.Namespace) -> int:
    """Writes the objects."""
    if (given.limits is None) != (given.scenario is None) or (given.limits is not None or given.csv) and given.kind != "log":
        raise argparse.ArgumentTypeError("a complete log needs two files")
    labels = labels_given(given, given.scenario)
    made = (labels.json(it) for it in objects(given.kind, read(given.file, ANSWER), given.limits, given.scenario))
    if given.csv:
        write(table(made))
    for part in iter(lambda: list(itertools.islice(made, PART)), []):
        write("".join(json.dumps(it, separators=(",", ":")) + "\n" for it in part))
    return 0
