"""Prints each change of a cell, or of the cells of an array: its tick, the event that made it, and both values.

CELL is ARRAY[INDEX], or ARRAY for all of its cells; of several arrays of a name the last declared is meant. --switch takes the number of a switch
or its name. --json prints one object a line. The log is that of `run whole`, or of --log; the changes come from the second implementation, which
runs each event of the log once, and a log that it does not make is refused.
"""
import argparse
import json
import re

from ..cells import history
from ..command import Once
from ..errors import Error
from ..labels import cut
from ..runs import FILES, OPTIONS, add_words as add_run, run_of
from ..streams import write

USAGE = f"%(prog)s {FILES} CELL [--switch SWITCH] [--json] {OPTIONS}"


def add_words(parser: argparse.ArgumentParser) -> None:
    """Adds the words."""
    add_run(parser)
    parser.add_argument("cell", metavar="CELL")
    parser.add_argument("--switch", action=Once, metavar="SWITCH", help="the switch whose cells are shown; all if it is absent")
    parser.add_argument("--json", action="store_true", help="one JSON object a line")


def run(given: argparse.Namespace) -> int:
    """Prints the changes."""
    named = re.fullmatch(r"([A-Za-z_][A-Za-z0-9_]*)(?:\[([0-9]{1,20})\])?", given.cell)
    if not named:
        raise Error(f"{cut(given.cell)} is no cell: write ARRAY[INDEX] or ARRAY")
    run = run_of(given)
    made = history(run.program, run.ledger)
    array, index = made.array(named[1]), None if named[2] is None else int(named[2])
    if index is not None and index >= made.arrays[array].size:
        raise Error(f"{named[1]} has {made.arrays[array].size} cells, counted from 0")
    switches = [it for it in range(run.scene.switches) if given.switch in (None, str(it), f"s{it}", run.labels.switch(it))]
    if not switches:
        raise Error(f"there is no switch {cut(given.switch)}")
    lines = []
    for it in made.changes:
        if it.array == array and index in (None, it.cell) and it.switch in switches:
            event, labels = run.ledger.log.events[it.event], run.labels
            values = f"{labels.value(named[1], it.old)} -> {labels.value(named[1], it.new)}"
            text = f"[{event.tick}] {labels.switch(it.switch)} {named[1]}[{it.cell}]: {values}, by event {it.event} {labels.call(event.name, event.args)}"
            lines.append(json.dumps(labels.json(made.json(it, event)), separators=(",", ":")) if given.json else text)
    write("".join(f"{line}\n" for line in lines))
    return 0
