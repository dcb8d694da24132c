"""Shows what became of an event: what sent it, when it was ready, what it waited behind, when it entered, and what came of it, to the leaves.

EVENT is the number of an event in the log, counted from 0; `[TICK] SWITCH NAME(ARGS)`; or a pattern, NAME or NAME(ARGS) with `_` for any argument.
A pattern also finds events that were lost or are pending, and then the reason is shown. More than 20 events are refused. --back shows what led
to the event instead. --json prints the objects of `json log` for these events, in the order of the lines.

The log is that of `run whole`, or of --log. A log that no run of the files prints is refused.
"""
import argparse
import json
from typing import List

from ..follow import Follower, found
from ..network import Ledger, Packet
from ..runs import FILES, OPTIONS, add_words as add_run, run_of
from ..streams import write

USAGE = f"%(prog)s {FILES} EVENT [--back] [--json] {OPTIONS}"


def add_words(parser: argparse.ArgumentParser) -> None:
    """Adds the words."""
    add_run(parser)
    parser.add_argument("event", metavar="EVENT")
    parser.add_argument("--back", action="store_true", help="what led to the event")
    parser.add_argument("--json", action="store_true", help="one JSON object a line")


def numbers_of(ledger: Ledger, packet: Packet, is_back: bool) -> List[int]:
    """The events that are shown of a packet."""
    if is_back:
        return [] if packet.number is None and packet.sender is None else ledger.back(packet.number if packet.number is not None else packet.sender or 0)[::-1]
    return [] if packet.number is None else ledger.follow(packet.number)


def run(given: argparse.Namespace) -> int:
    """Prints the events."""
    run = run_of(given)
    packets = found(run.ledger, run.labels, given.event)
    follower = Follower(run.ledger, run.labels)
    lines: List[str] = []
    for packet in packets:
        if packet.number in follower.written:
            continue
        if given.json:
            made = [packet.json()] if packet.number is None else []
            numbers = numbers_of(run.ledger, packet, given.back)
            follower.written.update(numbers)
            lines += [json.dumps(run.labels.json(it), separators=(",", ":")) for it in made + [run.ledger.event_json(number) for number in numbers]]
        else:
            lines += follower.back(packet) if given.back else follower.tree(packet)
    write("".join(f"{line}\n" for line in lines))
    return 0
