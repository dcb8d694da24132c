"""Logs, which `lucid once` and `lucid run` print (docs/OUTPUT.md), and the checks of a property of a log.

    log = read_log(Path("run.log").read_bytes())
    for event in log.named("packet"):
        print(event.tick, event.switch, event.args, event.sent)
    log.cell(0, "seen", 3)

A script that checks a property has a function that takes a `Log`, raises `Broken` if the property does not hold, and returns a line that
says what it looked at. `run_check` does the rest: it reads the log from the file that is named, or from standard input.
"""
import re
import sys
from dataclasses import dataclass, field
from functools import cached_property
from typing import Callable, Dict, Iterator, List, Optional, Tuple

from .errors import Error
from .lines import NUMBER, Cell, Event, Json, Lines, Said, Sent
from .model.values import hash_of as hash_of_words

__all__ = ["Broken", "Cell", "Event", "Log", "Said", "Sent", "hash_of", "only", "read_cells", "read_log", "run_check"]
END = re.compile(rf"entered {NUMBER} lost {NUMBER} pending {NUMBER}")


class Broken(Error):
    """The property of a log does not hold, or the text is no whole log. Its text says why."""


@dataclass
class Log:
    """The events of a run in the order of entry, and the cells at its end that are not 0.

    `end` has how many events entered, were lost and were pending. It is None for the log of `once`, and for one that was cut off.
    """

    events: List[Event] = field(default_factory=list)
    cells: List[Cell] = field(default_factory=list)
    end: Optional[Tuple[int, int, int]] = None

    @cached_property
    def values(self) -> Dict[Tuple[int, str, int], int]:
        """The values of the cells, by switch, array and index."""
        return {(cell.switch, cell.array, cell.index): cell.value for cell in self.cells}

    def named(self, *names: str) -> Iterator[Event]:
        """Returns the events of these names, in order."""
        return (event for event in self.events if event.name in names)

    def cell(self, switch: int, array: str, index: int) -> int:
        """Returns the value of a cell at the end. Of two arrays of one name, the later one counts if it is not 0 there."""
        return self.values.get((switch, array, index), 0)

    def json(self) -> List[Json]:
        """Returns the objects of the log, one for each event, for each cell and for the last line."""
        return [event.json() for event in self.events] + self.json_end()

    def json_end(self) -> List[Json]:
        """Returns the objects behind those of the events."""
        found = [cell.json() for cell in self.cells]
        return found if self.end is None else [*found, {"kind": "end", **dict(zip(("entered", "lost", "pending"), self.end))}]


def read_log(text: bytes) -> Log:
    """Reads a log. Events rise by tick and switch, and the counts of the last line are those of the events. Raises FormatError."""
    lines = Lines(text, "log")
    log = Log()
    before = (-1, -1)
    while True:
        first = lines.at
        event = lines.event()
        if event is None:
            break
        if event.switch > 63 or (event.tick, event.switch) <= before:
            lines.at = first
            lines.refuse()
        before = (event.tick, event.switch)
        log.events.append(event)
    log.cells = lines.cells(False)
    found = lines.take(END)
    if found:
        log.end = int(found[1]), int(found[2]), int(found[3])
        lost = sum(sent.lost for event in log.events for sent in event.sent)
        if log.end[:2] != (len(log.events), lost):
            lines.refuse_last(f"{len(log.events)} entered and {lost} lost before it")
    lines.end()
    return log


def read_cells(text: bytes) -> List[Cell]:
    """Reads the cells of a log of `run` without its events, which takes less time. They follow the last line that is one of an event."""
    last = max((b"\n" + text).rfind(start) for start in (b"\n[", b"\n  "))
    lines = Lines(text[text.find(b"\n", last) + 1:] if last >= 0 else text, "log")
    cells = lines.cells(False)
    lines.need(END)
    lines.end()
    return cells


# Checks of a property -------------------------------------------------------------------------------------------------------------------


def hash_of(width: int, seed: int, *args: int) -> int:
    """Returns `hash<<width>>(seed, args..)` of the language."""
    return hash_of_words(width, [seed, *args])


def only(event: Event, *names: str) -> Sent:
    """Returns the one event of these names that an event sent; raises Broken if there is none or several."""
    found = [sent for sent in event.sent if sent.name in names]
    if len(found) != 1:
        raise Broken(f"{event} sent {len(found)} of {' and '.join(names)}, not 1")
    return found[0]


def run_check(check: Callable[[Log], str]) -> None:
    """Reads the log that the words name, checks it, prints a line, and exits: with 0 if the property holds, with 1 if not."""
    if len(sys.argv) > 2:
        print(f"usage: {sys.argv[0]} [LOG]", file=sys.stderr)
        sys.exit(2)
    try:
        if len(sys.argv) == 2:
            with open(sys.argv[1], "rb") as file:
                text = file.read()
        else:
            text = sys.stdin.buffer.read()
        log = read_log(text)
        if log.end is None:
            raise Broken("the log has no end")
        answer = check(log)
    except (Error, OSError) as why:
        print(f"broken: {why}")
        sys.exit(1)
    except (IndexError, ValueError, OverflowError):
        # An event has fewer arguments than the example's.
        print("broken: this is no log of the example")
        sys.exit(1)
    print(f"holds: {answer}")
