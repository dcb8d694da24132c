"""Cells in time: each change of a cell in a run, by the event that made it. The second implementation (copperfinch.model) runs the events of the
log in their order, once each, so the work is linear in the log. What it sends and the cells at the end must be those of the log."""
from dataclasses import dataclass
from typing import Any, Dict, List, Tuple

from .bounded import deeply
from .errors import Error
from .labels import core_of
from .lines import Event, Json, Sent
from .model.core import ArrayDef, Core
from .model.interpret import Out, empty_cells, out_text, run_whole
from .network import Ledger
from .streams import Source


@dataclass(frozen=True)
class Change:
    """A change of a cell: the number of the event that made it, the number of its array, and both values."""

    event: int
    switch: int
    array: int
    cell: int
    old: int
    new: int


class Row(List[int]):
    """The cells of an array on a switch, which note their changes."""

    def __init__(self, cells: List[int], noted: List[Tuple[int, int, int, int]], array: int) -> None:
        super().__init__(cells)
        self.noted, self.array = noted, array

    def __setitem__(self, index: Any, value: Any) -> None:
        if self[index] != value:
            self.noted.append((self.array, index, self[index], value))
        super().__setitem__(index, value)


@dataclass
class History:
    """The arrays of a program, and all changes of their cells in the order of the log."""

    arrays: List[ArrayDef]
    changes: List[Change]

    def array(self, name: str) -> int:
        """Returns the number of the last declared array of a name. Raises Error if there is none."""
        numbers = [number for number, array in enumerate(self.arrays) if array.name == name]
        if not numbers:
            raise Error(f"the program has no array {name}")
        return numbers[-1]

    def json(self, change: Change, event: Event) -> Json:
        """Returns the object of a change."""
        return {"kind": "change", "at": event.tick, "switch": change.switch, "array": self.arrays[change.array].name, "cell": change.cell,
                "old": change.old, "new": change.new, "event": change.event}


def history(program: Source, ledger: Ledger) -> History:
    """Returns the changes of the cells in a run. Raises Error if the program is refused, or if its handlers do not make this log."""
    core = core_of(program)
    return deeply(lambda: history_of(core, ledger))


def history_of(core: Core, ledger: Ledger) -> History:
    noted: List[Tuple[int, int, int, int]] = []
    cells: Dict[int, List[List[int]]] = {}
    # The declared event of each that was sent: several may have one name.
    declared: Dict[Tuple[int, int], int] = {}
    found: List[Change] = []
    for number, (event, packet) in enumerate(zip(ledger.log.events, ledger.entries)):
        own = core.event_named(event.name) if packet.sender is None else declared[packet.sender, packet.out]
        if own is None or not core.fits(own, list(event.args)):
            raise Error(f"line {event.line}: the program has no event {event.label()}")
        if event.switch not in cells:
            cells[event.switch] = [Row(row, noted, at) for at, row in enumerate(empty_cells(core))]
        outs = run_whole(core, cells[event.switch], event.tick, event.switch, own, list(event.args))
        compare(core, event, outs)
        declared.update({(number, at): out.number for at, out in enumerate(outs)})
        found += [Change(number, event.switch, *it) for it in noted]
        noted.clear()
    last = [(switch, core.arrays[at].name, index, value) for switch in sorted(cells) for at, row in enumerate(cells[switch])
            for index, value in enumerate(row) if value]
    if last != [(it.switch, it.array, it.index, it.value) for it in ledger.log.cells]:
        raise Error("the cells at the end of the log are not those that its events make")
    return History(core.arrays, found)


def compare(core: Core, event: Event, outs: List[Out]) -> None:
    """Refuses an event that sends or prints something else than its lines say."""
    for out, it in zip(outs, event.outs):
        line = f"  generate {it} delay {it.delay} {'here' if it.to is None else f'to {it.to}'}\n" if isinstance(it, Sent) else f"  say {it.text}\n"
        if out_text(core, out, False) != line:
            break
    else:
        if len(outs) == len(event.outs):
            return
    raise Error(f"line {event.line}: the program's handler of {event.label()} does something else")
