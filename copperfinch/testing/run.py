"""A run of a network, and what a property may ask of it."""
from collections import Counter
from functools import cached_property
from itertools import islice
from typing import Any, Counter as Counts, Dict, Iterator, List, Mapping, NoReturn, Optional, Sequence, Tuple, Union

from ..files import Limits, Scene
from ..follow import Follower
from ..labels import Labels
from ..lines import Event, Said, Sent
from ..log import Broken, Log
from ..network import Fate, Ledger, Packet, trace

Out = Union[Sent, Said]
# A switch, the name of an array, and an index.
Cell = Tuple[int, str, int]
# The most lines of what became of an event.
MOST_LINES = 60


def send(name: str, *args: int, to: Optional[int] = None, delay: int = 0) -> Sent:
    """What a handler is to send: an event, to a switch, or to its own if `to` is None."""
    return Sent(name, args, delay, to, False)


def say(text: str) -> Said:
    """What a handler is to print."""
    return Said(text)


class Run:
    """A run of a scenario. `log` is what the program printed, and `ledger` what became of each event.

    `seen` counts the events and packets that the property got, by name. `last` is the last of them: a property that fails is about it.
    """

    def __init__(self, scene: Scene, limits: Limits, log: Log) -> None:
        self.scene, self.limits, self.log = scene, limits, log
        self.seen: Counts[str] = Counter()
        self.last: Union[Event, Packet, None] = None

    @cached_property
    def ledger(self) -> Ledger:
        """What became of each event, by the rules of the network."""
        return trace(self.log, self.limits, self.scene)

    @cached_property
    def numbers(self) -> Dict[int, int]:
        """The number of an event, by its line."""
        return {event.line: number for number, event in enumerate(self.log.events)}

    def events(self, *names: str, switch: Optional[int] = None) -> Iterator[Event]:
        """Returns the events that entered, in order: all, or those of these names, or at a switch."""
        self.ask(names)
        for event in self.log.events:
            if (not names or event.name in names) and switch in (None, event.switch):
                yield self.look(event)

    def sent(self, *names: str, by: Optional[int] = None) -> Iterator[Packet]:
        """Returns the packets of these names, or all: of the scenario and of handlers, also those that were lost; `by` is the sender's switch."""
        self.ask(names)
        for packet in self.ledger.packets:
            if (not names or packet.name in names) and by in (None, packet.origin):
                yield self.look(packet)

    def ask(self, names: Sequence[str]) -> None:
        """Counts names that the property asked for, also those of which there is none."""
        self.seen.update(dict.fromkeys(names, 0))

    def chosen(self, packets: List[Packet], names: Sequence[str]) -> List[Packet]:
        """The packets of these names, which are counted, or all if there are none."""
        self.ask(names)
        found = [packet for packet in packets if not names or packet.name in names]
        self.seen.update(packet.name for packet in found if names)
        return found

    def look(self, it: Any) -> Any:
        """Counts what the property looks at."""
        self.last = it
        self.seen[it.name] += 1
        return it

    def number(self, it: Union[Event, Packet]) -> Optional[int]:
        """Returns the number of an event, or of a packet that entered."""
        return it.number if isinstance(it, Packet) else self.numbers[it.line]

    def outs(self, it: Union[Event, Packet], *names: str) -> List[Packet]:
        """Returns the packets, or those of these names, that the handler of an event sent. There are none if it did not enter."""
        number = self.number(it)
        return self.chosen([] if number is None else list(self.ledger.sends[number]), names)

    def caused(self, it: Union[Event, Packet], *names: str) -> List[Packet]:
        """Returns all packets that an event led to, or those of these names, from the first on."""
        found = self.outs(it)
        for packet in found:  # which grows
            found += self.outs(packet)
        return self.chosen(found, names)

    def ends(self, it: Packet) -> List[Packet]:
        """Returns what a packet led to in the end: those that led to nothing, were lost or did not enter."""
        found = [packet for packet in [it, *self.caused(it)] if not self.outs(packet)]
        self.seen.update(packet.name for packet in found)
        return found

    # Claims ------------------------------------------------------------------------------------------------------------------------------

    def fail(self, it: Union[Event, Packet, None], why: str) -> NoReturn:
        """Says that the property does not hold, because of an event or a packet."""
        self.last = it or self.last
        raise Broken(f"{name_of(it)} {why}" if it else why)

    def expect(self, event: Event, *wanted: Out) -> None:
        """The handler of an event sent and printed exactly this, in this order. Whether it was lost is for the ledger to say."""
        here = event.switch
        if [form_of(out, here) for out in event.outs] != [form_of(out, here) for out in wanted]:
            self.fail(event, f"sends {texts_of(event.outs)}, and not {texts_of(wanted)}")

    def expect_cells(self, wanted: Mapping[Cell, int]) -> None:
        """The cells at the end are exactly these, by switch, array and index; those that are missing are 0."""
        found = self.log.values
        for cell in sorted({*found, *wanted}):
            if found.get(cell, 0) != wanted.get(cell, 0):
                switch, array, index = cell
                self.fail(None, f"s{switch} {array}[{index}] is {found.get(cell, 0)}, and not {wanted.get(cell, 0)}")

    def expect_explained(self) -> None:
        """Nothing was lost but on a link that was down."""
        for packet in self.ledger.lost():
            if packet.fate is not Fate.DOWN:
                self.fail(packet, f"is lost: {packet.why()}")

    def replay(self, model: Any) -> None:
        """Each event does what a model says, and the cells at the end are `model.cells`. A method of the model with the name of an event gets
        the event and its arguments, and returns what its handler is to send and to print; an event without a method is to do nothing."""
        for event in self.events():
            method = getattr(model, event.name, None)
            self.expect(event, *((method(event, *event.args) if method else None) or ()))
        self.expect_cells(model.cells)

    def told(self) -> str:
        """Says as `tools/follow` what led to the event that the property looked at last, and what came of it."""
        it = self.last
        if it is None:
            return ""
        packet = it if isinstance(it, Packet) else self.ledger.entries[self.numbers[it.line]]
        first = packet if packet.sender is None else self.ledger.entries[self.ledger.back(packet.sender)[0]]
        return "\n".join(islice(Follower(self.ledger, Labels()).tree(first), MOST_LINES))


def name_of(it: Union[Event, Packet]) -> str:
    """An event or a packet, as it is printed."""
    if isinstance(it, Event):
        return str(it)
    return f"[{it.entered}] s{it.switch} {it.label()}" if it.entered is not None else f"{it.label()} of s{it.origin}"


def form_of(out: Out, here: int) -> Tuple[object, ...]:
    """What an out says, whether it was lost or not."""
    return (out.text,) if isinstance(out, Said) else (out.name, out.args, out.delay, here if out.to is None else out.to)


def texts_of(outs: Any) -> str:
    """Outs as they are printed."""
    found = [f"`{out.text}`" if isinstance(out, Said) else f"{out}{'' if out.to is None else f' to {out.to}'}{f' after {out.delay}' if out.delay else ''}" for out in outs]
    return " and ".join(found) or "nothing"
