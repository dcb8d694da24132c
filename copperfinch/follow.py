"""What became of an event, and what came of it, as text: the tree of what it caused, or the way back to the scenario."""
import re
from typing import Iterator, List, Set, Tuple, Union

from .errors import Error
from .labels import Labels, cut
from .lines import Said
from .network import Ledger, Packet

# The most events that a pattern may find, the most that a line names, and the deepest indentation.
MOST, NAMED, DEEPEST = 20, 5, 16
HEAD = re.compile(r"\[([0-9]{1,20})\] *(\S+) +(.*)")
CALL = re.compile(r"([A-Za-z_][A-Za-z0-9_]*) *(?:\((.*)\))?")


def found(ledger: Ledger, labels: Labels, text: str) -> List[Packet]:
    """Returns the packets that a text means: a number of the log, `[TICK] SWITCH CALL`, or `CALL` alone. A call is NAME, or NAME(ARGS) with `_` for
    any argument. Raises Error if it is none of these, or means no event or more than MOST."""
    if re.fullmatch("[0-9]{1,20}", text):
        if int(text) >= len(ledger.entries):
            raise Error(f"there is no event {text}: {len(ledger.entries)} entered, counted from 0")
        return [ledger.entries[int(text)]]
    head = HEAD.fullmatch(text)
    call = CALL.fullmatch(head[3] if head else text)
    if not call:
        raise Error(f"{cut(text)} is no event: write its number, NAME, NAME(ARGS) or [TICK] SWITCH NAME(ARGS), with _ for any argument")
    args = None if call[2] is None else [arg.strip() for arg in call[2].split(",")] if call[2].strip() else []
    made = [packet for packet in ledger.packets if packet.name == call[1] and (args is None or fits(packet, labels, args))]
    if head:
        made = [it for it in made if it.entered == int(head[1]) and head[2] in (f"s{it.switch}", labels.switch(it.switch))]
    if not made:
        raise Error(f"no event is {cut(text)}")
    if len(made) > MOST:
        first = ", ".join("one that did not enter" if it.number is None else str(it.number) for it in made[:NAMED])
        raise Error(f"{len(made)} events are {cut(text)}, more than {MOST}: name one by its number; the first are {first}")
    return made


def fits(packet: Packet, labels: Labels, args: List[str]) -> bool:
    """Whether the arguments of an event are these, as numbers or as they are shown."""
    shown = labels.values(packet.name, packet.args)
    return len(args) == len(shown) and all(arg in ("_", str(value), text) for arg, value, text in zip(args, packet.args, shown))


class Follower:
    """Writes the events of a ledger as lines. Each event is written once."""

    def __init__(self, ledger: Ledger, labels: Labels) -> None:
        self.ledger, self.labels = ledger, labels
        self.written: Set[int] = set()

    def call(self, packet: Packet) -> str:
        return self.labels.call(packet.name, packet.args)

    def named(self, number: int) -> str:
        """Names an event in a sentence."""
        return f"event {number} {self.labels.event(self.ledger.log.events[number])}"

    def came(self, packet: Packet) -> str:
        """Says where an event came from."""
        if packet.sender is None:
            return f"is events[{packet.file}] of the scenario, for tick {packet.sent}"
        ready = "" if packet.ready is None else f", ready at {packet.ready}"
        return f"was sent by {self.named(packet.sender)}, departed at tick {packet.sent}{ready}"

    def waits(self, packet: Packet) -> List[str]:
        """Says how long an event waited, and behind what."""
        behind = self.ledger.behind(packet)
        if not behind:
            return []
        events = ", ".join(f"{it} {self.labels.call(event.name, event.args)}" for it in behind[:NAMED] for event in [self.ledger.log.events[it]])
        more = f" and {len(behind) - NAMED} more" if len(behind) > NAMED else ""
        return [f"waited {len(behind)} tick{'' if len(behind) == 1 else 's'}, behind event{'' if len(behind) == 1 else 's'} {events}{more}"]

    def fate(self, packet: Packet) -> str:
        """Says that an event is lost or pending, and why."""
        return f"{'lost' if packet.fate.is_lost else 'pending'}: {packet.why()}"

    def sends(self, packet: Packet) -> str:
        """Says what became of an event that was sent."""
        head = f"sends {self.call(packet)} to {self.labels.switch(packet.switch)}: departs at tick {packet.sent}"
        if packet.number is None:
            return f"{head}, {self.fate(packet)}"
        return f"{head}, ready at {packet.ready}, enters as event {packet.number}"

    def alone(self, packet: Packet) -> List[str]:
        """The lines of an event by which nothing is caused: where it came from, and why it did not enter."""
        head = f"{self.call(packet)} for {self.labels.switch(packet.switch)} is {self.fate(packet)}" if packet.number is None else self.named(packet.number)
        return [head] + [f"  {line}" for line in (self.came(packet), *self.waits(packet))]

    def outs(self, number: int, depth: int) -> List[Tuple[int, Union[Packet, str]]]:
        """What an event did at a depth of the tree, the last first."""
        self.written.add(number)
        sends = {it.out: it for it in self.ledger.sends[number]}
        found: List[Tuple[int, Union[Packet, str]]] = []
        for at, out in enumerate(self.ledger.log.events[number].outs):
            found.append((depth, f'prints "{out.text}"' if isinstance(out, Said) else sends[at]))
        return found[::-1]

    def tree(self, packet: Packet) -> Iterator[str]:
        """The lines of an event and of all that it caused, each below the line of its sending."""
        yield from self.alone(packet)
        left = [] if packet.number is None else self.outs(packet.number, 1)
        while left:
            depth, it = left.pop()
            blank = "  " * min(depth, DEEPEST)
            if isinstance(it, str):
                yield blank + it
                continue
            yield blank + self.sends(it)
            if it.number is not None:
                yield from (f"{blank}  {line}" for line in [self.named(it.number), *(f"  {wait}" for wait in self.waits(it))])
                left += self.outs(it.number, depth + 2)

    def back(self, packet: Packet) -> Iterator[str]:
        """The lines of an event, of the one that sent it, and so on."""
        yield from self.alone(packet)
        for number in [] if packet.sender is None else self.ledger.back(packet.sender)[::-1]:
            yield from self.alone(self.ledger.entries[number])
