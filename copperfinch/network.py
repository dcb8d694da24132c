"""The ledger of a run: what became of each event. It is computed from a log, its limits and its scenario by the rules of docs/SCENARIO.md, and
this is the one place that has them. A log that no run of the two files prints is refused.

    ledger = trace(read_log(text), limits, scene)
    for packet in ledger.packets:
        print(packet.label(), packet.fate.value, packet.waited)

A `Packet` is an event of the scenario or one that a handler sent. Numbers of events count those that entered, in the order of the log, from 0.
"""
import heapq
from dataclasses import dataclass, field
from enum import Enum
from typing import Dict, Iterator, List, Optional, Tuple

from .errors import FormatError
from .files import MOST, Limits, Scene
from .lines import Event, Json, Sent, call_text
from .log import Log

Window = Tuple[int, int, int, int]


class Fate(Enum):
    """What became of an event."""

    ENTERED = "entered"
    NO_SWITCH = "no switch"
    NO_LINK = "no link"
    DOWN = "down"
    WAITING = "waiting"
    LATE = "late"

    @property
    def is_lost(self) -> bool:
        """Whether no link took it: there is no such switch, no link to it, or the link was down."""
        return self in (Fate.NO_SWITCH, Fate.NO_LINK, Fate.DOWN)

    @property
    def is_pending(self) -> bool:
        """Whether it was to enter when the run ended: it waited behind others, or was ready at no tick of the run."""
        return self in (Fate.WAITING, Fate.LATE)


@dataclass
class Packet:
    """One event on its way. Ticks are counted as those of the log.

    `file` is its number in the scenario, and None if it was sent. Then `sender` is the number of the event whose handler sent it, and `out` its
    place among the outs of that event. `origin` is the switch that sent it, and `switch` the one that it is for; of the scenario both are
    one. It departs at tick `sent` (of the scenario, `at`), and is `ready` when the link has carried it; None if it is lost. `number` and
    `entered` are its number and tick in the log if it entered. `until` is the tick before which it waited: that of its entry, or the stop of
    the run. `window` is the time that its link was down, as the scenario has it: two switches, the first tick, the tick behind the last.
    """

    name: str
    args: Tuple[int, ...]
    file: Optional[int]
    sender: Optional[int]
    out: int
    origin: int
    switch: int
    sent: int
    ready: Optional[int]
    fate: Fate
    window: Optional[Window] = None
    number: Optional[int] = None
    entered: Optional[int] = None
    until: int = 0

    @property
    def waited(self) -> int:
        """For how many ticks it was ready and did not enter; in each of them another event entered its switch. Of a lost one 0."""
        return 0 if self.ready is None else max(0, self.until - self.ready)

    def label(self) -> str:
        """Returns its name and arguments, as they are printed."""
        return call_text(self.name, self.args)

    def why(self) -> str:
        """Says why it did not enter, in words; empty if it did."""
        ends = f"{self.origin} and {self.switch}"
        if self.fate is Fate.ENTERED:
            return ""
        if self.fate is Fate.NO_SWITCH:
            return f"there is no switch {self.switch}"
        if self.fate is Fate.NO_LINK:
            return f"no link joins switches {ends}"
        if self.window:
            return f"the link of switches {ends} is down from tick {self.window[2]} to before {self.window[3]}"
        if self.fate is Fate.WAITING:
            return f"ready at tick {self.ready}, it waited until the run ended before tick {self.until}"
        return f"the run ended before tick {self.until}, and it is ready at {self.ready}"

    @property
    def cause(self) -> Json:
        """What sent it, as docs/OUTPUT.md says."""
        return {"scenario": self.file} if self.sender is None else {"event": self.sender, "out": self.out}

    def ways(self) -> Json:
        """Returns its ticks, and why it did not enter, as docs/OUTPUT.md says."""
        why = None if self.fate is Fate.ENTERED else self.fate.value
        return {"sent": self.sent, "ready": self.ready, "waited": self.waited, "why": why, "window": self.window and list(self.window)}

    def json(self) -> Json:
        """Returns the object of an event that did not enter."""
        kind = "lost" if self.fate.is_lost else "pending"
        return {"kind": kind, "name": self.name, "args": list(self.args), "switch": self.switch, "cause": self.cause, **self.ways()}


@dataclass
class Ledger:
    """A log with what became of each event.

    `packets` are all events: those of the scenario in its order, then those that were sent in the order of the log. `entries[i]` is the packet
    of event i, `sends[i]` are those that its handler sent, and `waiting` those that were pending, by switch and then as they would enter.
    """

    log: Log
    packets: List[Packet] = field(default_factory=list)
    entries: List[Packet] = field(default_factory=list)
    sends: List[List[Packet]] = field(default_factory=list)
    waiting: List[Packet] = field(default_factory=list)
    turns: List[List[int]] = field(default_factory=list)
    places: List[int] = field(default_factory=list)

    def sender(self, number: int) -> Optional[int]:
        """Returns the number of the event that sent an event, or None if that is of the scenario."""
        return self.entries[number].sender

    def received(self, number: int) -> List[int]:
        """Returns the numbers of the events that an event sent and that entered."""
        return [packet.number for packet in self.sends[number] if packet.number is not None]

    def follow(self, number: int) -> List[int]:
        """Returns the numbers of an event and of all that it caused, in the order of entry."""
        found = [number]
        for caused in found:  # which grows
            found += self.received(caused)
        return sorted(found)

    def back(self, number: int) -> List[int]:
        """Returns the numbers of the events that led to an event, from the one of the scenario on; the last is the event."""
        found: List[int] = []
        at: Optional[int] = number
        while at is not None:
            found.append(at)
            at = self.sender(at)
        return found[::-1]

    def behind(self, packet: Packet) -> List[int]:
        """Returns the numbers of the events that entered while a packet waited, one for each tick, in order."""
        if not packet.waited:
            return []
        turns = self.turns[packet.switch]
        end = len(turns) if packet.number is None else self.places[packet.number]
        return turns[end - packet.waited:end]

    def lost(self) -> Iterator[Packet]:
        """Returns the packets that no link took, in the order of the log."""
        return (packet for packet in self.packets if packet.fate.is_lost)

    def event_json(self, number: int) -> Json:
        """Returns the object of an event with its cause and its ticks, and with the numbers of the events that it sent."""
        event, packet = self.log.events[number], self.entries[number]
        sends = {send.out: send for send in self.sends[number]}
        outs = [{**out.json(), "event": sends[at].number, **sends[at].ways()} if at in sends else out.json() for at, out in enumerate(event.outs)]
        return {**event.json(), "outs": outs, "number": number, "cause": packet.cause, "sent": packet.sent, "ready": packet.ready,
                "waited": packet.waited, "entered": packet.entered}

    def json(self) -> Iterator[Json]:
        """Returns the objects of the log, with the events that did not enter behind those that did."""
        yield from map(self.event_json, range(len(self.entries)))
        yield from (packet.json() for packet in self.packets if packet.number is None)
        yield from self.log.json_end()


# What waits at a switch: its order of entry, a number that no other has, and the packet.
Queue = List[Tuple[Tuple[int, bool, int, int, int], int, Packet]]


def trace(log: Log, limits: Limits, scene: Scene) -> Ledger:
    """Follows the queues. Raises FormatError for a log that no run of these files prints, with its first line that does not fit."""
    if log.end is None:
        raise FormatError("the log has no last line `entered ..`: it is cut off, or no log of `run`")
    return Queues(Ledger(log), limits, scene).run()


class Queues:
    """The queues of the switches while a log is followed."""

    def __init__(self, ledger: Ledger, limits: Limits, scene: Scene) -> None:
        self.ledger, self.limits, self.scene = ledger, limits, scene
        self.windows: Dict[Tuple[int, int], List[Window]] = {}
        for a, b, start, until in scene.down:
            self.windows.setdefault((min(a, b), max(a, b)), []).append((a, b, start, until))
        self.queues: List[Queue] = [[] for _ in range(scene.switches)]
        ledger.turns = [[] for _ in range(scene.switches)]
        # Of events that were ready at one tick those of the scenario go first, then those that were sent, by sender and number.
        for at, it in enumerate(scene.events):
            packet = Packet(it.name, it.args, at, None, 0, it.switch, it.switch, it.at, it.at, Fate.LATE)
            self.add(packet, (it.at, False, 0, 0, at))

    def add(self, packet: Packet, order: Tuple[int, bool, int, int, int]) -> None:
        """Adds a packet to the ledger, and to its queue if it is not lost."""
        self.ledger.packets.append(packet)
        if not packet.fate.is_lost:
            heapq.heappush(self.queues[packet.switch], (order, len(self.ledger.packets), packet))

    def run(self) -> Ledger:
        """Runs the ticks at which something enters, and compares the end of the log."""
        ledger, log, scene = self.ledger, self.ledger.log, self.scene
        turn = self.enter_all()
        if turn < len(log.events):
            raise FormatError(f"line {log.events[turn].line} does not fit the files: no event enters at or after tick {scene.stop}")
        ledger.waiting = [it[2] for queue in self.queues for it in sorted(queue, key=lambda it: it[0])]
        if log.end and len(ledger.waiting) != log.end[2]:
            raise FormatError(f"the last line does not fit the files: {len(ledger.waiting)} are pending")
        for packet in ledger.waiting:
            assert packet.ready is not None  # it is not lost
            packet.until = scene.stop
            packet.fate = Fate.WAITING if packet.ready < scene.stop else Fate.LATE
        for cell in log.cells:
            if cell.switch >= scene.switches:
                raise FormatError(f"the log does not fit the files: it has a switch {cell.switch}")
        return ledger

    def enter_all(self) -> int:
        """Lets what is ready enter, tick after tick; returns how many events of the log entered."""
        events, turn = self.ledger.log.events, 0
        # The next tick at which each switch takes an event: its queue's first ready tick, but not before its last turn has passed.
        free = [0] * self.scene.switches
        while True:
            ticks = [(max(queue[0][0][0], free[switch]), switch) for switch, queue in enumerate(self.queues) if queue]
            tick, switch = min(ticks, default=(MOST, 0))
            if tick >= self.scene.stop:
                return turn
            packet = heapq.heappop(self.queues[switch])[2]
            free[switch] = tick + 1
            if turn >= len(events):
                raise FormatError(f"the log does not fit the files: it has no event {packet.label()} at tick {tick} on switch {switch}")
            event = events[turn]
            if (event.tick, event.switch, event.name, event.args) != (tick, switch, packet.name, packet.args):
                wanted = f"[{tick}] s{switch} {packet.label()}"
                raise FormatError(f"line {event.line} does not fit the files: they ask for {wanted} there")
            packet.number, packet.entered, packet.until, packet.fate = turn, tick, tick, Fate.ENTERED
            self.ledger.entries.append(packet)
            self.ledger.places.append(len(self.ledger.turns[switch]))
            self.ledger.turns[switch].append(turn)
            self.send(turn, event)
            turn += 1

    def send(self, turn: int, event: Event) -> None:
        """Queues what an event sends out."""
        packets: List[Packet] = []
        for out, sent in enumerate(event.outs):
            if isinstance(sent, Sent):
                packet = self.sent_of(turn, event, out, sent)
                if packet.fate.is_lost != sent.lost:
                    raise FormatError(f"line {event.line + 1 + out} does not fit the files: {'it is not lost' if sent.lost else 'it is lost'} there")
                packets.append(packet)
                self.add(packet, (packet.ready or 0, True, event.tick, event.switch, out))
        self.ledger.sends.append(packets)

    def sent_of(self, number: int, event: Event, out: int, it: Sent) -> Packet:
        """The packet of an event that is sent: it departs `stages`, `recirc` and its delay after its sender entered, and takes its link's latency."""
        leaves = min(event.tick + self.limits.stages + self.limits.recirc + it.delay, MOST)
        target = event.switch if it.to is None else it.to
        packet = Packet(it.name, it.args, None, number, out, event.switch, target, leaves, None, Fate.LATE)
        latency = 0 if target == event.switch else self.scene.links.get((event.switch, target))
        if target >= self.scene.switches:
            packet.fate = Fate.NO_SWITCH
        elif latency is None:
            packet.fate = Fate.NO_LINK
        else:
            packet.window = self.window(event.switch, target, leaves)
            packet.fate = Fate.DOWN if packet.window else Fate.LATE
            packet.ready = None if packet.window else min(leaves + latency, MOST)
        return packet

    def window(self, a: int, b: int, tick: int) -> Optional[Window]:
        """The first window of the scenario in which a link is down at a tick."""
        return next((it for it in self.windows.get((min(a, b), max(a, b)), ()) if it[2] <= tick < it[3]), None)
