"""The ledger of a run (copperfinch.network): each event's cause, ticks, waits and fate are those that the second implementation meets.

A network of `copperfinch.model` is watched while it runs: what waits at each turn, what enters, and what is sent. Its ready ticks, entries and
waits are compared with those of the ledger; why an event is lost is found anew from the scenario. Each line of MUTANTS is a change of
copperfinch/network.py that a network must notice. It cannot see a fault that the ledger and the second implementation share.
"""
from __future__ import annotations

import json
import sys
from collections import Counter
from dataclasses import dataclass, field
from types import ModuleType
from typing import Any, Dict, Iterator, List, Optional, Tuple

from harness import EXAMPLES, TOP, Group
from samples import example, networks

from copperfinch import network
from copperfinch.files import read_limits, read_scene
from copperfinch.log import read_log
from copperfinch.model.answers import Program
from copperfinch.model.interpret import Out
from copperfinch.model.json_files import read_limits as model_limits
from copperfinch.model.json_files import read_scene as model_scene
from copperfinch.model.network import Network
from copperfinch.network import Fate
from copperfinch.scenarios import MAKERS, draw, text_of

# Waits, far ticks, and all ways to be lost: sends to the switch that is named, with a delay.
ROADS = """event note(int<<64>> n);
event send(int to, int<<32>> delay, int n);
handle note(int<<64>> n) { printf("note"); }
handle send(int to, int<<32>> delay, int n) { printf("send"); generate Event.delay(Event.locate(note((int<<64>>)n), to), delay); }
"""
SCENE = {
    "version": 2, "switches": 3, "stop": 40, "links": [[0, 1, 5], [2, 1, 3]], "down": [[1, 0, 5, 8], [0, 1, 6, 20], [1, 2, 9, 10]],
    "events": [{"at": at, "switch": switch, "name": "send", "args": args} for at, switch, args in (
        (0, 0, [1, 0, 1]), (0, 0, [1, 0, 2]), (2, 0, [1, 0, 3]), (3, 0, [1, 1, 4]), (3, 0, [1, 11, 5]), (4, 0, [1, 9, 6]), (5, 0, [2, 0, 7]),
        (5, 0, [3, 0, 8]), (6, 0, [0, 0, 9]), (6, 0, [63, 0, 10]), (7, 2, [1, 0, 11]), (6, 2, [1, 0, 12]), (8, 2, [1, 4000000000, 13]), (41, 1, [0, 0, 14]),
        *((39, 1, [1, 0, n]) for n in range(15, 18)), (40, 1, [0, 0, 18]), *((20, 2, [2, 0, n]) for n in range(20, 28)))],
}
MUTANTS = [
    ("takes no way back", "self.limits.stages + self.limits.recirc", "self.limits.stages"),
    ("keeps links down a tick too long", "it[2] <= tick < it[3]", "it[2] <= tick <= it[3]"),
    ("names the last window", ".append((a, b, start, until))", ".insert(0, (a, b, start, until))"),
    ("takes a missing switch for a missing link", "packet.fate = Fate.NO_SWITCH", "packet.fate = Fate.NO_LINK"),
    ("counts a tick too much", "max(0, self.until - self.ready)", "max(0, self.until - self.ready + 1)"),
    ("waits behind later events", "turns[end - packet.waited:end]", "turns[end - packet.waited + 1:end + 1]"),
    ("lets pending events wait for nothing", "packet.until = scene.stop", "packet.until = 0"),
    ("calls each pending event late", "if packet.ready < scene.stop", "if packet.ready < 0"),
    ("names the event before the sender", "None, number, out, event.switch", "None, max(0, number - 1), out, event.switch"),
    ("counts outs without what is printed", "packet = self.sent_of(turn, event, out, sent)", "packet = self.sent_of(turn, event, len(packets), sent)"),
]
# Where it was ready, whether it was sent, the tick and the switch of its sender, and its place there or in the file; then its fate.
Key = Tuple[Optional[int], bool, int, int, int]


@dataclass
class Met:
    """What became of an event: its fate, the window, its number, when it entered, and which events entered while it waited."""

    fate: Fate
    window: Optional[Tuple[int, ...]] = None
    number: Optional[int] = None
    entered: Optional[int] = None
    behind: List[int] = field(default_factory=list)
    sender: Optional[int] = None


class Watched(Network):
    """A network that notes what it meets."""

    def __init__(self, *words: Any) -> None:
        super().__init__(*words)
        self.met: Dict[Key, Met] = {}
        self.now: Tuple[int, int] = (0, 0)
        self.windows = [tuple(it) for it in self.scene.down]
        for queue in self.waiting:
            self.met.update({it[:5]: Met(Fate.LATE) for it in queue})

    def leave(self, tick: int, me: int, event: int, args: List[int], outs: List[Out]) -> None:
        for index, out in enumerate(outs):
            if out.delay is None:
                continue
            arrival, to = self.arrival(tick, me, out), me if out.to is None else out.to
            met = Met(Fate.LATE, sender=self.entered - 1)
            if arrival is None:
                departs = tick + self.limits.stages + self.limits.recirc + out.delay
                met.window = next((it for it in self.windows if set(it[:2]) == {me, to} and departs in range(*it[2:])), None)
                met.fate = Fate.NO_SWITCH if to >= self.scene.switches else Fate.DOWN if (me, to) in self.scene.links else Fate.NO_LINK
            self.met[arrival and arrival[1], True, tick, me, index] = met
        super().leave(tick, me, event, args, outs)

    def turn(self, tick: int, me: int) -> None:
        ready = [self.met[it[:5]] for it in self.waiting[me] if it[0] <= tick]
        first = self.met[min(self.waiting[me])[:5]] if ready else None
        for met in ready:
            if met is first:
                met.fate, met.number, met.entered = Fate.ENTERED, self.entered, tick
            else:
                met.fate = Fate.WAITING
                met.behind.append(self.entered)
        super().turn(tick, me)


def watched(program: bytes, limits: bytes, scene: bytes) -> Tuple[bytes, Dict[Key, Met]]:
    """The log of a network, and what became of each event."""
    core = Program(program.decode("latin-1")).check()
    made = Watched(core, model_limits(limits), model_scene(scene, core), None)
    return made.run().encode("latin-1"), made.met


def differences(module: Any, log: bytes, limits: bytes, scene: bytes, met: Dict[Key, Met]) -> Iterator[object]:
    """Where a ledger differs from what a network met."""
    ledger = module.trace(read_log(log), read_limits(limits), read_scene(scene))
    found: Dict[Key, Met] = {}
    for packet in ledger.packets:
        sender = None if packet.sender is None else ledger.log.events[packet.sender]
        key = (packet.ready, False, 0, 0, packet.file) if sender is None else (packet.ready, True, sender.tick, sender.switch, packet.out)
        behind = ledger.behind(packet)
        if len(behind) != packet.waited:
            yield "a wait of another length", packet, behind
        found[key] = Met(Fate(packet.fate.value), packet.window, packet.number, packet.entered, behind, packet.sender)
    yield from ((key, found.get(key), met.get(key)) for key in met.keys() | found.keys() if found.get(key) != met.get(key))


def cases() -> Iterator[Tuple[str, bytes, bytes, bytes]]:
    """Programs with their limits and scenarios: all ways to be lost, the examples, and drawn scenarios of the ten applications."""
    yield "roads", ROADS.encode(), b'{"stages": 4, "recirc": 1}', json.dumps(SCENE).encode()
    for name in networks():
        yield (name, *(path.read_bytes() for path in example(name)))
    for name in MAKERS:
        files = [(EXAMPLES / f"{name}.{end}").read_bytes() for end in ("luc", "limits.json")]
        yield f"drawn {name}", files[0], files[1], text_of(draw(name, 150, 88)).encode()


def test_ledger(group: Group) -> None:
    """Each event of each network."""
    fates: Counter[Fate] = Counter()
    for name, program, limits, scene in cases():
        log, met = watched(program, limits, scene)
        wrong = next(differences(network, log, limits, scene, met), None)
        group.check(f"the ledger of {name}", wrong is None, wrong)
        fates.update(it.fate for it in met.values())
    group.check("events of all fates", set(fates) == set(Fate) and min(fates.values()) >= 2, fates)
    group.note(f"ledger: {', '.join(f'{count} {fate.value}' for fate, count in fates.items())}")


def mutant(old: str, new: str) -> Any:
    """Returns copperfinch.network with a text changed."""
    text = (TOP / "copperfinch/network.py").read_text()
    made = ModuleType("copperfinch.network_mutant")
    made.__package__ = "copperfinch"
    sys.modules[made.__name__] = made
    exec(compile(text.replace(old, new), made.__name__, "exec"), made.__dict__)  # noqa: S102
    return made if text.count(old) == 1 else None


def test_mutants(group: Group) -> None:
    """Each mutant differs on one of the networks."""
    seen = [(*files[2:], *watched(*files[1:])) for files in list(cases())[:4]]
    for name, old, new in MUTANTS:
        module = mutant(old, new)
        if group.check(f"a ledger that {name} is found in the text", module is not None):
            group.check(f"a ledger that {name} is noticed", any(is_other(module, *files) for files in seen))


def is_other(module: Any, limits: bytes, scene: bytes, log: bytes, met: Dict[Key, Met]) -> bool:
    """Whether a ledger refuses a log, or differs."""
    try:
        return next(differences(module, log, limits, scene, met), None) is not None
    except (ValueError, IndexError):
        return True
