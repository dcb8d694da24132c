"""A pipeline whose packets move stage by stage and run the placed operations, and the moves of one (docs/SCENARIO.md, Steps)."""
from dataclasses import dataclass, replace
from typing import Any, Dict, List, Optional, Tuple

from .interpret import Cells, Out, block_text, cells_text, empty_cells
from .json_files import Scene
from .layout import Layout
from .values import low


@dataclass
class Packet:
    """A packet: the event that entered, its fields, and its outs by slot."""
    event: int
    args: List[int]
    now: int
    me: int
    fields: List[int]
    slots: Dict[int, Out]

    def outs(self) -> List[Out]:
        """Returns its outs in the order of their slots."""
        return [self.slots[k] for k in sorted(self.slots)]


class Pipe:
    """A pipeline with a slot before each stage."""

    def __init__(self, placed: Layout) -> None:
        self.placed, self.code = placed, placed.code
        self.cells = empty_cells(placed.code.core)
        self.slots: List[Optional[Packet]] = [None] * len(placed.stages)

    def enter(self, event: int, args: List[int], now: int, me: int) -> None:
        """Puts a packet into slot 0, which must be free; fields that are no inputs begin as 0."""
        fields = [event, low(now, 32), me] + args
        self.slots[0] = Packet(event, args, now, me, fields + [0] * (len(self.code.widths) - len(fields)), {})

    def go(self, k: int) -> Optional[Packet]:
        """Moves the packet in slot k, which there must be, through stage k, into the next slot, or out of the pipeline."""
        packet, self.slots[k] = self.slots[k], None
        assert packet is not None
        self.run_stage(k, packet)
        if k + 1 == len(self.slots):
            return packet
        self.slots[k + 1] = packet
        return None

    def run_stage(self, k: int, packet: Packet) -> None:
        """Lets each table read the fields as the packet entered the stage; then all that act write together."""
        entered = list(packet.fields)
        for table in self.placed.stages[k]:
            for row in table:
                if all(entered[field] == value for field, value in row.pattern):
                    for i in row.ops:
                        self.act(i, entered, packet)
                    break

    def act(self, i: int, entered: List[int], packet: Packet) -> None:
        """Lets an operation act with its operands read from these fields."""
        op = self.code.ops[i]
        values = [entered[x.value] if x.is_field else x.value for x in op.operands]
        if op.kind == 'touch':
            cells = self.cells[op.number]
            cell, get, put = values[0] % len(cells), low(values[1], op.width), low(values[2], op.width)
            old = cells[cell]
            cells[cell] = op.set.apply(old, put)
            if op.to is not None:
                packet.fields[op.to] = op.get.apply(old, get)
        elif op.kind == 'gen':
            to = values.pop() if op.targeted else None
            packet.slots[op.slot] = Out(op.number, values[:-1], values[-1], to)
        elif op.kind == 'say':
            packet.slots[op.slot] = Out(op.number, values)
        else:
            packet.fields[op.to] = op.result(values, self.code.widths[op.to])

    def drain(self) -> List[Packet]:
        """Lets the packets in flight finish, the oldest first."""
        done: List[Packet] = []
        for start in reversed(range(len(self.slots))):
            if self.slots[start] is not None:
                done += [p for p in [self.go(k) for k in range(start, len(self.slots))] if p is not None]
        return done

    def settled(self) -> Cells:
        """Returns the cells that the packets in flight leave behind when they finish."""
        copy = Pipe(self.placed)
        copy.cells = [list(row) for row in self.cells]
        copy.slots = [None if p is None else replace(p, fields=list(p.fields), slots={}) for p in self.slots]
        copy.drain()
        return copy.cells


def packet_text(pipe: Pipe, p: Optional[Packet]) -> str:
    """Returns the block of a packet that left, if one did; in a drive nothing is lost."""
    return '' if p is None else block_text(pipe.code.core, p.now, p.me, p.event, p.args, [(out, False) for out in p.outs()])


class Drive:
    """A pipeline, the events of the file, and how many of them entered."""

    def __init__(self, placed: Layout, scene: Scene) -> None:
        self.pipe, self.core, self.events = Pipe(placed), placed.code.core, scene.events
        self.entered = 0

    def step(self, step: Tuple[Any, ...]) -> str:
        """Does a step, and returns its lines; one that cannot be done changes nothing."""
        slots = self.pipe.slots
        if step[0] == 'look':
            a = self.core.arrays[step[1]]
            cell = step[2] % a.size
            return f'look {a.name}[{cell}] = {self.pipe.cells[step[1]][cell]}\n'
        if step[0] == 'go':
            k = step[1]
            if k >= len(slots) or slots[k] is None:
                return f'empty {k}\n'
            if k + 1 < len(slots) and slots[k + 1] is not None:
                return f'ahead {k}\n'
            return f'go {k}\n' + packet_text(self.pipe, self.pipe.go(k))
        if self.entered == len(self.events):
            return 'none\n'
        if slots[0] is not None:
            return 'busy\n'
        e = self.events[self.entered]
        self.pipe.enter(e.event, e.args, e.at, e.switch)
        self.entered += 1
        return f'enter {self.entered - 1}\n'

    def snap(self) -> str:
        """Returns a snapshot: how many entered, and the cells once they have left."""
        return f'snap after {self.entered}\n' + cells_text(self.core, 0, self.pipe.settled())


def drive(placed: Layout, scene: Scene, snap_after: Optional[int]) -> str:
    """Does the steps, lets the packets in flight finish, and writes what `drive` or `snap` writes."""
    made = Drive(placed, scene)
    first = scene.steps[:snap_after]
    lines = [made.step(step) for step in first]
    snap = '' if snap_after is None else made.snap()
    lines += [made.step(step) for step in scene.steps[len(first):]]
    lines += [packet_text(made.pipe, p) for p in made.pipe.drain()]
    lines.append(cells_text(made.core, 0, made.pipe.cells))
    lines.append(f'entered {made.entered} left {len(scene.events) - made.entered}\n')
    return ''.join(lines) + snap
