"""Networks of switches, tick after tick (docs/LANGUAGE.md, What a program means, and docs/SCENARIO.md, Scenarios)."""
import heapq
from typing import List, Optional, Tuple

from .core import Core
from .drive import Packet, Pipe
from .interpret import Cells, Out, block_text, cells_text, empty_cells, run_whole
from .json_files import Limits, Scene
from .layout import Layout

LAST = 2 ** 64 - 1
# What waits at a switch, by the order in which it enters: ready time, events of the file before sent ones, tick and switch of the
# sender, place in the file or among what was sent; then the event and its arguments.
Waiting = Tuple[int, bool, int, int, int, int, List[int]]


class Network:
    """A network whose switches run handlers whole, or, with a layout, move packets through pipelines."""

    def __init__(self, core: Core, limits: Limits, scene: Scene, placed: Optional[Layout]) -> None:
        self.core, self.limits, self.scene = core, limits, scene
        self.pipes = [Pipe(placed) for _ in range(scene.switches)] if placed is not None else []
        self.cells: List[Cells] = [pipe.cells for pipe in self.pipes] or [empty_cells(core) for _ in range(scene.switches)]
        self.waiting: List[List[Waiting]] = [[] for _ in range(scene.switches)]
        self.lines: List[str] = []
        self.entered = self.lost = 0
        for i, e in enumerate(scene.events):
            heapq.heappush(self.waiting[e.switch], (e.at, False, 0, 0, i, e.event, e.args))

    def arrival(self, tick: int, me: int, out: Out) -> Optional[Tuple[int, int]]:
        """Scenarios: returns where and when a sent event arrives, given the tick at which its sender entered; None if it is lost."""
        departs = min(LAST, tick + self.limits.stages + self.limits.recirc + out.delay)
        if out.to is None or out.to == me:
            return me, departs
        latency = self.scene.links.get((me, out.to))
        is_down = any({a, b} == {me, out.to} and start <= departs < until for a, b, start, until in self.scene.down)
        return None if latency is None or is_down else (out.to, min(LAST, departs + latency))

    def leave(self, tick: int, me: int, event: int, args: List[int], outs: List[Out]) -> None:
        """Scenarios: writes the block of an event, and makes what it sends wait or be lost."""
        shown: List[Tuple[Out, bool]] = []
        for index, out in enumerate(outs):
            arrival = self.arrival(tick, me, out) if out.delay is not None else None
            shown.append((out, out.delay is not None and arrival is None))
            if arrival is not None:
                heapq.heappush(self.waiting[arrival[0]], (arrival[1], True, tick, me, index, out.number, out.args))
        self.lost += sum(lost for _, lost in shown)
        self.lines.append(block_text(self.core, tick, me, event, args, shown))

    def left(self, p: Packet) -> None:
        """Takes a packet that left its pipeline."""
        self.leave(p.now, p.me, p.event, p.args, p.outs())

    def turn(self, tick: int, me: int) -> None:
        """What a program means: a switch moves its packets, from the last stage on, and takes the event that was ready first."""
        if self.pipes:
            pipe = self.pipes[me]
            for k in reversed(range(len(pipe.slots))):
                packet = pipe.go(k) if pipe.slots[k] is not None else None
                if packet is not None:
                    self.left(packet)
        if not self.waiting[me] or self.waiting[me][0][0] > tick:
            return
        *_, event, args = heapq.heappop(self.waiting[me])
        self.entered += 1
        if self.pipes:
            self.pipes[me].enter(event, args, tick, me)
        else:
            self.leave(tick, me, event, args, run_whole(self.core, self.cells[me], tick, me, event, args))

    def run(self) -> str:
        """Runs all ticks, lets packets in flight finish in the order in which they entered, and returns the log."""
        for tick in range(self.scene.stop):
            for me in range(self.scene.switches):
                self.turn(tick, me)
        for p in sorted((p for pipe in self.pipes for p in pipe.drain()), key=lambda p: (p.now, p.me)):
            self.left(p)
        self.lines += [cells_text(self.core, me, cells) for me, cells in enumerate(self.cells)]
        pending = sum(len(waiting) for waiting in self.waiting)
        return ''.join(self.lines) + f'entered {self.entered} lost {self.lost} pending {pending}\n'
