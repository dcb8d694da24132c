"""The picture of a log: time goes down. Each event has a bar for as long as it is in the pipeline, a thin tail for as long as what it sends is
on its way back to the first stage, and a dashed line for as long as it waited. Arrows are computed (network.py), not guessed.

Few switches have a wide column each, with the texts beside the bars. If that is wider than WIDEST, each switch has a narrow lane, and
each event a row of its own with its text at the right."""
import bisect
import math
from dataclasses import dataclass, field
from functools import cached_property
from typing import Dict, List, Optional, Set, Tuple

from ..files import Limits, Scene
from ..labels import Labels
from ..lines import Event, Said, Sent
from ..network import Ledger
from .svg import LETTER, SMALL, Colours, Picture, width_of

WIDEST = 1200
# The width of all lanes, and the height after which headings are repeated.
LANES, HEADINGS = 620, 800


@dataclass
class Choice:
    """Which events are drawn."""

    switches: Optional[Set[int]] = None
    ticks: Optional[Tuple[int, int]] = None
    without: Set[str] = field(default_factory=set)

    def has(self, event: Event) -> bool:
        return ((self.switches is None or event.switch in self.switches) and (self.ticks is None or self.ticks[0] <= event.tick <= self.ticks[1])
                and event.name not in self.without)


@dataclass
class Drawn:
    """An event that is drawn: its number in the log, its text, its notes as text and class, and where it stands."""

    number: int
    event: Event
    label: str
    notes: List[Tuple[str, str]]
    leaves: int
    sends: bool
    slot: int = 0
    x: float = 0
    y: float = 0


def plural(count: int, word: str) -> str:
    return f"{count} {word}{'' if count == 1 else 's'}"


class LogPicture:
    """Draws one log."""

    def __init__(self, trace: Ledger, limits: Limits, scene: Scene, choice: Choice, labels: Labels = Labels()) -> None:
        self.trace, self.limits, self.scene, self.labels = trace, limits, scene, labels
        self.stay, self.back = limits.stages, limits.stages + limits.recirc
        self.picture, self.colours = Picture(), Colours()
        numbers = [it for it, event in enumerate(trace.log.events) if choice.has(event)]
        self.shown = {number: self.drawn_of(number) for number in numbers}
        if choice.switches is None:
            seen = {trace.log.events[it].switch for it in numbers} | {it.switch for it in trace.log.cells}
            self.switches = sorted(seen if choice.ticks is None and not choice.without else {trace.log.events[it].switch for it in numbers})
        else:
            self.switches = sorted(it for it in choice.switches if it < scene.switches)
        self.is_part = len(self.shown) < len(trace.log.events)
        # Shown in columns, unless that is too wide.
        self.is_wide, self.is_tight = True, False
        self.set_slots()
        self.set_columns()
        if self.texts_end > WIDEST:
            self.is_wide = False
            self.set_lanes()

    def drawn_of(self, number: int) -> Drawn:
        """An event with the lines that are written below it."""
        event = self.trace.log.events[number]
        ways = {it.out: it for it in self.trace.sends[number]}
        notes: List[Tuple[str, str]] = []
        entry = self.trace.entries[number]
        if entry.waited:
            notes.append((f"waited {plural(entry.waited, 'tick')}", "small grey"))
        for index, out in enumerate(event.outs):
            if isinstance(out, Said):
                notes.append((f'"{out.text}"', "small grey"))
                continue
            way, name = ways[index], self.labels.call(out.name, out.args)
            if way.fate.is_lost:
                notes.append((f"lost at {way.sent}: {name} to {self.named(way.switch)}, {way.fate.value}", "small red"))
            elif way.fate.is_pending:
                notes.append((f"pending: {name}{'' if out.to is None else f' to {self.named(way.switch)}'}, ready at {way.ready}", "small grey"))
        return Drawn(number, event, self.labels.call(event.name, event.args), notes, event.tick + self.stay, any(isinstance(it, Sent) for it in event.outs))

    def named(self, switch: int) -> str:
        """The name of a switch, or its number."""
        return self.labels.names.get(switch, str(switch))

    def sender_of(self, it: Drawn) -> Optional[Drawn]:
        """The event that sent an event, if it is drawn."""
        sender = self.trace.sender(it.number)
        return None if sender is None else self.shown.get(sender)

    def title(self, it: Drawn) -> str:
        """The tooltip of an event: all its lines."""
        entry = self.trace.entries[it.number]
        lines = [self.labels.event(it.event)]
        if entry.sender is not None:
            lines.append(f"sent at {self.trace.log.events[entry.sender].tick} by {self.labels.switch(entry.origin)}, ready at {entry.ready}")
        else:
            lines.append(f"event {entry.file} of the scenario, ready at {entry.ready}")
        losses = [f"{self.labels.call(send.name, send.args)} is lost: {send.why()}" for send in self.trace.sends[it.number] if send.fate.is_lost]
        return "\n".join(lines + [text for text, _ in it.notes] + losses)

    # Places -----------------------------------------------------------------------------------------------------------------------

    def set_slots(self) -> None:
        """Bars of one switch that overlap stand side by side, and so do those that touch if the first sends something."""
        self.slots: Dict[int, int] = {it: 0 for it in self.switches}
        free: Dict[int, List[float]] = {it: [] for it in self.switches}
        for it in self.shown.values():
            ends = free[it.event.switch]
            until = it.event.tick + (self.back + 0.5 if it.sends else self.stay)
            it.slot = next((k for k, end in enumerate(ends) if end <= it.event.tick), len(ends))
            ends[it.slot:it.slot + 1] = [until]
            self.slots[it.event.switch] = max(self.slots[it.event.switch], len(ends))

    def cells_of(self, switch: int) -> List[str]:
        """The first cells of a switch at the end, and how many more there are."""
        found = [self.labels.cell(it) for it in self.trace.log.cells if it.switch == switch]
        return found[:10] + ([f"and {len(found) - 10} more"] if len(found) > 10 else [])

    @cached_property
    def tick_width(self) -> float:
        """The width of the ticks at the left."""
        return LETTER * max([4] + [len(str(it.event.tick)) for it in self.shown.values()]) + 28

    def set_columns(self) -> None:
        wide = {switch: max([60.0, width_of(self.labels.names.get(switch, ""))] + [width_of(it, SMALL) for it in self.cells_of(switch)])
                for switch in self.switches}
        loops = {it.event.switch for it in self.shown.values() if self.sender_of(it) and self.trace.entries[it.number].origin == it.event.switch}
        for it in self.shown.values():
            switch = it.event.switch
            wide[switch] = max([wide[switch], width_of(it.label)] + [8 + width_of(text, SMALL) for text, _ in it.notes])
        x = self.tick_width
        self.column: Dict[int, float] = {}
        self.pitch = 12.0
        for switch in self.switches:
            x += 34 if switch in loops else 14
            self.column[switch] = x
            x += self.slots[switch] * self.pitch + wide[switch] + 24
        self.texts_end = x

    def set_lanes(self) -> None:
        all_slots = sum(max(1, it) for it in self.slots.values())
        self.pitch = max(2.0, min(9.0, (LANES - 8 * len(self.switches)) / max(1, all_slots)))
        x = self.tick_width + 10
        for switch in self.switches:
            self.column[switch] = x
            x += max(15.0, max(1, self.slots[switch]) * self.pitch + 6)
        self.texts = x + 14
        places = list(self.column.values())
        self.is_tight = any(right - left < 18 for left, right in zip(places, places[1:]))

    def text_x(self, it: Drawn) -> float:
        return self.column[it.event.switch] + self.slots[it.event.switch] * self.pitch + 4 if self.is_wide else self.texts

    def set_axis(self) -> None:
        """Places of all ticks at which something enters or leaves, from the top on, with room for texts and for repeated headings."""
        ticks: Set[int] = set()
        entering: Dict[int, List[Drawn]] = {}
        for it in self.shown.values():
            ticks |= {it.event.tick, it.leaves} | ({it.event.tick + self.back} if it.sends else set())
            entering.setdefault(it.event.tick, []).append(it)
        self.points = sorted(ticks)
        self.spots: List[float] = []
        self.headings: List[float] = []
        y, heading, last, row = 100.0, 100.0 + HEADINGS, None, 0.0
        below: Dict[int, float] = {}
        for tick in self.points:
            if last is not None:
                y += max(5.0, min(2.5 * (tick - last), 30.0))
            last = tick
            for it in entering.get(tick, []):
                y = max(y, row + 13, below.get(it.event.switch if self.is_wide else 0, 0))
            if tick in entering and y > heading:
                y = max([y] + list(below.values())) + (44 if self.is_tight else 34)
                self.headings.append(y - (28 if self.is_tight else 23))
                heading = y + HEADINGS
            self.spots.append(y)
            row = y if tick in entering else row
            for it in entering.get(tick, []):
                if self.is_wide:
                    it.y = y
                    below[it.event.switch] = y + 5 + 14 * (1 + len(it.notes))
                else:
                    it.y = max(y, below.get(0, 0))
                    below[0] = it.y + 14 + 13 * len(it.notes)
                it.x = self.column[it.event.switch] + self.pitch * it.slot
            if not self.is_wide and tick in entering:
                y = max(y, entering[tick][-1].y)
        self.foot = max([y + 14] + [it for it in below.values()]) + 10

    def y_at(self, tick: float) -> float:
        """Where a tick stands on the axis; between two places in proportion."""
        at = bisect.bisect_left(self.points, tick)
        if at == len(self.points):
            return self.spots[-1] if self.spots else 100.0
        if self.points[at] == tick or at == 0:
            return self.spots[at] if self.points[at] == tick else max(88.0, self.spots[0] - min(12.0, self.points[0] - tick))
        before, after = self.points[at - 1], self.points[at]
        return self.spots[at - 1] + (self.spots[at] - self.spots[at - 1]) * (tick - before) / (after - before)

    # Drawing ----------------------------------------------------------------------------------------------------------------------

    def bar_width(self) -> float:
        return 6.0 if self.is_wide else max(1.5, self.pitch - 3)

    def middle(self, it: Drawn) -> float:
        return it.x + self.bar_width() / 2

    def leave_y(self, it: Drawn) -> float:
        """Where the ways of what an event sent begin: below the text of another event that enters there at that tick."""
        tick = it.event.tick + self.back
        y = max(self.y_at(tick), self.bar_end(it))
        taken = any(other.event.tick == tick and other.event.switch == it.event.switch for other in self.at_tick.get(tick, []))
        return y + 8 if taken and self.is_wide else y

    def bar_end(self, it: Drawn) -> float:
        return max(self.y_at(it.leaves), it.y + 2)

    def arrow_head(self, x: float, y: float, dx: float, dy: float, shade: str) -> None:
        size = math.hypot(dx, dy)
        if size == 0:
            return
        dx, dy = dx / size, dy / size
        points = [(x, y), (x - 8 * dx + 3.5 * dy, y - 8 * dy - 3.5 * dx), (x - 8 * dx - 3.5 * dy, y - 8 * dy + 3.5 * dx)]
        self.picture.path(3, "M" + " L".join(f"{a:.1f} {b:.1f}" for a, b in points) + " z", f'fill="{shade}"')

    def draw_arrow(self, sender: Drawn, it: Drawn) -> None:
        """An arrow from the end of a sender's tail to the event that it sent."""
        picture, shade = self.picture, self.colours.of(it.event.name)
        x, x2, y2 = self.middle(sender), self.middle(it), it.y
        here = it.event.switch == sender.event.switch
        y = min(self.leave_y(sender), y2) if here else self.leave_y(sender)
        ends = self.labels.switch(sender.event.switch), self.labels.switch(it.event.switch)
        title = f"{it.label}: {ends[0]}, left at {self.trace.entries[it.number].sent}, to {ends[1]}, entered at {it.event.tick}"
        look = f'fill="none" stroke="{shade}" stroke-width="1.3" opacity="{0.75 if self.is_wide else 0.5}"'
        if here and y2 - y > 12:
            bend = 26 if self.is_wide else 12
            picture.path(1, f"M{x:.1f} {y:.1f} C{x - bend:.1f} {y + 6:.1f} {x2 - bend:.1f} {y2 - 6:.1f} {x2 - 5:.1f} {y2:.1f}", look, title)
            self.arrow_head(x2 - 4, y2, 1, 0.4, shade)
            return
        if not here and x2 < x and self.is_wide:
            x2 = self.text_x(it) + 2 + width_of(it.label)
        elif x2 != x:
            x2 += 5 if x2 < x else -5
        else:
            y2 -= 5
        if y2 > y or x2 != x:
            picture.line(1, x, y, x2, y2, look, title)
            self.arrow_head(x2, y2, x2 - x, y2 - y, shade)

    def draw_event(self, it: Drawn) -> None:
        picture, entry, shade = self.picture, self.trace.entries[it.number], self.colours.of(it.event.name)
        wide, end, title = self.bar_width(), self.bar_end(it), self.title(it)
        picture.box(2, it.x, it.y, wide, end - it.y, f'fill="{shade}" opacity="0.45"', title)
        if self.colours.is_striped(it.event.name):
            picture.line(2, self.middle(it), it.y, self.middle(it), end, 'stroke="#fff" stroke-width="1.5" stroke-dasharray="3 3"')
        if entry.ready is not None and entry.waited:
            picture.line(1, it.x - 2, self.y_at(entry.ready), it.x - 2, it.y, f'stroke="{shade}" stroke-width="1" stroke-dasharray="2 3"',
                         f"{it.label} waited from {entry.ready} to {it.event.tick}")
        if it.sends and self.leave_y(it) > end:
            picture.line(2, self.middle(it), end, self.middle(it), self.leave_y(it), f'stroke="{shade}" stroke-width="1.3"')
        lost = [text for text, kind in it.notes if kind == "small red"]
        if lost:
            picture.cross(3, self.middle(it), self.leave_y(it), "\n".join(lost))
        if entry.sender is not None:
            picture.dot(3, self.middle(it), it.y, 4 if self.is_wide else 3, f'fill="{shade}"', title)
        else:
            picture.box(3, self.middle(it) - 4, it.y - 4, 8, 8, f'fill="#fff" stroke="{shade}" stroke-width="2"', title)
        self.write_event(it, title)

    def write_event(self, it: Drawn, title: str) -> None:
        picture, x = self.picture, self.text_x(it)
        if self.is_wide:
            picture.write_over(x, it.y + 4, it.label, title=title)
            for at, (text, kind) in enumerate(it.notes):
                picture.write_over(x + 8, it.y + 18 + 14 * at, text, kind)
            return
        picture.line(1, self.middle(it) + 6, it.y, x - 4, it.y, 'stroke="#ddd" stroke-width="0.8"')
        label = f"{self.labels.switch(it.event.switch)} {it.label}"
        picture.write(4, x, it.y + 4, label, title=title)
        number = self.trace.sender(it.number)
        if number is not None:
            sender = self.trace.log.events[number]
            picture.write(4, x + width_of(label) + 8, it.y + 4, f"← {self.labels.switch(sender.switch)} of {sender.tick}", "small grey")
        for at, (text, kind) in enumerate(it.notes):
            picture.write(4, x + 12, it.y + 17 + 13 * at, text, kind)

    def draw_headings(self, y: float) -> None:
        picture = self.picture
        right = self.texts_end if self.is_wide else self.texts - 8
        if y > 100:
            top = 23 if self.is_tight else 13
            picture.box(3, 0, y - top, right, top + 5, 'fill="#fff" opacity="0.85"')
        picture.write(4, 20, y, "tick", "small grey")
        for at, switch in enumerate(self.switches):
            if self.is_wide:
                picture.write(4, self.column[switch], y, self.labels.names.get(switch, f"switch {switch}"), "big")
            else:
                # In tight lanes every second number is higher, so that neighbours do not touch.
                higher = 10 if self.is_tight and at % 2 else 0
                picture.write(4, self.column[switch], y - higher, str(switch), "small bold", title=self.labels.names.get(switch, f"switch {switch}"))

    def draw_legend(self) -> None:
        picture = self.picture
        picture.box(4, 20, 12, 8, 8, 'fill="#fff" stroke="#555" stroke-width="2"')
        picture.write(4, 34, 20, "from the scenario", "small")
        picture.dot(4, 170, 16, 4, 'fill="#555"')
        picture.write(4, 180, 20, "sent", "small")
        picture.cross(4, 226, 16)
        picture.write(4, 236, 20, "lost", "small")
        picture.box(4, 280, 11, 6, 11, 'fill="#555" opacity="0.45"')
        text = f"in the pipeline, {plural(self.limits.stages, 'stage')}"
        text += f", and {plural(self.limits.recirc, 'tick')} back" if self.limits.recirc else ""
        picture.write_all(4, 292, 20, text, "small")
        picture.write_all(4, 20, 38, "time goes down, not to scale; bars side by side are in one pipeline; dashed: waits; colours go by name", "small grey")

    def draw_end(self) -> None:
        """The cells at the end, and the last line of the log."""
        picture, y = self.picture, self.foot
        if self.is_wide:
            for switch in self.switches:
                for at, text in enumerate(self.cells_of(switch)):
                    picture.write(4, self.column[switch], y + 18 + 14 * at, text, "small")
        else:
            lines = [f"{self.labels.switch(switch)} {text}" for switch in self.switches for text in self.cells_of(switch)]
            for at, text in enumerate(lines):
                picture.write(4, 20 + 290 * (at % 4), y + 18 + 14 * (at // 4), text, "small")
        entered, lost, pending = self.trace.log.end or (0, 0, 0)
        y = picture.foot + 18
        picture.write(4, 20, y, f"entered {entered} lost {lost} pending {pending}")
        if self.is_part:
            picture.write(4, 20, y + 16, f"{len(self.shown)} of these are shown", "small grey")

    def draw(self) -> str:
        """The whole picture."""
        picture = self.picture
        self.draw_legend()
        if not self.shown:
            picture.write(4, 20, 66, "no event is shown")
            self.foot = 66.0
            self.draw_end()
            return picture.text()
        self.set_axis()
        self.at_tick: Dict[int, List[Drawn]] = {}
        for it in self.shown.values():
            self.at_tick.setdefault(it.event.tick, []).append(it)
        right = self.texts_end - 10 if self.is_wide else self.texts - 8
        for tick, its in self.at_tick.items():
            picture.write(4, 20, its[0].y + 4, str(tick), "small grey")
            picture.line(1, self.tick_width - 12, its[0].y, right, its[0].y, 'stroke="#eee"')
        for switch in self.switches:
            x = self.column[switch] + self.bar_width() / 2
            picture.line(1, x, 88, x, self.foot, f'stroke="{"#999" if self.is_wide else "#ccc"}"')
        for it in self.shown.values():
            sender = self.sender_of(it)
            if sender:
                self.draw_arrow(sender, it)
            self.draw_event(it)
        for y in [72.0] + self.headings:
            self.draw_headings(y)
        self.draw_end()
        return picture.text()
