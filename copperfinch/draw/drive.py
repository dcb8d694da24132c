"""The picture of a drive: a row for each step that moved a packet or showed a cell, with the packets before the stage that each does next. Runs
of steps that could not be done are one row."""
from dataclasses import dataclass, field
from typing import Dict, List, Optional, Tuple

from ..drive import Drive, Step, by_stages
from ..errors import FormatError
from ..files import Limits, Scene
from ..labels import Labels
from ..lines import Event, Said
from .svg import LETTER, SHADES, Picture, width_of

PITCH = 44
# Headings are repeated after so many pixels.
HEADINGS = 800


@dataclass
class Row:
    """A row: its text, whether it is grey, the packets by stage, and the packet that left with its lines."""

    text: str
    is_grey: bool
    slots: Dict[int, int]
    left: Optional[int] = None
    notes: List[str] = field(default_factory=list)
    title: Optional[str] = None


def check(drive: Drive, limits: Limits, scene: Scene) -> None:
    """Refuses a drive whose lines are not those of the steps and the events of the scenario."""
    if len(drive.steps) != len(scene.steps):
        raise FormatError(f"the drive has {len(drive.steps)} steps, and the scenario {len(scene.steps)}")
    words = {"enter": ("enter", "busy", "none"), "go": ("go", "empty", "ahead"), "look": ("look",)}
    for number, (step, wanted) in enumerate(zip(drive.steps, scene.steps)):
        word = wanted[0] if wanted and isinstance(wanted[0], str) else ""
        fits = step.word in words.get(word, ()) and (word != "go" or len(wanted) == 2 and step.numbers[0] == wanted[1])
        if not fits or word == "look" and step.array != wanted[1]:
            raise FormatError(f"step {number + 1} does not fit the scenario: {step.text}")
        if step.word == "none" and drive.entered < len(scene.events):
            raise FormatError(f"step {number + 1} does not fit the scenario: {step.text}")
    if drive.entered + drive.left != len(scene.events):
        raise FormatError(f"the scenario has {len(scene.events)} events, and the last line says {drive.entered} and {drive.left}")
    by_stages(drive, limits.stages)
    events = [it for step in drive.steps for it in step.events] + drive.flushed
    for event, given in zip(events, scene.events):
        if (event.tick, event.switch, event.name, event.args) != (given.at, given.switch, given.name, given.args):
            raise FormatError(f"line {event.line} does not fit the scenario")


def lines_of(event: Event, labels: Labels) -> List[str]:
    """The lines of an event, as they are printed but without their indent."""
    out = [labels.event(event)]
    for it in event.outs:
        if isinstance(it, Said):
            out.append(f"say {it.text}")
        else:
            out.append(f"generate {labels.call(it.name, it.args)} delay {it.delay} {'here' if it.to is None else f'to {labels.names.get(it.to, it.to)}'}")
    return out


def rows_of(drive: Drive, stages: int, labels: Labels) -> List[Row]:
    """The rows of a drive. Steps that could not be done are joined."""
    rows: List[Row] = []
    slots: Dict[int, int] = {}
    undone: List[str] = []

    def join() -> None:
        if undone:
            kinds: Dict[str, int] = {}
            for it in undone:
                kinds[it] = kinds.get(it, 0) + 1
            text = undone[0] if len(undone) == 1 else f"{len(undone)} steps not done"
            title = None if len(undone) == 1 else ", ".join(it if count == 1 else f"{count} times {it}" for it, count in kinds.items())
            rows.append(Row(text, True, dict(slots), title=title))
            undone.clear()

    for step in drive.steps:
        if step.word in ("busy", "none", "empty", "ahead"):
            undone.append(step.text)
            continue
        join()
        look = step.word == "look" and f"look {step.array}[{step.numbers[0]}] = {labels.value(step.array, step.numbers[1])}"
        row = Row(look or step.text, False, {})
        if step.word == "enter":
            slots[0] = step.numbers[0]
        elif step.word == "go":
            packet = slots.pop(step.numbers[0])
            if step.numbers[0] + 1 < stages:
                slots[step.numbers[0] + 1] = packet
            else:
                row.left, row.notes = packet, lines_of(step.events[0], labels)
        row.slots = dict(slots)
        rows.append(row)
    join()
    for event in drive.flushed:
        stage = max(slots)
        packet = slots.pop(stage)
        rows.append(Row("at the end", True, dict(slots), packet, lines_of(event, labels)))
    return rows


def packet(picture: Picture, x: float, y: float, number: int) -> None:
    picture.box(2, x, y - 10, 22, 20, f'rx="5" fill="{SHADES[number % len(SHADES)]}"')
    picture.write(3, x + 11, y + 4, str(number), "white small" if number > 99 else "white", middle=True)


def draw_drive(drive: Drive, limits: Limits, scene: Scene, labels: Labels = Labels()) -> str:
    """The SVG of a drive, or of a drive with a snapshot."""
    check(drive, limits, scene)
    picture = Picture()
    stages = limits.stages
    rows = rows_of(drive, stages, labels)
    left = 20 + max([60.0] + [width_of(it.text) for it in rows]) + 2 * LETTER
    out = left + stages * PITCH + 10
    picture.write_all(3, 20, 20, "a number is a packet, in the order of entry, from 0; it is before the stage that it does next", "small grey")
    y, band, heading = 84.0, 40.0, 84.0 + HEADINGS
    bands: List[Tuple[float, float]] = []
    heads = [72.0]
    for row in rows:
        if y > heading:
            bands.append((band, y + 4))
            y += 48
            band, heading = y - 44, y + HEADINGS
            heads.append(y - 12)
        middle = y + 13
        picture.write(3, 20, middle + 4, row.text, "grey" if row.is_grey else "", title=row.title)
        for stage, number in row.slots.items():
            packet(picture, left + stage * PITCH + 11, middle, number)
        if row.left is not None:
            packet(picture, out + 4, middle, row.left)
        for at, note in enumerate(row.notes):
            picture.write(3, out + 36 + (10 if at else 0), middle + 4 + 14 * at, note, "small grey" if at else "")
        y += max(26, 12 + 14 * len(row.notes))
        picture.line(1, 20, y, out, y, 'stroke="#eee"')
    bands.append((band, y + 4))
    for start, end in bands:
        for stage in range(stages):
            picture.box(1, left + stage * PITCH + 2, start, PITCH - 4, end - start, 'rx="5" fill="#eef3f8" stroke="#b8c8d8"')
    for head in heads:
        for stage in range(stages):
            picture.write(3, left + (stage + 0.5) * PITCH, head - 16, "stage", "small grey", middle=True)
            picture.write(3, left + (stage + 0.5) * PITCH, head, str(stage), "bold", middle=True)
        picture.write(3, 20, head, "step", "small grey")
        picture.write(3, out + 4, head, "has left, and sent", "small grey")
    last = [labels.cell(it) for it in drive.cells] + [f"entered {drive.entered} left {drive.left}"]
    if drive.snap:
        last += [f"snap after {drive.snap[0]}"] + [labels.cell(it) for it in drive.snap[1]]
    for at, text in enumerate(last, 1):
        picture.write(3, 20, y + 12 + 15 * at, text, "small")
    return picture.text()
