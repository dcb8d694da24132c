"""Drives and snapshots, which `lucid drive` and `lucid snap` print (docs/OUTPUT.md)."""
import re
from dataclasses import dataclass, field
from typing import List, Optional, Tuple

from .errors import FormatError
from .lines import NAME, NUMBER, Cell, Event, Json, Lines

STEP = re.compile(rf"(enter|go|empty|ahead) {NUMBER}|(busy|none)|look {NAME}\[{NUMBER}\] = {NUMBER}")
END = re.compile(rf"entered {NUMBER} left {NUMBER}")
SNAP = re.compile(rf"snap after {NUMBER}")


@dataclass
class Step:
    """A line of a step: its word, and its numbers. `array` is set for `look`; `events` are those of packets that left by it."""

    word: str
    numbers: Tuple[int, ...]
    array: str
    text: str
    events: List[Event] = field(default_factory=list)

    def json(self) -> Json:
        """Returns the object of its line."""
        if self.word == "look":
            return {"kind": "look", "array": self.array, "cell": self.numbers[0], "value": self.numbers[1]}
        if self.word == "enter":
            return {"kind": "enter", "packet": self.numbers[0]}
        return {"kind": self.word, "stage": self.numbers[0]} if self.numbers else {"kind": self.word}


@dataclass
class Drive:
    """The steps, the events of packets that leave after the last step, the cells, the counts, and the snapshot of `snap`."""

    steps: List[Step]
    flushed: List[Event]
    cells: List[Cell]
    entered: int
    left: int
    snap: Optional[Tuple[int, List[Cell]]]

    def json(self) -> List[Json]:
        """Returns the objects of the drive in the order of its lines. An event follows the step that printed it."""
        found: List[Json] = []
        for step in self.steps:
            found += [step.json(), *(event.json() for event in step.events)]
        found += [*(event.json() for event in self.flushed), *(cell.json() for cell in self.cells)]
        found.append({"kind": "end", "entered": self.entered, "left": self.left})
        if self.snap:
            found += [{"kind": "snap", "after": self.snap[0]}, *(cell.json() for cell in self.snap[1])]
        return found


def read_step(lines: Lines) -> Optional[Step]:
    """Reads the line of a step, if one is next."""
    found = lines.take(STEP)
    if not found:
        return None
    if found[1]:
        return Step(found[1], (int(found[2]),), "", found[0])
    if found[3]:
        return Step(found[3], (), "", found[0])
    return Step("look", (int(found[5]), int(found[6])), found[4], found[0])


def read_drive(text: bytes) -> Drive:
    """Reads a drive, or a drive with the snapshot at its end. Raises FormatError."""
    lines = Lines(text, "drive")
    steps: List[Step] = []
    flushed: List[Event] = []
    while True:
        step = read_step(lines)
        if step is None:
            break
        if step.word == "go":
            # After the last step several packets leave; which of them left by that step only the number of stages can tell.
            event = lines.event()
            step.events += [event] if event else []
        steps.append(step)
    while True:
        event = lines.event()
        if event is None:
            break
        flushed.append(event)
    cells = lines.cells(True)
    end = lines.need(END)
    snap: Optional[Tuple[int, List[Cell]]] = None
    taken = lines.take(SNAP)
    if taken:
        snap = int(taken[1]), lines.cells(True)
    lines.end()
    return Drive(steps, flushed, cells, int(end[1]), int(end[2]), snap)


def by_stages(drive: Drive, stages: int) -> None:
    """Gives each event to the step by which its packet left a pipeline of this many stages. Refuses a drive that no such pipeline prints."""
    slots: List[Optional[int]] = [None] * stages
    entered = 0
    for number, step in enumerate(drive.steps):
        k = step.numbers[0] if step.numbers else 0
        fits = True
        if step.word == "enter":
            fits = k == entered and slots[0] is None
            slots[0] = entered
            entered += 1
        elif step.word == "go":
            fits = k < stages and slots[k] is not None and (k + 1 == stages or slots[k + 1] is None)
            if fits and k + 1 < stages:
                slots[k + 1] = slots[k]
                if number + 1 == len(drive.steps):
                    drive.flushed, step.events = step.events + drive.flushed, []
            if fits:
                slots[k] = None
                fits = bool(step.events) == (k + 1 == stages)
        elif step.word == "busy":
            fits = slots[0] is not None
        elif step.word == "ahead":
            fits = k + 1 < stages and slots[k] is not None and slots[k + 1] is not None
        elif step.word == "empty":
            fits = k >= stages or slots[k] is None
        if not fits:
            raise FormatError(f"step {number + 1} is none of a drive of {stages} stages: {step.text}")
    if len(drive.flushed) != sum(it is not None for it in slots) or drive.entered != entered:
        raise FormatError(f"the lines after the last step are none of a drive of {stages} stages")
