"""The lines of an answer, read strictly one after another (docs/OUTPUT.md): the first one of another form is refused by its number."""
import re
from dataclasses import dataclass, field
from typing import Any, Dict, List, Match, NoReturn, Optional, Pattern, Tuple, Union

from .errors import FormatError

Json = Dict[str, Any]
NUMBER = r"(0|[1-9][0-9]{0,19})"
NAME = r"([A-Za-z_][A-Za-z0-9_]*)"
HEAD = re.compile(rf"\[{NUMBER}\] s{NUMBER} {NAME}\(([0-9,]*)\)")
GENERATE = re.compile(rf"  generate {NAME}\(([0-9,]*)\) delay {NUMBER} (?:here|to {NUMBER}( lost)?)")
SAY = re.compile(r"  say ([ !#-\[\]-~]*)")
CELL = re.compile(rf"s{NUMBER} {NAME}\[{NUMBER}\] = {NUMBER}")


def call_text(name: str, args: Tuple[int, ...]) -> str:
    """Returns an event with its arguments, as it is printed."""
    return f"{name}({','.join(map(str, args))})"


@dataclass(frozen=True)
class Sent:
    """An event that a handler sent. `delay` is in ticks; `to` is None for the sender itself."""

    name: str
    args: Tuple[int, ...]
    delay: int
    to: Optional[int]
    lost: bool

    def __str__(self) -> str:
        return call_text(self.name, self.args)

    def json(self) -> Json:
        """Returns the object of its line."""
        return {"kind": "generate", "name": self.name, "args": list(self.args), "delay": self.delay, "to": self.to, "lost": self.lost}


@dataclass(frozen=True)
class Said:
    """The output of a `printf`."""

    text: str

    def json(self) -> Json:
        """Returns the object of its line."""
        return {"kind": "say", "text": self.text}


@dataclass
class Event:
    """An event that entered a switch at a tick, and what its handler did. `line` is the number of its line, from 1."""

    tick: int
    switch: int
    name: str
    args: Tuple[int, ...]
    line: int = 0
    outs: List[Union[Sent, Said]] = field(default_factory=list)

    @property
    def sent(self) -> List[Sent]:
        """The events that its handler sent."""
        return [out for out in self.outs if isinstance(out, Sent)]

    @property
    def said(self) -> List[str]:
        """The texts that its handler printed."""
        return [out.text for out in self.outs if isinstance(out, Said)]

    def label(self) -> str:
        """Returns its name and arguments, as they are printed."""
        return call_text(self.name, self.args)

    def __str__(self) -> str:
        return f"[{self.tick}] s{self.switch} {self.label()}"

    def json(self) -> Json:
        """Returns the object of its lines."""
        outs = [out.json() for out in self.outs]
        return {"kind": "event", "at": self.tick, "switch": self.switch, "name": self.name, "args": list(self.args), "outs": outs}


@dataclass(frozen=True)
class Cell:
    """A cell of an array that is not 0."""

    switch: int
    array: str
    index: int
    value: int

    def label(self) -> str:
        """Returns its line without the switch."""
        return f"{self.array}[{self.index}] = {self.value}"

    def json(self) -> Json:
        """Returns the object of its line."""
        return {"kind": "cell", "switch": self.switch, "array": self.array, "cell": self.index, "value": self.value}


def numbers_of(text: str) -> Optional[Tuple[int, ...]]:
    """Returns the arguments of a call, or None if they are no numbers below 2^64 with commas between."""
    if not text:
        return ()
    parts = text.split(",")
    if len(parts) > 8 or any(not re.fullmatch(NUMBER, part) or int(part) >= 2**64 for part in parts):
        return None
    return tuple(map(int, parts))


class Lines:
    """The lines of a text, read one after another. `what` names the answer, `at` counts the lines that were read."""

    def __init__(self, text: bytes, what: str) -> None:
        self.what, self.at = what, 0
        self.is_cut = bool(text) and not text.endswith(b"\n")
        self.lines = text.decode("latin-1").split("\n")
        if not self.is_cut:
            self.lines.pop()

    def refuse(self, why: str = "") -> NoReturn:
        """Refuses the first line that was not read."""
        raise FormatError(f"line {self.at + 1} is none of a {self.what}{': ' + why if why else ''}")

    def refuse_next(self) -> NoReturn:
        """Refuses the text at its next line, or at its end."""
        if self.at >= len(self.lines):
            raise FormatError(f"line {self.at} is the last, and a {self.what} goes on" if self.lines else f"the text is empty, and no {self.what}")
        if self.is_cut and self.at == len(self.lines) - 1:
            raise FormatError(f"line {self.at + 1} is cut off")
        self.refuse()

    def refuse_last(self, why: str = "") -> NoReturn:
        """Refuses the line that was read last."""
        self.at -= 1
        self.refuse(why)

    def take(self, form: Pattern[str]) -> Optional[Match[str]]:
        """Reads the next line if it has this form and its numbers are below 2^64. The text of a `say` is no number, even if it is all digits."""
        if self.at >= len(self.lines) or self.is_cut and self.at == len(self.lines) - 1:
            return None
        found = form.fullmatch(self.lines[self.at])
        if found is None or form is not SAY and any(part and part.isdigit() and int(part) >= 2**64 for part in found.groups()):
            return None
        self.at += 1
        return found

    def need(self, form: Pattern[str]) -> Match[str]:
        """Reads the next line, which must have this form."""
        return self.take(form) or self.refuse_next()

    def args(self, text: str) -> Tuple[int, ...]:
        """Returns the arguments in the line that was read last."""
        found = numbers_of(text)
        return self.refuse_last() if found is None else found

    def event(self) -> Optional[Event]:
        """Reads an event and what it did, if one is next."""
        found = self.take(HEAD)
        if not found:
            return None
        event = Event(int(found[1]), int(found[2]), found[3], self.args(found[4]), self.at)
        while True:
            sent = self.take(GENERATE)
            said = None if sent else self.take(SAY)
            if sent:
                args = self.args(sent[2])
                event.outs.append(Sent(sent[1], args, int(sent[3]), int(sent[4]) if sent[4] else None, bool(sent[5])))
            elif said:
                event.outs.append(Said(said[1]))
            else:
                return event

    def cells(self, one_switch: bool) -> List[Cell]:
        """Reads lines of cells: switches rise, and no cell is 0. (Two arrays may have one name, so indices need not rise.)"""
        found: List[Cell] = []
        while True:
            line = self.take(CELL)
            if not line:
                return found
            cell = Cell(int(line[1]), line[2], int(line[3]), int(line[4]))
            is_early = bool(found) and cell.switch < found[-1].switch
            if cell.value == 0 or cell.switch > 63 or one_switch and cell.switch or is_early:
                self.refuse_last()
            found.append(cell)

    def end(self) -> None:
        """Refuses a text that goes on."""
        if self.at < len(self.lines):
            self.refuse_next()
