"""How a user reads numbers: formats of parameters and arrays (`--show`), and names of switches (`--names`). Logs and files keep their numbers.

    labels = labels_of(["pkt.src=ip,flow.mac=mac,ts=hex"], ["0=edge,1=core"], program, scenario)
    labels.call("pkt", (167772161,))   # pkt(10.0.0.1)
"""
import re
from dataclasses import dataclass, field
from typing import Callable, Dict, Iterable, List, Optional, Sequence, Tuple

from .bounded import deeply
from .errors import Error
from .lines import Cell, Event, Json
from .model import judge
from .model.core import Core
from .streams import FILE, Source, printable, read

# The most letters of a name of a switch.
LONGEST = 40
FORMATS: Dict[str, Callable[[int, int], str]] = {
    "dec": lambda value, width: str(value),
    "hex": lambda value, width: f"0x{value:0{(width + 3) // 4}x}",
    "bin": lambda value, width: f"0b{value:0{width}b}",
    "ip": lambda value, width: ".".join(map(str, value.to_bytes(4, "big"))) if value < 2**32 else str(value),
    "mac": lambda value, width: value.to_bytes(6, "big").hex(":") if value < 2**48 else str(value),
    "signed": lambda value, width: str(value - 2**width if value >> (width - 1) else value),
}


@dataclass
class Labels:
    """Texts of switches, events and cells. `args` has the formats and widths of the parameters of an event, `cells` those of the cells of an
    array; what is not there is a decimal number."""

    args: Dict[str, List[Tuple[str, int]]] = field(default_factory=dict)
    cells: Dict[str, Tuple[str, int]] = field(default_factory=dict)
    names: Dict[int, str] = field(default_factory=dict)

    def switch(self, number: int) -> str:
        """Returns the name of a switch, or `s` and its number."""
        return self.names.get(number, f"s{number}")

    def values(self, name: str, args: Sequence[int]) -> List[str]:
        """Returns the texts of the arguments of an event."""
        formats = self.args.get(name, [])
        return [FORMATS[formats[at][0]](value, formats[at][1]) if at < len(formats) else str(value) for at, value in enumerate(args)]

    def call(self, name: str, args: Sequence[int]) -> str:
        """Returns an event with its arguments."""
        return f"{name}({','.join(self.values(name, args))})"

    def event(self, event: Event) -> str:
        """Returns the first line of an event."""
        return f"[{event.tick}] {self.switch(event.switch)} {self.call(event.name, event.args)}"

    def value(self, array: str, value: int) -> str:
        """Returns the text of a cell."""
        form, width = self.cells.get(array, ("dec", 64))
        return FORMATS[form](value, width)

    def cell(self, cell: Cell) -> str:
        """Returns the line of a cell without its switch."""
        return f"{cell.array}[{cell.index}] = {self.value(cell.array, cell.value)}"

    def json(self, it: Json) -> Json:
        """Returns an object of an answer with its values as they are shown (`shown`), and with the name of its switch or target (`named`)."""
        made: Json = {**it, "outs": [self.json(out) for out in it["outs"]]} if "outs" in it else dict(it)
        if self.args or self.cells:
            if "args" in it:
                made["shown"] = self.values(it["name"], it["args"])
            elif "array" in it:
                made["shown"] = self.value(it["array"], it["value"]) if "value" in it else [self.value(it["array"], it[key]) for key in ("old", "new")]
        switch = it.get("switch", it.get("to"))
        if switch in self.names:
            made["named"] = self.names[switch]
        return made


def labels_of(shows: Sequence[str], names: Sequence[str], program: Optional[Source], scenario: Optional[str]) -> Labels:
    """Reads formats and names: those of the files PROGRAM.show and SCENARIO.names if they are there, and then these. Raises Error."""
    made = Labels()
    for key, value in pairs(names, f"{scenario}.names" if scenario else ""):
        number = re.fullmatch("[0-9]{1,2}", key)
        if not number or int(key) > 63 or not value or len(value) > LONGEST or not value.isprintable():
            raise Error(f"names: {cut(key)}={cut(value)} is none: write NUMBER=NAME, with a number up to 63 and a name of 1 to {LONGEST} letters")
        made.names[int(key)] = value
    if len(set(made.names.values())) < len(made.names):
        raise Error("names: two switches have one name")
    found = pairs(shows, f"{program.name}.show" if program else "")
    if found:
        if program is None:
            raise Error("show: formats need the program: name it by --program")
        set_formats(made, found, program)
    return made


def pairs(words: Sequence[str], path: str) -> List[Tuple[str, str]]:
    """The lines KEY=VALUE of a file, if it is there, and of words, in which commas part them, too."""
    source = Source(path, b"")
    texts: Iterable[str] = [read(path, FILE).decode("utf-8", "replace"), *words] if source.is_file() else words
    entries = [entry.strip() for text in texts for line in text.splitlines() for entry in line.partition("#")[0].split(",")]
    made = [entry.partition("=") for entry in entries if entry]
    return [(key.strip(), value.strip()) for key, _, value in made]


def core_of(program: Source) -> Core:
    """Returns the declarations and handlers of a program. Raises Error if it is refused."""
    answer = deeply(lambda: judge(["check", program.name], lambda name: program.data))
    if answer.refused is not None:
        raise Error(f"{program.name}: {answer.refused.line}")
    core: Core = answer.program.core
    return core


def set_formats(made: Labels, found: List[Tuple[str, str]], program: Source) -> None:
    """Sets the formats of the parameters and arrays of a program. A name without a point is of an array, or of parameters of all events."""
    core = core_of(program)
    made.args = {event.name: [("dec", width) for width in event.params] for event in core.events}
    for key, form in found:
        if form not in FORMATS:
            raise Error(f"show: {cut(key)}={cut(form)} has no format: write {', '.join(FORMATS)}")
        owner, _, name = key.rpartition(".")
        hits = 0
        for event in core.events:
            for at, param in enumerate(event.names):
                if param == name and owner in ("", event.name):
                    made.args[event.name][at] = (form, event.params[at])
                    hits += 1
        for array in core.arrays:
            if array.name == key:
                made.cells[key] = (form, array.width)
                hits += 1
        if not hits:
            raise Error(f"show: the program has no array or parameter {cut(key)}: write ARRAY, PARAMETER or EVENT.PARAMETER")


def cut(text: str) -> str:
    """Returns a text as a line of an error may show it."""
    return printable(text if len(text) <= LONGEST else text[:LONGEST] + "..")
