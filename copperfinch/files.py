"""Limits files and scenarios (docs/SCENARIO.md), read for tools that run beside `lucid`. The program is the judge of these files; a tool refuses
only what it can not go on with."""
import json
from dataclasses import dataclass, field
from typing import Any, Dict, List, Tuple

from .errors import FormatError

LIMITS: Dict[str, Tuple[int, int, int]] = {
    "stages": (1, 32, 12), "tables": (1, 64, 16), "rows": (1, 1024, 64), "arrays": (1, 64, 4),
    "arms": (1, 64, 8), "bits": (1, 1048576, 16384), "recirc": (0, 65536, 0),
}
MOST = 2**64 - 1


@dataclass(frozen=True)
class Limits:
    """The limits of a target."""

    stages: int
    tables: int
    rows: int
    arrays: int
    arms: int
    bits: int
    recirc: int

    def text(self) -> str:
        """Returns the text of a limits file."""
        return json.dumps(self.__dict__)


@dataclass(frozen=True)
class FileEvent:
    """An event of a scenario."""

    at: int
    switch: int
    name: str
    args: Tuple[int, ...] = ()


@dataclass
class Scene:
    """A scenario. `links` holds both directions of each link."""

    switches: int
    stop: int
    links: Dict[Tuple[int, int], int] = field(default_factory=dict)
    down: List[Tuple[int, int, int, int]] = field(default_factory=list)
    events: List[FileEvent] = field(default_factory=list)
    steps: List[List[Any]] = field(default_factory=list)

    def link(self, a: int, b: int, latency: int) -> None:
        """Adds a link with a latency in ticks."""
        self.links[a, b] = self.links[b, a] = latency

    def text(self) -> str:
        """Returns the text of a scenario file."""
        links = [[a, b, latency] for (a, b), latency in self.links.items() if a < b]
        made: Dict[str, Any] = {"version": 2, "switches": self.switches, "stop": self.stop, "links": links, "down": [list(it) for it in self.down]}
        made["events"] = [{**event.__dict__, "args": list(event.args)} for event in self.events]
        return json.dumps({**made, "steps": self.steps} if self.steps else made)


@dataclass
class Placement:
    """A placement: the stage and the table of each node."""

    nodes: List[Tuple[int, int]]

    def text(self) -> str:
        """Returns the text of a placement file."""
        return json.dumps({"nodes": [list(pair) for pair in self.nodes]})


def object_of(text: bytes, what: str) -> Dict[str, Any]:
    """The JSON object of a file."""
    try:
        found = json.loads(text.decode("utf-8"))
    except (ValueError, RecursionError):
        raise FormatError(f"the {what} file is no JSON") from None
    if not isinstance(found, dict):
        raise FormatError(f"the {what} file is no object")
    return found


def number(value: Any, most: int, where: str, least: int = 0) -> int:
    """A number of a file within its range."""
    if isinstance(value, bool) or not isinstance(value, int) or not least <= value <= most:
        raise FormatError(f"{where} is no number of {least} to {most}")
    return value


def listed(value: Any, where: str) -> List[Any]:
    if not isinstance(value, list):
        raise FormatError(f"{where} is no list")
    return value


def read_limits(text: bytes) -> Limits:
    """Reads a limits file."""
    found = object_of(text, "limits")
    for key in found:
        if key not in LIMITS:
            raise FormatError(f"the limits file has a key {json.dumps(key)}")
    return Limits(**{key: number(found.get(key, usual), most, f"{key} of the limits", least) for key, (least, most, usual) in LIMITS.items()})


def read_scene(text: bytes) -> Scene:
    """Reads a scenario."""
    found = object_of(text, "scenario")
    for key in found:
        if key not in ("version", "switches", "stop", "links", "down", "events", "steps"):
            raise FormatError(f"the scenario has a key {json.dumps(key)}")
    switches = number(found.get("switches", 1), 64, "switches of the scenario", 1)
    if "stop" not in found:
        raise FormatError("the scenario has no stop")
    stop = number(found["stop"], 131072, "stop of the scenario")
    links: Dict[Tuple[int, int], int] = {}
    for at, it in enumerate(listed(found.get("links", []), "links")):
        if len(listed(it, f"links {at}")) != 3:
            raise FormatError(f"links {at} is no link")
        a, b = (number(end, switches - 1, f"links {at}") for end in it[:2])
        links[a, b] = links[b, a] = number(it[2], 65536, f"links {at}", 1)
    down = []
    for at, it in enumerate(listed(found.get("down", []), "down")):
        if len(listed(it, f"down {at}")) != 4:
            raise FormatError(f"down {at} is no window")
        a, b, start, until = (number(end, MOST, f"down {at}") for end in it)
        down.append((a, b, start, until))
    events = []
    for at, it in enumerate(listed(found.get("events", []), "events")):
        if not isinstance(it, dict) or set(it) != {"at", "switch", "name", "args"} or not isinstance(it["name"], str):
            raise FormatError(f"events {at} is no event")
        args = tuple(number(arg, MOST, f"events {at}") for arg in listed(it["args"], f"events {at}"))
        events.append(FileEvent(number(it["at"], MOST, f"events {at}"), number(it["switch"], switches - 1, f"events {at}"), it["name"], args))
    steps = [listed(it, f"steps {at}") for at, it in enumerate(listed(found.get("steps", []), "steps"))]
    return Scene(switches, stop, links, down, events, steps)
