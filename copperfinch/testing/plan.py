"""Scenarios that are drawn: what a test says of them, and the strategy of hypothesis that draws them within the limits of a program."""
from dataclasses import dataclass, field
from functools import lru_cache
from pathlib import Path
from typing import Any, Callable, List, Mapping, Optional, Sequence, Tuple, Union

from hypothesis import strategies as st
from hypothesis.strategies import SearchStrategy

from ..errors import Error
from ..files import FileEvent, Scene, read_scene

Values = Union[int, Tuple[int, int], List[int], "SearchStrategy[int]"]
Draw = Callable[["SearchStrategy[Any]"], Any]
# How many events there are at most, and what draws one or more that belong together, given the number of switches.
Kind = Tuple[int, Callable[[Draw, int], List[FileEvent]]]
# The names of topologies, and the most ticks of a scenario, over all switches.
SHAPES = "none", "line", "ring", "star", "tree", "all", "random"
MOST_TICKS = 131072
# hypothesis draws numbers of a longer range unevenly.
EVEN = 126


def event(at: int, switch: int, name: str, *args: int) -> FileEvent:
    """Returns an event of a scenario."""
    return FileEvent(at, switch, name, args)


@dataclass(frozen=True)
class Some:
    """At most `count` events of a name. `args` has values for each parameter, or is None for all that fit; `switch` has those of the switch."""

    count: int
    args: Optional[Tuple[Values, ...]] = None
    switch: Optional[Values] = None


def some(count: int, *args: Values, switch: Optional[Values] = None) -> Some:
    """At most so many events. An argument is a number, a pair (least, most), a list of numbers, or a strategy; without any, each that fits."""
    return Some(count, args or None, switch)


@dataclass(frozen=True)
class Plan:
    """What scenarios are drawn; the words are those of `scenarios`."""

    switches: Values = 1
    events: Mapping[str, Union[int, Some]] = field(default_factory=dict)
    links: Union[str, Path, Sequence[Sequence[int]]] = "line"
    failures: int = 0
    latency: Values = (1, 9)
    gaps: Values = (0, 4)
    outage: Values = (1, 60)
    first: Sequence[FileEvent] = ()
    groups: Sequence[Tuple[int, "SearchStrategy[Sequence[FileEvent]]"]] = ()
    rest: int = 200

    def strategy(self, widths: Mapping[str, Sequence[int]]) -> "SearchStrategy[Scene]":
        """The strategy that draws these scenarios of a program with events of these widths. Raises Error for values that do not fit."""
        kinds = [self.kind(name, it if isinstance(it, Some) else Some(it), widths) for name, it in self.events.items()]
        kinds += [(count, group_of(strategy, widths)) for count, strategy in self.groups]
        for it in self.first:
            check_event(it, widths)
        if isinstance(self.links, str) and self.links not in SHAPES and not Path(self.links).exists():
            raise Error(f"links are {', '.join(SHAPES)}, pairs, or a file, and not {self.links}")
        return scene_of(self, kinds)

    def kind(self, name: str, it: Some, widths: Mapping[str, Sequence[int]]) -> Kind:
        """How many events of a name there are, and what draws one, at tick 0, given the number of switches."""
        if name not in widths:
            raise Error(f"the program has no event {name}")
        given = it.args if it.args is not None else tuple((0, 2**width - 1) for width in widths[name])
        if len(given) != len(widths[name]):
            raise Error(f"{name} has {len(widths[name])} parameters, and {len(given)} are given")
        args = [values_of(values, 2**width - 1, f"parameter {at + 1} of {name}") for at, (values, width) in enumerate(zip(given, widths[name]))]

        what = f"the switch of {name}"
        ways = [values_of((0, top) if it.switch is None else it.switch, 63, what) for top in range(64)]

        def one(draw: Draw, switches: int) -> List[FileEvent]:
            at = within(draw(ways[switches - 1]), switches - 1, what)
            return [FileEvent(0, at, name, tuple(draw(arg) for arg in args))]
        return it.count, one


def scenarios(switches: Values = 1, events: Optional[Mapping[str, Union[int, Some]]] = None, **more: Any) -> Plan:
    """Says which scenarios are drawn.

    `switches` is their number. `events` has for each name how many there are at most, as a number or as `some(..)`. `links` are `"none"`,
    `"line"`, `"ring"`, `"star"` (around switch 0), `"tree"`, `"all"`, `"random"` (a tree and more), pairs `(a, b)` or `(a, b, latency)`, or the
    path of a scenario. `latency` is that of each link, `failures` the most times that a link is down, `outage` their ticks, `gaps` the ticks
    between events. `first` are events that each scenario has. `groups` are pairs of a count and a strategy for lists of events that belong
    together, whose ticks count from 0. The network runs for `rest` ticks after the last event.
    """
    return Plan(switches, events or {}, **more)


def values_of(values: Values, most: int, what: str) -> "SearchStrategy[int]":
    """The strategy of values, each 0 to `most`."""
    if isinstance(values, int):
        values = (values, values)
    if isinstance(values, SearchStrategy):
        return values.map(lambda drawn: within(drawn, most, what))
    for value in values:
        within(value, most, what)
    return st.sampled_from(values) if isinstance(values, list) else st.integers(*values)


def within(value: Any, most: int, what: str) -> int:
    """Refuses a value that does not fit."""
    if isinstance(value, bool) or not isinstance(value, int) or not 0 <= value <= most:
        raise Error(f"{what} is 0 to {most}, and not {value!r}")
    return value


def check_event(it: FileEvent, widths: Mapping[str, Sequence[int]]) -> FileEvent:
    """Refuses an event that the program does not have, or one with arguments that do not fit."""
    if it.name not in widths or len(it.args) != len(widths[it.name]):
        raise Error(f"the program has no event {it.name} with {len(it.args)} parameters")
    for at, (value, width) in enumerate(zip(it.args, widths[it.name])):
        within(value, 2**width - 1, f"parameter {at + 1} of {it.name}")
    return it


def group_of(strategy: "SearchStrategy[Sequence[FileEvent]]", widths: Mapping[str, Sequence[int]]) -> Callable[[Draw, int], List[FileEvent]]:
    """What draws the events of a group."""
    def one(draw: Draw, switches: int) -> List[FileEvent]:
        return [check_event(it, widths) for it in draw(strategy)]
    return one


def several(most: int, one: "SearchStrategy[Any]") -> "SearchStrategy[List[Any]]":
    """A strategy for lists of at most so many items, of which most are long. To shrink, hypothesis takes out each item by itself."""
    flag = st.integers(0, min(max(most, 1), EVEN))

    @st.composite
    def item(draw: Draw) -> Any:
        is_last = draw(flag) == 0 and (most <= EVEN or draw(flag) == 0)
        return None if is_last else (draw(one),)

    @st.composite
    def items(draw: Draw) -> List[Any]:
        found: List[Any] = []
        while len(found) < most:
            made = draw(next_item)
            if made is None:
                break
            found.append(made[0])
        return found

    next_item = item()
    return items()


def scene_of(plan: Plan, kinds: Sequence[Kind]) -> "SearchStrategy[Scene]":
    """The strategy of a plan's scenarios."""
    total = sum(count for count, _ in kinds)
    latency, outage = values_of(plan.latency, 65536, "a latency"), values_of(plan.outage, MOST_TICKS, "an outage")
    number = values_of(plan.switches, 64, "the number of switches")
    of_file = read_scene(Path(plan.links).read_bytes()) if isinstance(plan.links, (str, Path)) and plan.links not in SHAPES else None
    events = lru_cache(None)(lambda count: several(total, one_of(plan, kinds, total, count)))

    @st.composite
    def scene(draw: Draw) -> Scene:
        made = Scene(of_file.switches if of_file else max(draw(number), 1), 0)
        if of_file:
            made.links = dict(of_file.links)
        else:
            for a, b, given in pairs(plan.links, made.switches, draw):
                made.link(a, b, draw(latency) if given is None else given)
        now = 0
        made.events += plan.first
        for gap, found in draw(events(made.switches)):
            now += gap
            made.events += [FileEvent(now + it.at, it.switch, it.name, it.args) for it in found]
        last = max([it.at for it in made.events], default=0)
        made.stop = min(last + plan.rest, MOST_TICKS // made.switches)
        lines = sorted((a, b) for a, b in made.links if a < b)
        if lines and plan.failures:
            windows = st.tuples(st.integers(0, len(lines) - 1), st.integers(0, made.stop), outage)
            made.down += [(lines[at][0], lines[at][1], start, start + max(length, 1)) for at, start, length in draw(several(plan.failures, windows))]
        return made
    return scene()


def one_of(plan: Plan, kinds: Sequence[Kind], total: int, switches: int) -> "SearchStrategy[Tuple[int, List[FileEvent]]]":
    """The strategy of a gap and the events behind it, on so many switches. Kinds of more events come more often."""
    which, gaps = st.integers(0, max(total - 1, 0)), values_of(plan.gaps, MOST_TICKS, "a gap")

    @st.composite
    def one(draw: Draw) -> Tuple[int, List[FileEvent]]:
        gap, place = draw(gaps), draw(which)
        for count, kind in kinds:
            if place < count:
                return gap, kind(draw, switches)
            place -= count
        return gap, []
    return one()


def pairs(links: Union[str, Path, Sequence[Sequence[int]]], count: int, draw: Draw) -> List[Tuple[int, int, Optional[int]]]:
    """The links of a topology, some with their latency."""
    if not isinstance(links, (str, Path)):
        return [(it[0], it[1], it[2] if len(it) > 2 else None) for it in links]
    rest = range(1, count)
    if links in ("tree", "random"):
        found = [(draw(st.integers(0, at - 1)), at) for at in rest]
        if links == "random":
            others = [(a, b) for b in range(count) for a in range(b) if (a, b) not in found]
            found += [it for it in others if draw(st.booleans())]
    elif links == "all":
        found = [(a, b) for b in range(count) for a in range(b)]
    else:
        found = [(0, at) for at in rest] if links == "star" else [(at - 1, at) for at in rest] if links != "none" else []
        if links == "ring" and count > 2:
            found.append((0, count - 1))
    return [(a, b, None) for a, b in found]
