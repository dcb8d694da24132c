"""The order of arrays: what each body needs, found once, and its cycles (docs/LANGUAGE.md, The order of arrays)."""
from collections import deque
from dataclasses import dataclass, field
from typing import Deque, Dict, List, Optional, Tuple

from . import core
from .core import ArrayName
from .refusals import Fault, Refused

Atom = Optional[ArrayName]  # None is the start of the body, a name is behind a call of that array
Places = Dict[Atom, int]  # the positions of a walk, each with the place of the call before it


@dataclass
class Scheme:
    """What a body needs: pairs of an atom and the array that must not come before it, each with the places of both calls."""
    ends: Places
    needs: Dict[Tuple[Atom, ArrayName], Tuple[int, int]] = field(default_factory=dict)


FIRST = ArrayName(True, 0)
CALL = Scheme({FIRST: 0}, {(None, FIRST): (0, 0)})  # a call of an array is a function that needs its one array parameter


class Walk:
    """Walks along a body in the order of evaluation, from the schemes of the functions before."""

    def __init__(self, schemes: List[Scheme], body: core.Body) -> None:
        self.schemes = schemes
        self.found = Scheme({None: body.at})
        self.walk(body.body)

    def enter(self, scheme: Scheme, arrays: List[ArrayName], at: int) -> None:
        """A call judges the function's body from the caller's position, with the arrays that it passes."""
        def put(atom: Atom) -> Places:
            return self.found.ends if atom is None else {atom.among(arrays): at}

        for atom, array in scheme.needs:
            for before, place in put(atom).items():
                self.found.needs.setdefault((before, array.among(arrays)), (place, at))
        self.found.ends = {atom: place for end in scheme.ends for atom, place in put(end).items()}

    def walk(self, nodes: List[core.Node]) -> None:
        """Arguments come before the call, and the condition of an `if` before its branches, which both begin where it ends."""
        for x in nodes:
            self.walk(core.children(x))
            if isinstance(x, core.Touch):
                self.enter(CALL, [x.array], x.at)
            elif isinstance(x, core.Fun):
                self.enter(self.schemes[x.number], x.arrays, x.at)
            elif isinstance(x, core.If):
                begin = self.found.ends
                self.walk(x.yes)
                first, self.found.ends = self.found.ends, begin
                self.walk(x.no)
                self.found.ends = {**first, **self.found.ends}


@dataclass
class Order:
    """Which arrays must come before which, for one body: by its pairs, and by their declarations."""
    scheme: Scheme
    names: Dict[ArrayName, str]

    def needed(self, x: ArrayName, y: ArrayName) -> bool:
        """Whether x must come before y."""
        return (x, y) in self.scheme.needs or not y.is_param and x < y

    def cycle(self) -> Optional[List[ArrayName]]:
        """Returns a shortest cycle, begun with its earliest name; None exactly if there is a numbering."""
        touched = sorted({a for pair in self.scheme.needs for a in pair if a is not None})
        cycles = [cycle for cycle in (self.cycle_from(start, touched) for start in touched) if cycle is not None]
        return min(cycles, key=lambda cycle: len(cycle or []), default=None)

    def cycle_from(self, start: ArrayName, touched: List[ArrayName]) -> Optional[List[ArrayName]]:
        """Returns a shortest cycle through an array and later ones."""
        waiting: Deque[List[ArrayName]] = deque([[start]])
        seen = {start}
        while waiting:
            path = waiting.popleft()
            if self.needed(path[-1], start):
                return path
            for y in touched:
                if y not in seen and y > start and self.needed(path[-1], y):
                    seen.add(y)
                    waiting.append(path + [y])
        return None

    def refused(self, body: core.Body, cycle: List[ArrayName]) -> Refused:
        """6 order: returns the refusal of a body by a cycle."""
        line = f'order: declaration {body.decl} line {body.line} cycle'
        at = next(self.scheme.needs[pair][1] for pair in zip(cycle, cycle[1:] + cycle[:1]) if pair in self.scheme.needs)
        return Refused(6, ' '.join([line] + [self.names[x] for x in cycle]), Fault('cycle', at, line, self, cycle))

    def allows(self, names: List[str]) -> bool:
        """Whether these names are a cycle: none twice, each before the next, the last before the first, the earliest first."""
        def extends(path: List[ArrayName]) -> bool:
            if len(path) == len(names):
                return all(self.needed(a, b) for a, b in zip(path, path[1:] + path[:1]))
            return any(extends(path + [x]) for x, name in self.names.items()
                       if name == names[len(path)] and x not in path and (not path or x > path[0]))
        return len(names) > 0 and extends([])


def check_order(c: core.Core) -> None:
    """The first declaration that no numbering allows is refused, with a cycle of what it needs."""
    schemes: List[Scheme] = []
    refused: Dict[int, Refused] = {}  # by the number of the declaration: all functions are walked before the handlers
    for number, body in enumerate(c.funs + c.handlers):
        found = Walk(schemes, body).found
        if number < len(c.funs):
            schemes.append(found)
        names = {ArrayName(False, i): a.name for i, a in enumerate(c.arrays)}
        names.update({ArrayName(True, i): name for i, (name, _) in enumerate(body.arrays)})
        order = Order(found, names)
        cycle = order.cycle()
        if cycle is not None:
            refused[body.decl] = order.refused(body, cycle)
    if refused:
        raise refused[min(refused)]
