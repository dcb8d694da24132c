"""The whole step: one event runs its handler to its end (docs/LANGUAGE.md, What a program means); and the lines of a log."""
from dataclasses import dataclass
from typing import Any, Dict, List, Optional, Tuple

from . import core
from .values import binary, hash_of, low, unary

Cells = List[List[int]]


@dataclass
class Out:
    """An event that is sent, with its delay and its target, or a text that is said, which has none of these."""
    number: int
    args: List[int]
    delay: Any = None
    to: Optional[int] = None


def empty_cells(c: core.Core) -> Cells:
    """Returns the cells of all arrays, which begin as 0."""
    return [[0] * a.size for a in c.arrays]


class Run:
    """The run of a handler: statements run in order, and operands and arguments are evaluated from left to right."""

    def __init__(self, c: core.Core, cells: Cells, now: int, me: int) -> None:
        self.core, self.cells = c, cells
        self.inputs = {'now': low(now, 32), 'me': me}
        self.outs: List[Out] = []

    def value(self, x: core.Expr, arrays: List[core.ArrayName], held: Dict[int, int]) -> Any:
        """Evaluates an expression, to None if it gives no value; both sides of `&&` and `||` are evaluated, and no expression can fault."""
        if isinstance(x, core.Fixed):
            return x.value
        if isinstance(x, core.Local):
            return held[x.number]
        if isinstance(x, core.Input):
            return self.inputs[x.name]
        parts = [self.value(y, arrays, held) for y in core.children(x)]
        if isinstance(x, core.Un):
            return unary(x.op, x.amount, parts[0], x.width)
        if isinstance(x, core.Bin):
            return binary(x.op, parts[0], parts[1], x.width)
        if isinstance(x, core.Cast):
            return low(parts[0], x.width)
        if isinstance(x, core.Hash):
            return hash_of(x.width, parts)
        if isinstance(x, core.Touch):
            cells = self.cells[x.array.among(arrays).number]
            i = parts[0] % len(cells)
            old = cells[i]
            cells[i] = x.set.apply(old, parts[2])
            return x.get.apply(old, parts[1]) if x.answers else None
        return self.block(self.core.funs[x.number].body, [a.among(arrays) for a in x.arrays], dict(enumerate(parts)))[1]

    def block(self, stmts: List[core.Stmt], arrays: List[core.ArrayName], held: Dict[int, int]) -> Tuple[bool, Any]:
        """Runs statements; says whether they returned, and with which value."""
        for s in stmts:
            parts = [self.value(x, arrays, held) for x in core.children(s)]
            if isinstance(s, core.Assign):
                held[s.local] = parts[0]
            elif isinstance(s, core.If):
                returned, answer = self.block(s.yes if parts[0] else s.no, arrays, held)
                if returned:
                    return True, answer
            elif isinstance(s, core.Return):
                return True, parts[0] if parts else None
            elif isinstance(s, core.Say):
                self.outs.append(Out(s.form, parts))
            elif isinstance(s, core.Gen):
                args, delay, to = core.sent_parts(s, parts)
                self.outs += [Out(s.event, args, delay or 0, target) for target in s.members or [to]]
        return False, None


def run_whole(c: core.Core, cells: Cells, now: int, me: int, event: int, args: List[int]) -> List[Out]:
    """Runs an event's handler whole on cells; an event without a handler changes nothing."""
    run = Run(c, cells, now, me)
    handler = c.events[event].handler
    if handler is not None:
        run.block(c.handlers[handler].body, [], dict(enumerate(args)))
    return run.outs


def call_text(c: core.Core, event: int, args: List[int]) -> str:
    """Returns `NAME(ARGS)`."""
    return f'{c.events[event].name}({",".join(map(str, args))})'


def out_text(c: core.Core, out: Out, lost: bool) -> str:
    """Returns the line of an event that is sent, or of a text with its numbers put for each `%d`."""
    if out.delay is None:
        pieces = c.forms[out.number].split('%d')
        return '  say ' + pieces[0] + ''.join(str(n) + piece for n, piece in zip(out.args, pieces[1:])) + '\n'
    to = 'here' if out.to is None else f'to {out.to}'
    return f'  generate {call_text(c, out.number, out.args)} delay {out.delay} {to}{" lost" if lost else ""}\n'


def block_text(c: core.Core, tick: int, switch: int, event: int, args: List[int], outs: List[Tuple[Out, bool]]) -> str:
    """Returns the block of an event: its line, and a line for each out, which may be lost."""
    return f'[{tick}] s{switch} {call_text(c, event, args)}\n' + ''.join(out_text(c, out, lost) for out, lost in outs)


def cells_text(c: core.Core, switch: int, cells: Cells) -> str:
    """Returns a line for each cell that is not 0, by array and cell."""
    return ''.join(f's{switch} {a.name}[{i}] = {value}\n' for a, row in zip(c.arrays, cells) for i, value in enumerate(row) if value)
