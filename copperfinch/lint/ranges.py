"""What is known of the values of expressions: their ranges, and the hashes whose low bits they keep."""
from __future__ import annotations

from typing import Dict, FrozenSet, Iterable, List, Optional, Set, Tuple

from ..model import core
from ..model.values import COMPARE

Range = Tuple[int, int]
Places = FrozenSet[int]
NONE: Places = frozenset()
# The lowest byte of a hash depends on the lowest bytes of its words alone; a shift by a byte leaves it out.
WEAK_BITS = 8


def full(width: int) -> Range:
    """Returns the range of all numbers of a width."""
    return 0, 2 ** width - 1


class Ranges:
    """The ranges of the expressions of a body: a local has the values of all its assignments, and a parameter has any."""

    def __init__(self, body: core.Body) -> None:
        self.body = body
        self.assigned: Dict[int, List[core.Expr]] = {}
        for x in core.walk(body.body):
            if isinstance(x, core.Assign):
                self.assigned.setdefault(x.local, []).append(x.value)
        self.known: Dict[int, Range] = {}
        self.open: Set[int] = set()

    def of_local(self, number: int, width: int) -> Range:
        """Returns the range of a local."""
        if number < self.body.params or number in self.open or number not in self.assigned:
            return full(width)
        if number not in self.known:
            self.open.add(number)
            found = [self.of(value) for value in self.assigned[number]]
            self.open.remove(number)
            self.known[number] = min(lo for lo, _ in found), max(hi for _, hi in found)
        return self.known[number]

    def of(self, e: core.Expr) -> Range:
        """Returns the range of an expression."""
        if isinstance(e, core.Fixed):
            return e.value, e.value
        if isinstance(e, core.Local):
            return self.of_local(e.number, e.width)
        if isinstance(e, core.Input):
            return full(6 if e.name == 'me' else 32)
        if isinstance(e, core.Un):
            return self.of_unary(e)
        if isinstance(e, core.Bin):
            return self.of_binary(e)
        if isinstance(e, core.Cast):
            lo, hi = self.of(e.arg)
            return (lo, hi) if hi < 2 ** e.width else full(e.width)
        return full(e.width) if isinstance(e, core.Hash) else full(64)

    def of_unary(self, e: core.Expr) -> Range:
        """Returns the range of a shift; of another sign all numbers of the width."""
        lo, hi = self.of(e.arg)
        if e.op == '>>':
            return lo >> e.amount, hi >> e.amount
        if e.op == '<<' and e.amount < 64 and hi << e.amount < 2 ** e.width:
            return lo << e.amount, hi << e.amount
        return full(e.width)

    def of_binary(self, e: core.Expr) -> Range:
        """Returns the range of an operation of two operands."""
        (a, b), (c, d) = self.of(e.left), self.of(e.right)
        most = 2 ** e.width - 1
        b, d = min(b, most), min(d, most)
        if e.op in COMPARE:
            return 0, 1
        if e.op == '&':
            return 0, min(b, d)
        if e.op in '|^':
            return 0, 2 ** max(b, d).bit_length() - 1
        if e.op == '|+|':
            return min(a + c, most), min(b + d, most)
        if e.op == '|-|':
            return max(0, a - d), max(0, b - c)
        if e.op == '+' and b + d <= most:
            return a + c, b + d
        return (a - d, b - c) if e.op == '-' and a >= d else (0, most)

    def decided(self, e: core.Expr) -> Optional[bool]:
        """Returns the answer of a comparison that is always the same; None of another, and of one of two numbers."""
        if isinstance(e.left, core.Fixed) and isinstance(e.right, core.Fixed):
            return None
        (a, b), (c, d) = self.of(e.left), self.of(e.right)
        most = 2 ** e.width - 1
        b, d = min(b, most), min(d, most)
        always = {'<': b < c, '>': a > d, '<=': b <= c, '>=': a >= d, '==': a == b == c == d, '!=': b < c or a > d}
        never = {'<': a >= d, '>': b <= c, '<=': a > d, '>=': b < c, '==': b < c or a > d, '!=': a == b == c == d}
        return True if always[e.op] else False if never[e.op] else None


class Weak:
    """The hashes whose lowest bits an expression keeps, by their places: also through locals, functions and events."""

    def __init__(self, program: core.Core) -> None:
        self.program = program
        self.locals: Dict[Tuple[int, int], Places] = {}  # by the place of the body and the number of the local
        self.answers: Dict[int, Places] = {}
        self.changed = True
        while self.changed:
            self.changed = False
            for body in program.funs + program.handlers:
                self.pass_on(body)

    def put(self, body: core.Body, local: int, found: Places) -> None:
        """Adds hashes to a local."""
        before = self.locals.get((body.at, local), NONE)
        if not found <= before:
            self.locals[body.at, local] = before | found
            self.changed = True

    def pass_on(self, body: core.Body) -> None:
        """Passes hashes on along a body."""
        for x in core.walk(body.body):
            if isinstance(x, core.Assign):
                self.put(body, x.local, self.of(body, x.value))
            elif isinstance(x, core.Return) and x.value is not None and body in self.program.funs:
                number = self.program.funs.index(body)
                self.answers[number] = self.answers.get(number, NONE) | self.of(body, x.value)
            elif isinstance(x, core.Fun):
                self.put_all(body, self.program.funs[x.number], x.args)
            elif isinstance(x, core.Gen):
                handler = self.program.events[x.event].handler
                if handler is not None:
                    self.put_all(body, self.program.handlers[handler], x.args[:len(x.args) - len(x.extras)])

    def put_all(self, body: core.Body, to: core.Body, args: Iterable[core.Expr]) -> None:
        """Passes the hashes of arguments on to parameters."""
        for number, arg in enumerate(args):
            self.put(to, number, self.of(body, arg))

    def of(self, body: core.Body, e: core.Expr) -> Places:
        """Returns the hashes whose lowest bits are those of an expression."""
        if isinstance(e, core.Hash):
            return frozenset([e.at])
        if isinstance(e, core.Local):
            return self.locals.get((body.at, e.number), NONE)
        if isinstance(e, core.Fun):
            return self.answers.get(e.number, NONE)
        if isinstance(e, core.Cast) or isinstance(e, core.Un) and (e.op in '-~' or e.op == '>>' and e.amount < WEAK_BITS):
            return self.of(body, e.arg)
        if isinstance(e, core.Bin) and e.op not in COMPARE:
            masked = e.op == '&' and isinstance(e.right, core.Fixed) and e.right.value % 2 ** WEAK_BITS == 0
            return NONE if masked else self.of(body, e.left) | self.of(body, e.right)
        return NONE
