"""The normal form: each handler becomes operations under the guard that the event is its own; calls are inlined here.

It follows the definition in crates/lucid_normal_spec/specs (Translate), and docs/ERRORS.md, The order of nodes, in its order.
"""
from dataclasses import dataclass
from typing import Any, Dict, List, Optional, Tuple

from . import core
from .nodes import Code, Literal, Op, Operand
from .values import COMPARE


@dataclass(frozen=True)
class Held:
    """What holds a value: an operand, and the value's width."""
    operand: Operand
    width: int


@dataclass
class Frame:
    """A body that is translated: the arrays of its array parameters, what holds its locals, and what it answers."""
    arrays: List[core.ArrayName]
    held: Any  # a Held for each local; None behind a return
    answer: Any = None  # a Held


def needs_move(test: core.Expr) -> bool:
    """Whether a condition needs a move of its own: a number, a local and a call of a function do."""
    return isinstance(test, (core.Fixed, core.Local, core.Fun))


def number(value: int, width: int) -> Held:
    """Returns what holds a number."""
    return Held(Operand(False, value), width)


class Translation:
    """Translates one handler after another. `place` is the position among the arrays, `slot` counts the outs."""

    def __init__(self, c: core.Core) -> None:
        self.core = c
        longest = max([len(e.params) for e in c.events], default=0)
        args = [max(e.params[k] for e in c.events if k < len(e.params)) for k in range(longest)]
        self.code = Code(c, [32, 32, 32] + args, 3 + longest)
        self.guard: Tuple[Literal, ...] = ()
        self.via: Tuple[int, ...] = ()
        self.place = self.slot = 0

    def new_field(self, width: int) -> Held:
        """Adds a field of a width."""
        self.code.widths.append(width)
        return Held(Operand(True, len(self.code.widths) - 1), width)

    def emit(self, kind: str, parts: List[Held], to: Optional[Held], at: int, **more: Any) -> Any:
        """Adds an operation, which writes a field if one is given, and returns that."""
        field = None if to is None else to.operand.value
        self.code.ops.append(Op(self.guard, self.place, kind, tuple(p.operand for p in parts), field, at, self.via, **more))
        return to

    def emit_out(self, kind: str, parts: List[Held], at: int, number: int, **more: Any) -> None:
        """Adds an operation of the next slot of outs."""
        self.emit(kind, parts, None, at, number=number, slot=self.slot, **more)
        self.slot += 1

    def move(self, value: Held, at: int) -> Any:
        """Moves a value to a new field."""
        return self.emit('move', [value], self.new_field(value.width), at)

    def value(self, x: core.Expr, f: Frame) -> Any:
        """Translates an expression; it may give no value."""
        if isinstance(x, core.Fixed):
            return number(x.value, x.width)
        if isinstance(x, core.Local):
            return f.held[x.number]
        if isinstance(x, core.Input):
            return Held(Operand(True, 1 if x.name == 'now' else 2), 32)
        parts = [self.value(y, f) for y in core.children(x)]
        if isinstance(x, core.Un):
            return self.emit('un', parts, self.new_field(x.width), x.at, sign=x.op, amount=x.amount, width=x.width)
        if isinstance(x, core.Bin):
            return self.emit('bin', parts, self.new_field(1 if x.op in COMPARE else x.width), x.at, sign=x.op, width=x.width)
        if isinstance(x, (core.Cast, core.Hash)):
            return self.emit('cast' if isinstance(x, core.Cast) else 'hash', parts, self.new_field(x.width), x.at)
        if isinstance(x, core.Touch):
            array, width = x.array.among(f.arrays).number, x.get.width
            to = self.new_field(width) if x.answers else None
            self.emit('touch', parts, to, x.at, number=array, get=x.get, set=x.set, width=width)
            self.place = array + 1
            return to
        return self.call(x, parts, f)

    def call(self, x: core.Fun, args: List[Held], f: Frame) -> Any:
        """Translates a call: the body, with the parameters held by the arguments."""
        callee = Frame([a.among(f.arrays) for a in x.arrays], dict(enumerate(args)))
        outer, self.via = self.via, self.via + (x.at,)
        self.block(self.core.funs[x.number].body, callee)
        self.via = outer
        return callee.answer

    def block(self, stmts: List[core.Stmt], f: Frame) -> None:
        """Translates statements one after another."""
        for s in stmts:
            if isinstance(s, core.If):
                self.choice(s, f)
                continue
            is_group = isinstance(s, core.Gen) and s.members is not None  # each argument, and the delay, is moved before the next
            parts = [self.move(self.value(x, f), s.at) if is_group else self.value(x, f) for x in core.children(s)]
            if isinstance(s, core.Assign):
                f.held[s.local] = self.move(parts[0], s.at)
            elif isinstance(s, core.Gen):
                self.send(s, parts)
            elif isinstance(s, core.Say):
                self.emit_out('say', parts, s.at, s.form)
            elif isinstance(s, core.Return):
                f.held, f.answer = None, parts[0] if parts else None

    def send(self, s: core.Gen, parts: List[Held]) -> None:
        """One operation; for a group one for each member."""
        args, delay, to = core.sent_parts(s, parts)
        for target in [to] if s.members is None else [number(m, 32) for m in s.members]:
            targets = [] if target is None else [target]
            self.emit_out('gen', args + [delay or number(0, 32)] + targets, s.at, s.event, targeted=target is not None)

    def choice(self, s: core.If, f: Frame) -> None:
        """The condition, the two branches under its literal, and then the joins."""
        test = self.value(s.test, f)
        if needs_move(s.test):
            test = self.move(test, s.test.at)
        bit = test.operand.value
        guard, before, place, slot = self.guard, f.held, self.place, self.slot
        ends: List[Tuple[Frame, int, int]] = []
        for truth, branch in ((1, s.yes), (0, s.no)):
            self.guard, self.place, self.slot = guard + (Literal(bit, True, truth),), place, slot
            inner = Frame(f.arrays, dict(before))
            self.block(branch, inner)
            ends.append((inner, self.place, self.slot))
        self.guard, self.place, self.slot = guard, max(end[1] for end in ends), max(end[2] for end in ends)
        yes, no = ends[0][0], ends[1][0]
        f.held, f.answer = None, None
        if yes.held is not None and no.held is not None:
            f.held = {i: self.join(bit, yes.held[i], no.held[i], s.at) for i in sorted(before)}
        elif yes.answer is not None and no.answer is not None:
            f.answer = self.join(bit, yes.answer, no.answer, s.at, always=True)

    def join(self, bit: int, yes: Held, no: Held, at: int, always: bool = False) -> Held:
        """Returns what holds a value behind an `if`: a new field with a move in each branch, unless both hold a local by the same."""
        if yes == no and not always:
            return yes
        guard, to = self.guard, self.new_field(yes.width)
        for truth, value in ((1, yes), (0, no)):
            self.guard = guard + (Literal(bit, True, truth),)
            self.emit('move', [value], to, at)
        self.guard = guard
        return to


def normal(c: core.Core) -> Code:
    """Returns the normal form of a program: a handler begins at place 0 with its parameters held by the argument fields."""
    made = Translation(c)
    for h in c.handlers:
        made.guard, made.place, made.slot = (Literal(0, True, h.event),), 0, 0
        made.block(h.body, Frame([], {i: Held(Operand(True, 3 + i), h.locals[i]) for i in range(h.params)}))
    return made.code
