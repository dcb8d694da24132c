"""Draws valid code, also such that no program gives, and runs code by its meaning (crates/lucid_code/specs: Valid and Run).

In the normal form of a program each reader is under the guard of what it reads, writers of a field are the ends of one `if`, and no guard
contradicts itself. Drawn code keeps none of this, so a pass that relies on it is seen here, and in no program.
"""
from __future__ import annotations

import random
from collections import defaultdict
from dataclasses import replace
from typing import Dict, List, Optional, Sequence, Tuple

from copperfinch.model.core import ArrayDef, Core
from copperfinch.model.more_passes import contradicts_itself
from copperfinch.model.nodes import Code, Literal, Op, Operand, nodes_of
from copperfinch.model.values import COMPARE, MemAlu, low, returning

Guard = Tuple[Literal, ...]
Cells = List[List[int]]
WIDTHS = (1, 1, 1, 2, 3, 8)
NUMBERS = (0, 1, 1, 2, 3, 7, 255, 300)
SIGNS = ("+", "-", "&", "|", "^", "|+|", "|-|", "==", "==", "==", "!=", "<", ">", "<=", ">=")


def contradict(one: Guard, other: Guard) -> bool:
    """Whether a literal of one guard and one of the other never hold together."""
    return any(x.field == y.field and ((x.value != y.value) if x.equal and y.equal else x.equal != y.equal and x.value == y.value) for x in one for y in other)


def shared_by(one: Op, other: Op) -> bool:
    """Whether two operations write one field, call one array or have one slot."""
    outs = ("gen", "say")
    return (
        one.to is not None and one.to == other.to
        or one.kind == other.kind == "touch" and one.number == other.number
        or one.kind in outs and other.kind in outs and one.slot == other.slot
    )


def fault_of(code: Code) -> Optional[str]:
    """Returns the rule that makes code invalid, or that of its nodes that it breaks; None for valid code whose nodes follow their writers."""
    ops, widths = code.ops, code.widths
    for i, op in enumerate(ops):
        for other in ops[:i]:
            if shared_by(op, other) and not contradict(other.guard, op.guard):
                return "two operations that share a place have guards that do not contradict"
        for field in op.reads():
            for j, writer in enumerate(ops):
                if writer.to == field and not (j < i and writer.key() <= op.key()):
                    return "an operation reads what a later one writes"
        if any(x.value >= 2 ** widths[x.field] for x in op.guard):
            return "a literal does not fit its field"
        if op.to is not None and op.to < code.inputs:
            return "an input is written"
        wanted = 1 if op.sign in COMPARE else op.width
        if op.kind in ("un", "bin", "touch") and op.to is not None and widths[op.to] != wanted:
            return "a field has another width than its operation"
    nodes = nodes_of(code)
    for k, node in enumerate(nodes):
        if node.reads & node.writes:
            return "a node reads a field of its own"
        if any(later.writes & node.reads for later in nodes[k:]):
            return "a node reads what a later one writes"
    return None


class Drawn:
    """Code that grows by one operation after another; `keys` has the greatest key of the writers of each field."""

    def __init__(self, rng: random.Random) -> None:
        self.rng, self.core = rng, Core()
        self.ops: List[Op] = []
        self.widths = [32, 32, 32] + [rng.choice(WIDTHS) for _ in range(rng.randrange(1, 4))]
        self.inputs = len(self.widths)
        self.core.arrays = [ArrayDef(f"a{k}", rng.choice(WIDTHS), rng.choice((1, 2, 4)), 0) for k in range(rng.randrange(0, 3))]
        self.keys: Dict[int, int] = {field: 0 for field in range(self.inputs)}
        self.guards: List[Guard] = [()]

    def literal(self) -> Literal:
        field = self.rng.choice(list(self.keys))
        return Literal(field, self.rng.random() < 0.75, self.rng.randrange(min(2 ** self.widths[field], 3)))

    def operand(self) -> Operand:
        recent = list(self.keys)[-6:] if self.rng.random() < 0.7 else list(self.keys)
        return Operand(True, self.rng.choice(recent)) if self.rng.random() < 0.75 else Operand(False, self.rng.choice(NUMBERS))

    def guard(self) -> Guard:
        """A guard that was drawn before, in most cases with one literal more, and sometimes in another order."""
        guard = list(self.rng.choice(self.guards))
        if self.rng.random() < 0.5:
            guard.append(self.literal())
        if self.rng.random() < 0.2:
            self.rng.shuffle(guard)
        found = tuple(dict.fromkeys(guard))
        if contradicts_itself(found) and self.rng.random() < 0.9:
            return ()
        self.guards = (self.guards + [found] * 2)[-8:]
        if found and self.rng.random() < 0.6:
            last = found[-1]
            self.guards.append(found[:-1] + (Literal(last.field, not last.equal, last.value),))
        return found

    def is_apart(self, op: Op) -> bool:
        return all(contradict(other.guard, op.guard) for other in self.ops if shared_by(op, other))

    def add(self, op: Op, width: Optional[int]) -> None:
        """Adds an operation, with a field of this width that it writes: in some cases one that others write and nobody reads yet."""
        own = max([(self.keys[field] + 1) // 2 for field in op.reads()] + [0])
        op = replace(op, level=own if self.rng.random() < 0.8 else own + 1)
        if op.kind == "touch" and any(self.keys[field] > op.key() - 1 for field in op.reads()):
            return
        if width is None:
            self.ops += [op] if self.is_apart(op) else []
            return
        read = {field for other in self.ops + [op] for field in other.reads()}
        free = [f for f in self.keys if f >= self.inputs and f not in read and self.widths[f] == width and self.is_apart(replace(op, to=f))]
        if free and self.rng.random() < 0.8:
            op = replace(op, to=self.rng.choice(free))
        elif self.is_apart(op):
            self.widths.append(width)
            op = replace(op, to=len(self.widths) - 1)
        else:
            return
        self.keys[op.to] = max(self.keys.get(op.to, 0), op.key())  # type: ignore[index, arg-type]
        self.ops.append(op)
        if op.sign in COMPARE:
            base = op.guard if self.rng.random() < 0.8 else ()
            self.guards = (self.guards + [base + (Literal(op.to, True, bit),) for bit in (0, 1)] * 2)[-8:]  # type: ignore[arg-type]

    def move_answer(self, call: Op, width: int) -> None:
        """Moves the answer of a call to another field, mostly under the guard of the call; mostly nothing else reads the answer."""
        assert call.to is not None
        guard = call.guard if self.rng.random() < 0.7 else call.guard[::-1] if self.rng.random() < 0.5 else self.guard()
        self.add(Op(guard, 0, "move", (Operand(True, call.to),), None, 0), width)
        if self.rng.random() < 0.8:
            del self.keys[call.to]

    def step(self) -> None:
        rng, guard, width = self.rng, self.guard(), self.rng.choice(WIDTHS)
        kind = rng.choice(("move", "move", "cast", "cast", "bin", "bin", "bin", "un", "hash", "touch", "gen", "say"))
        one, two = self.operand(), self.operand()
        if kind == "bin":
            sign = rng.choice(SIGNS)
            wide = width
            if sign in COMPARE and rng.random() < 0.8:  # a test of a field
                one, two = Operand(True, rng.choice(list(self.keys))), Operand(False, rng.choice(NUMBERS)) if rng.random() < 0.8 else two
                wide = self.widths[one.value] if rng.random() < 0.8 else width
            self.add(Op(guard, 0, kind, (one, two), None, 0, sign=sign, width=wide), 1 if sign in COMPARE else width)
        elif kind == "un":
            self.add(Op(guard, 0, kind, (one,), None, 0, sign=rng.choice(("~", "-", "<<", ">>")), amount=rng.choice((0, 1, 2, 9)), width=width), width)
        elif kind == "touch":
            if self.core.arrays:
                number = rng.randrange(len(self.core.arrays))
                wide = self.core.arrays[number].width
                alus = (returning(wide, "stored"), returning(wide, "arg"), MemAlu(wide, None, ("+", "stored", "arg"), ("stored",)),
                        MemAlu(wide, ("==", "stored", 0), ("arg",), ("stored",)))
                to = wide if rng.random() < 0.8 else None
                operands = (one, two, self.operand())
                before = len(self.ops)
                self.add(Op(guard, 0, kind, operands, None, 0, number=number, get=rng.choice(alus), set=rng.choice(alus), width=wide), to)
                if len(self.ops) > before and to is not None and rng.random() < 0.7:
                    self.move_answer(self.ops[-1], to if rng.random() < 0.8 else width)
        elif kind in ("gen", "say"):
            delay = (Operand(False, 0),) if kind == "gen" else ()
            self.add(Op(guard, 0, kind, (one, two) + delay, None, 0, number=rng.randrange(3), slot=rng.randrange(8)), None)
        else:
            self.add(Op(guard, 0, kind, (one, two) if kind == "hash" else (one,), None, 0), width)


def draw_code(seed: int) -> Code:
    """Returns valid code with at most 27 operations."""
    drawn = Drawn(random.Random(seed))
    for _ in range(drawn.rng.randrange(6, 28)):
        drawn.step()
    return Code(drawn.core, drawn.widths, drawn.inputs, drawn.ops)


def run_code(code: Code, cells: Cells, event: int, tick: int, switch: int, args: Sequence[int]) -> Tuple[Cells, List[object]]:
    """Runs the operations in the order of the list; returns the cells and the outs in the order of their slots."""
    fields: Dict[int, int] = defaultdict(int, enumerate([event, low(tick, 32), switch, *args]))
    cells, outs = [list(row) for row in cells], {}
    for op in code.ops:
        if any((fields[x.field] == x.value) != x.equal for x in op.guard):
            continue
        values = [fields[x.value] if x.is_field else x.value for x in op.operands]
        if op.kind == "touch":
            row = cells[op.number]
            at, old = values[0] % len(row), low(row[values[0] % len(row)], op.width)
            row[at] = op.set.apply(old, low(values[2], op.width))  # type: ignore[union-attr]
            if op.to is not None:
                fields[op.to] = op.get.apply(old, low(values[1], op.width))  # type: ignore[union-attr]
        elif op.kind in ("gen", "say"):
            outs[op.slot] = (op.kind, op.number, values)
        elif op.to is not None:
            fields[op.to] = op.result(values, code.widths[op.to])
    return cells, [outs[slot] for slot in sorted(outs)]


def difference(code: Code, new: Code, rng: random.Random, runs: int) -> Optional[str]:
    """Returns what the law of a pass forbids of the new code, or None: more operations, invalid code, or another run for one of some inputs.

    Cells may be wider than their array, since the law speaks of all cells.
    """
    if len(new.ops) > len(code.ops):
        return "more operations"
    fault = fault_of(new)
    if fault is not None:
        return fault
    for _ in range(runs):
        cells = [[rng.randrange(2 ** a.width if rng.random() < 0.5 else 2) for _ in range(a.size)] for a in code.core.arrays]
        if cells and rng.random() < 0.3:
            cells[0][0] += 2 ** rng.randrange(9)
        args = [rng.randrange(2 ** width if rng.random() < 0.5 else min(3, 2 ** width)) for width in code.widths[3 : code.inputs]]
        event, tick, switch = rng.randrange(3), rng.randrange(3), rng.randrange(3)
        if run_code(code, cells, event, tick, switch, args) != run_code(new, cells, event, tick, switch, args):
            return f"event {event} {args} at tick {tick} of switch {switch} on {cells}"
    return None
