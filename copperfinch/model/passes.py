"""The four passes: `fold`, `copies`, `dead` and `direct` (crates/lucid_pass_spec/specs)."""
from collections import Counter
from dataclasses import replace
from typing import Callable, Dict, List, Optional, Sequence, Set, Tuple

from . import core
from .inline import check_counts
from .nodes import Code, Literal, Op, Operand
from .normal import normal
from .values import low


def only_writers(ops: List[Op]) -> Dict[int, int]:
    """Returns, of each field that just one operation writes, that operation."""
    counts = Counter(op.to for op in ops)
    return {op.to: i for i, op in enumerate(ops) if op.to is not None and counts[op.to] == 1}


def look_through(code: Code, put: Callable[[int, Operand], Operand], settle: Callable[[Op], Op]) -> List[Op]:
    """Changes each operation in the order of the list, as it is then; `put` chooses the operand for a moved field.

    A field is moved if a `move` alone writes it, and the reader's guard has all literals of that move's guard.
    """
    ops = list(code.ops)
    writers = only_writers(ops)

    def seen(x: Operand, reader: Op) -> Operand:
        writer = ops[writers[x.value]] if x.is_field and x.value in writers else None
        if writer is None or writer.kind != 'move' or not set(writer.guard) <= set(reader.guard):
            return x
        return put(x.value, writer.operands[0])

    for i, op in enumerate(ops):
        ops[i] = settle(replace(op, operands=tuple(seen(x, op) for x in op.operands)))
    return ops


def fold(code: Code) -> List[Op]:
    """A field that is moved from a number becomes that number; what computes from numbers alone becomes a move."""
    def put(field: int, source: Operand) -> Operand:
        return Operand(True, field) if source.is_field else Operand(False, low(source.value, code.widths[field]))

    def settle(op: Op) -> Op:
        if op.kind not in ('un', 'bin', 'cast', 'hash') or any(x.is_field for x in op.operands):
            return op
        value = op.result([x.value for x in op.operands], code.widths[op.to])
        return replace(op, kind='move', operands=(Operand(False, value),), sign='')

    return look_through(code, put, settle)


def copies(code: Code) -> List[Op]:
    """A field that is moved from a field of no greater width becomes that field."""
    def put(field: int, source: Operand) -> Operand:
        return source if source.is_field and code.widths[source.value] <= code.widths[field] else Operand(True, field)

    return look_through(code, put, lambda op: op)


def dead(code: Code) -> List[Op]:
    """What only writes a field that no operation reads is removed, from the back."""
    kept: List[Op] = []
    read = set()
    for op in reversed(code.ops):
        if op.kind in ('touch', 'gen', 'say') or op.to in read:
            kept.append(op)
            read.update(op.reads())
    return kept[::-1]


def compared(code: Code, op: Op) -> Optional[Tuple[int, int]]:
    """Returns the field and the number that an operation compares by `==`, if it compares whole fields."""
    if op.kind != 'bin' or op.sign != '==':
        return None
    left, right = op.operands
    if not left.is_field or right.is_field or op.width != code.widths[left.value] or right.value >= 2 ** op.width:
        return None
    return left.value, right.value


def direct(code: Code) -> List[Op]:
    """A test of a field that compares another with a number becomes a test of that other field."""
    guards: Dict[int, List[Set[Literal]]] = {}
    for op in code.ops:
        for x in op.guard:
            guards.setdefault(x.field, []).append(set(op.guard))
    tests: Dict[int, Tuple[int, int]] = {}
    for field, i in only_writers(code.ops).items():
        found = compared(code, code.ops[i])
        if found is not None and all(set(code.ops[i].guard) <= guard for guard in guards.get(field, [])):
            tests[field] = found

    def literal(x: Literal) -> Literal:
        if x.field not in tests:
            return x
        field, value = tests[x.field]
        return Literal(field, x.value == 1 if x.equal else x.value == 0, value)

    ops = [replace(op, guard=tuple(dict.fromkeys(literal(x) for x in op.guard))) for op in code.ops]
    read = {field for op in ops for field in op.reads()}
    return [op for op in ops if op.to not in tests or op.to in read]


Passes = Sequence[Tuple[str, Callable[[Code], List[Op]]]]
PASSES: Passes = [('fold', fold), ('copies', copies), ('dead', dead), ('direct', direct)]


def compose(c: core.Core, passes: Passes = PASSES) -> Code:
    """Returns what passes make of the normal form of a program; the two counts come first."""
    check_counts(c)
    code = normal(c)
    for name, one in passes:
        ops = one(code)
        code = replace(code, ops=ops, gone=code.gone + [(name, len(code.ops) - len(ops))])
    return code
