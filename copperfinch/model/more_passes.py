"""Further passes, which bring code to fewer stages: `casts`, `sources`, `merge` and `lift` (crates/lucid_pass_more_spec/specs)."""
from collections import defaultdict
from dataclasses import replace
from typing import DefaultDict, Dict, List, Set, Tuple

from .nodes import Code, Literal, Op, Operand
from .passes import PASSES, Passes, dead, only_writers

PURE = ('un', 'bin', 'cast', 'hash', 'move')


def casts(code: Code) -> List[Op]:
    """A cast becomes a move, which writes the same bits; so the other passes see through it."""
    return [replace(op, kind='move') if op.kind == 'cast' else op for op in code.ops]


def has_source(code: Code, op: Op) -> bool:
    """Whether each literal of the field that it writes is one of its first operand, a field."""
    if op.kind == 'move':
        source = op.operands[0]
        return source.is_field and code.widths[source.value] == code.widths[op.to]
    if op.kind != 'bin' or op.sign != '!=':
        return False
    source, number = op.operands
    return source.is_field and not number.is_field and op.width == code.widths[source.value] and number.value < 2 ** op.width


def sources(code: Code) -> List[Op]:
    """A literal of a field that is moved from another, or that compares another by `!=`, becomes a literal of that other field."""
    guards: DefaultDict[int, List[Set[Literal]]] = defaultdict(list)
    for op in code.ops:
        for x in op.guard:
            guards[x.field].append(set(op.guard))
    seen: Dict[int, Op] = {}
    for field, i in only_writers(code.ops).items():
        writer = code.ops[i]
        if has_source(code, writer) and all(set(writer.guard) <= guard for guard in guards[field]):
            seen[field] = writer

    def literal(x: Literal) -> Literal:
        if x.field not in seen:
            return x
        writer = seen[x.field]
        source = writer.operands[0].value
        if writer.kind == 'move':
            return Literal(source, x.equal, x.value)
        return Literal(source, not (x.value == 1 if x.equal else x.value == 0), writer.operands[1].value)

    return [replace(op, guard=tuple(literal(x) for x in op.guard)) for op in code.ops]


def contradicts_itself(guard: Tuple[Literal, ...]) -> bool:
    """Whether two literals of a guard never hold together."""
    values = {x.field: x.value for x in guard if x.equal}
    return any((values[x.field] == x.value) != x.equal for x in guard if x.field in values)


def used_by(op: Op) -> Set[int]:
    """Returns the fields that an operation reads, and the one that it writes."""
    return set(op.reads()) | ({op.to} if op.to is not None else set())


def lift(code: Code) -> List[Op]:
    """What only writes a field no longer waits for the literals that all operations on this field require; that of the event stays."""
    users: DefaultDict[int, List[Set[Literal]]] = defaultdict(list)
    for op in code.ops:
        required = set() if contradicts_itself(op.guard) else set(op.guard)
        for field in used_by(op):
            users[field].append(required)

    def lifted(op: Op) -> Op:
        if op.kind not in PURE or op.to is None:
            return op
        shared = set.intersection(*users[op.to])
        return replace(op, guard=tuple(x for x in op.guard if x.field == 0 or x not in shared))

    return [lifted(op) for op in code.ops]


def merge(code: Code) -> List[Op]:
    """A call writes the field that its answer is moved to; the move then writes 0 to the field of the answer, which nobody reads."""
    readers: DefaultDict[int, List[Op]] = defaultdict(list)
    for op in code.ops:
        for field in set(op.reads()):
            readers[field].append(op)
    goals: Dict[int, int] = {}
    for field, i in only_writers(code.ops).items():
        writer = code.ops[i]
        if writer.kind != 'touch' or len(readers[field]) != 1:
            continue
        move = readers[field][0]
        alike = set(writer.guard) == set(move.guard) and code.widths[field] == code.widths[move.to or 0]
        if move.kind == 'move' and move.operands[0] == Operand(True, field) and alike:
            goals[field] = move.to

    def merged(op: Op) -> Op:
        if op.kind == 'touch' and op.to in goals:
            return replace(op, to=goals[op.to])
        if op.kind == 'move' and op.operands[0].is_field and op.operands[0].value in goals:
            return replace(op, operands=(Operand(False, 0),), to=op.operands[0].value)
        return op

    return [merged(op) for op in code.ops]


# The four with the further ones between and behind them, which no program runs yet: crates/lucid_pass_rewrites and lucid_pass_more have them.
FOUR = dict(PASSES)
MORE: Passes = [
    ('fold', FOUR['fold']), ('casts', casts), ('copies', FOUR['copies']), ('sources', sources), ('dead', dead), ('direct', FOUR['direct']),
    ('dead', dead), ('merge', merge), ('dead', dead), ('lift', lift)]
