"""Code: operations with guards over fields of a packet (crates/lucid_code/specs), and its nodes (docs/ERRORS.md, The order of nodes)."""
from dataclasses import dataclass, field
from typing import Any, FrozenSet, List, NamedTuple, Optional, Tuple

from .core import Core
from .values import binary, hash_of, low, unary


class Operand(NamedTuple):
    """A number, or the number of a field."""
    is_field: bool
    value: int


class Literal(NamedTuple):
    """A field equals a value, or does not."""
    field: int
    equal: bool
    value: int


@dataclass
class Op:
    """An operation: `kind` is un, bin, cast, hash, move, touch, gen or say, and `to` is the field that it writes, or None.

    `number` is that of an array, an event or a text. The operands of an event are its arguments, its delay, and then its target
    if it is `targeted`. `at` is the place in the text that it comes from, and `via` the calls through which.
    """
    guard: Tuple[Literal, ...]
    level: int
    kind: str
    operands: Tuple[Operand, ...]
    to: Any
    at: int
    via: Tuple[int, ...] = ()
    sign: str = ''
    amount: int = 0
    width: int = 0
    number: int = 0
    slot: int = 0
    get: Any = None  # the memops of a touch
    set: Any = None
    targeted: bool = False

    def reads(self) -> List[int]:
        """Returns the fields that it reads, in its guard and in its operands."""
        return [x.field for x in self.guard] + [x.value for x in self.operands if x.is_field]

    def key(self) -> int:
        """The order of nodes: a call of an array follows the operations before the call."""
        return 2 * self.number + 1 if self.kind == 'touch' else 2 * self.level

    def result(self, values: List[int], to_width: int) -> int:
        """Computes what it writes from the values of its operands; each operator takes the low bits of its own width."""
        if self.kind in ('move', 'cast'):
            return low(values[0], to_width)
        if self.kind == 'hash':
            return hash_of(to_width, values)
        taken = [low(value, self.width) for value in values]
        if self.kind == 'un':
            return unary(self.sign, self.amount, taken[0], self.width)
        return binary(self.sign, taken[0], taken[1], self.width)


@dataclass
class Code:
    """The widths of the fields, how many of them are inputs (event, tick, switch and arguments), and the operations.

    `gone` has the name of each pass so far, and how many operations it has removed.
    """
    core: Core
    widths: List[int]
    inputs: int
    ops: List[Op] = field(default_factory=list)
    gone: List[Tuple[str, int]] = field(default_factory=list)

    def bits(self) -> int:
        """The limits of a target, `bits`: a packet carries the inputs, and each field that an operation reads or writes."""
        used = set(range(self.inputs))
        for op in self.ops:
            used.update(op.reads())
            used.update([] if op.to is None else [op.to])
        return sum(self.widths[k] for k in used)

    def calls(self, array: int) -> List[int]:
        """Returns the operations that call an array."""
        return [i for i, op in enumerate(self.ops) if op.kind == 'touch' and op.number == array]


@dataclass
class Node:
    """A node: its operations, the fields that they read and write, and its array where it has one."""
    ops: List[int]
    array: Optional[int]
    reads: FrozenSet[int]
    writes: FrozenSet[int]


def nodes_of(code: Code) -> List[Node]:
    """The order of nodes: by their keys, those of one key in the order of the text."""
    found: List[Node] = []
    for i in sorted(range(len(code.ops)), key=lambda i: (code.ops[i].key(), i)):
        op = code.ops[i]
        array = op.number if op.kind == 'touch' else None
        ops = [i] if array is None else code.calls(array)
        if ops[0] == i:  # the first call of an array is there for all of them
            reads = frozenset(k for j in ops for k in code.ops[j].reads())
            found.append(Node(ops, array, reads, frozenset(code.ops[j].to for j in ops if code.ops[j].to is not None)))
    return found
