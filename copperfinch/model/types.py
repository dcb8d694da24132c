"""The typing rules of expressions (docs/LANGUAGE.md, Expressions): each place asks for a type, or is free."""
from dataclasses import dataclass, field
from typing import Any, ChainMap, List, Optional, Tuple, Union

from . import core, tree
from .refusals import Fault
from .values import COMPARE, MemAlu, returning

BOOL = 'bool'
Type = Union[int, str]  # the width of an int, or BOOL
ARITHMETIC = {'+', '-', '&', '|', '^', '|+|', '|-|'}
LOGIC = {'&&': '&', '||': '|'}


@dataclass
class Entry:
    """The meaning of a visible name, by its kind: constant, array, memop, event, fun, group or local; None is what its kind has not."""
    kind: str
    type: Any = None
    number: int = 0
    array: Any = None  # an ArrayName
    alu: Any = None  # a MemAlu
    params: List[Tuple[bool, Type]] = field(default_factory=list)  # of an array or not, and its type
    members: List[int] = field(default_factory=list)


def bits(t: Type) -> int:
    """Returns the bits of a value of a type."""
    return t if isinstance(t, int) else 1


def check_width(width: int, at: int) -> int:
    """Types and places: a width is 1 to 64."""
    if not 1 <= width <= 64:
        raise Fault('width', at, width)
    return width


def value_type(ty: tree.Ty) -> Type:
    """Types and places: `int` is `int<<32>>`."""
    return check_width(32 if ty.width is None else ty.width, ty.at) if ty.is_int else BOOL


def number(width: int, e: tree.Number) -> core.Fixed:
    """Types and places: a number must fit its place."""
    if e.value >= 2 ** width:
        raise Fault('number', e.at, e.value, width)
    return core.Fixed(width, e.value, e.at)


class Expressions:
    """The rules of expressions, with the names in scope."""

    def __init__(self, names: ChainMap[str, Entry]) -> None:
        self.names = names

    def entry(self, name: str, at: int, *kinds: str) -> Entry:
        """Names: returns what a visible name means, which must be of one of these kinds."""
        found = self.names.get(name)
        if found is None or found.kind not in kinds:
            raise Fault('name', at, name, ' or '.join(kinds), found and found.kind)
        return found

    def leaf_width(self, e: tree.Expr) -> Any:
        """Free places: returns the width of the first leaf that is no number; None if all are numbers."""
        if isinstance(e, tree.Number):
            return None
        if isinstance(e, tree.Paren):
            return self.leaf_width(e.inner)
        if isinstance(e, tree.Shift) or isinstance(e, tree.Prefix) and e.sign != '!':
            return self.leaf_width(e.arg)
        if isinstance(e, tree.Infix) and e.sign in ARITHMETIC:
            left = self.leaf_width(e.left)
            return self.leaf_width(e.right) if left is None else left
        found = self.own_type(e)
        if found is None or found == BOOL:
            raise Fault('free type', e.at, found)
        return found

    def own_type(self, e: tree.Expr) -> Any:
        """Casts, hashes, the switch and the time: returns the type of what has one of its own; None if it gives no value."""
        if isinstance(e, tree.Name):
            return self.entry(e.name, e.at, 'local', 'constant').type
        if isinstance(e, (tree.Cast, tree.Hash)):
            return check_width(32 if e.width is None else e.width, e.at)
        if isinstance(e, tree.Input):
            return 32
        if isinstance(e, tree.Call):
            return self.entry(e.name, e.at, 'fun').type
        if isinstance(e, tree.Access):
            width = self.entry(e.array, e.at, 'array').type
            return width if e.kind in ('get', 'getm', 'update') else None
        return BOOL

    def free_width(self, *es: tree.Expr) -> int:
        """Free places: returns the width that these expressions share, which is 32 if all leaves are numbers."""
        return next((width for width in map(self.leaf_width, es) if width is not None), 32)

    def free(self, e: tree.Expr) -> core.Expr:
        """Free places: types an expression at a place of its own."""
        return self.value(self.free_width(e), e)

    def value(self, asked: Any, e: tree.Expr) -> core.Expr:
        """Types and places: types an expression at a place that expects a type."""
        if isinstance(e, tree.Paren):
            return self.value(asked, e.inner)
        if isinstance(e, tree.Number):
            if asked == BOOL:
                raise Fault('type', e.at, BOOL, 32)
            return number(asked, e)
        if isinstance(e, (tree.Shift, tree.Prefix, tree.Infix)):
            return self.operation(asked, e)
        found = self.own_type(e)
        if asked != found:
            raise Fault('type', e.at, asked, found)
        if isinstance(e, tree.Truth):
            return core.Fixed(1, int(e.value), e.at)
        if isinstance(e, tree.Name):
            entry = self.names[e.name]
            return core.Local(entry.number, bits(asked), e.at) if entry.kind == 'local' else core.Fixed(asked, entry.number, e.at)
        if isinstance(e, tree.Cast):
            return core.Cast(asked, self.free(e.arg), e.at)
        if isinstance(e, tree.Hash):
            return core.Hash(asked, [self.free(x) for x in e.args], e.at)
        if isinstance(e, tree.Call):
            return self.call(e)
        if isinstance(e, tree.Access):
            return self.access(e)
        return core.Input(e.name, e.at)

    def operation(self, asked: Type, e: Union[tree.Shift, tree.Prefix, tree.Infix]) -> core.Expr:
        """Types and places: arithmetic takes and gives the expected width, a comparison two ints of one free place."""
        sign = e.sign
        at = e.sign_at if isinstance(e, tree.Infix) else e.at
        if sign == '!' or sign in LOGIC or sign in COMPARE:
            if asked != BOOL:
                raise Fault('type', at, asked, BOOL)
            if sign == '!':
                return core.Un('~', 0, self.value(BOOL, e.arg), 1, at)
            width: Type = BOOL if sign in LOGIC else self.free_width(e.left, e.right)
            return core.Bin(LOGIC.get(sign, sign), self.value(width, e.left), self.value(width, e.right), bits(width), at)
        if asked == BOOL:
            raise Fault('type', e.at, BOOL, self.free_width(e))
        if isinstance(e, tree.Infix):
            return core.Bin(sign, self.value(asked, e.left), self.value(asked, e.right), asked, at)
        return core.Un(sign, e.amount if isinstance(e, tree.Shift) else 0, self.value(asked, e.arg), asked, at)

    def call(self, e: tree.Call) -> core.Fun:
        """Calls: types a call of a function."""
        entry = self.entry(e.name, e.at, 'fun')
        return core.Fun(entry.number, *self.given(e, entry), e.at)

    def given(self, call: Union[tree.Call, tree.SentCall], entry: Entry) -> Tuple[List[core.ArrayName], List[core.Expr]]:
        """Calls: passes a value for each value parameter, and for each array parameter the bare name of an array."""
        if len(call.args) != len(entry.params):
            raise Fault('arguments', call.at, call.name, len(entry.params), len(call.args))
        arrays: List[core.ArrayName] = []
        values: List[core.Expr] = []
        for (is_array, wanted), e in zip(entry.params, call.args):
            if not is_array:
                values.append(self.value(wanted, e))
                continue
            if not isinstance(e, tree.Name):
                raise Fault('bare name', e.at)
            array = self.entry(e.name, e.at, 'array')
            if array.type != wanted:
                raise Fault('cells', e.at, e.name, array.type, wanted)
            arrays.append(array.array)
        return arrays, values

    def access(self, e: tree.Access) -> core.Touch:
        """Calls of arrays: what a call answers and stores, by the table; each is a memop of the cells' width."""
        array = self.entry(e.array, e.at, 'array')
        width = array.type
        index = self.free(e.index)
        zero = core.Fixed(width, 0, e.at)
        alus: List[MemAlu] = []
        for memop in e.memops:
            alus.append(self.entry(memop.text, memop.at, 'memop').alu)
            if alus[-1].width != width:
                raise Fault('memop width', memop.at, memop.text, alus[-1].width, e.array, width)
        args = [self.value(width, x) for x in e.args]
        old, new = returning(width, 'stored'), returning(width, 'arg')
        get = (alus[0], args[0]) if e.kind in ('getm', 'update') else (old, zero)
        put = (old, zero) if e.kind in ('get', 'getm') else (new, args[0]) if e.kind == 'set' else (alus[-1], args[-1])
        return core.Touch(array.array, index, *get, *put, e.kind in ('get', 'getm', 'update'), e.at)
