"""What operators, hashes and memops compute (docs/LANGUAGE.md, Expressions and Memops)."""
from dataclasses import dataclass
from typing import Any, Callable, Dict, List, Optional, Tuple, Union

BINARY: Dict[str, Callable[[int, int, int], Any]] = {
    '+': lambda a, b, w: (a + b) % 2 ** w, '-': lambda a, b, w: (a - b) % 2 ** w,
    '&': lambda a, b, w: a & b, '|': lambda a, b, w: a | b, '^': lambda a, b, w: a ^ b,
    '|+|': lambda a, b, w: min(a + b, 2 ** w - 1), '|-|': lambda a, b, w: max(a - b, 0)}
COMPARE: Dict[str, Callable[[int, int], bool]] = {
    '==': lambda a, b: a == b, '!=': lambda a, b: a != b, '<': lambda a, b: a < b, '>': lambda a, b: a > b,
    '<=': lambda a, b: a <= b, '>=': lambda a, b: a >= b}


def low(value: int, width: int) -> int:
    """Returns the low bits of a value."""
    return int(value % 2 ** width)


def binary(op: str, a: int, b: int, width: int) -> int:
    """Computes an operator between two values; a comparison gives 1 or 0."""
    return int(COMPARE[op](a, b) if op in COMPARE else BINARY[op](a, b, width))


def unary(op: str, amount: int, value: int, width: int) -> int:
    """Computes `-`, `~` or a shift; a shift by the width or more gives 0."""
    if op == '-':
        return int(-value % 2 ** width)
    if op == '~':
        return int(value ^ (2 ** width - 1))
    if amount >= width:
        return 0
    return low(value << amount, width) if op == '<<' else value >> amount


def fnv(data: bytes) -> int:
    """Returns FNV-1a of 64 bits over bytes."""
    value = 14695981039346656037
    for byte in data:
        value = (value ^ byte) * 1099511628211 % 2 ** 64
    return value


def hash_of(width: int, words: List[int]) -> int:
    """Returns the low bits of FNV-1a over the eight little-endian bytes of each word."""
    return low(fnv(b''.join(word.to_bytes(8, 'little') for word in words)), width)


MemArg = Union[str, int]
Test = Tuple[str, MemArg, MemArg]


@dataclass
class MemAlu:
    """A memop as values: an argument is 'stored', 'arg' or a number; a side is one, or an operator between two."""
    width: int
    test: Optional[Test]
    yes: Tuple[Any, ...]
    no: Tuple[Any, ...]

    def apply(self, stored: int, arg: int) -> int:
        """Computes the memop; without a test `yes` is taken."""
        def value(x: Any) -> int:
            return stored if x == 'stored' else arg if x == 'arg' else low(x, self.width)

        side = self.yes
        if self.test is not None and not COMPARE[self.test[0]](value(self.test[1]), value(self.test[2])):
            side = self.no
        return value(side[0]) if len(side) == 1 else binary(side[0], value(side[1]), value(side[2]), self.width)


def returning(width: int, what: str) -> MemAlu:
    """Returns the memop that gives the stored value, or its argument."""
    return MemAlu(width, None, (what,), (what,))
