"""Draws the expressions of programs. Arrays are called in the order of their declarations, but for a slip. Conditions compare parameters
with few numbers, so that branches within one another are often impossible."""
from __future__ import annotations

import re
from dataclasses import dataclass, field
from random import Random
from typing import Dict, List, Optional, Tuple

WIDTHS = [1, 5, 8, 8, 16, 32, 32, 32, 32, 64]
# Numbers near the bits at which a narrower or a signed machine would err.
EDGES = [2 ** 15, 2 ** 16, 2 ** 31 - 1, 2 ** 31, 2 ** 32 - 1, 2 ** 32, 2 ** 32 + 1, 2 ** 63 - 1, 2 ** 63, 2 ** 63 + 1, 2 ** 64 - 2]
ARITHMETIC = ['+', '-', '&', '|', '^', '|+|', '|-|']
COMPARISONS = ['==', '==', '==', '!=', '<', '>', '<=', '>=']


@dataclass
class Array:
    """A declared array, or an array parameter: its place is its number among the arrays of a body."""

    name: str
    width: int
    place: int


@dataclass
class Fun:
    """A function that can be called: its value parameters, the widths of its array parameters, its answer, the declared arrays
    that it calls, and its most outs. A width of 0 stands for a bool, and an answer of -1 for none."""

    name: str
    params: List[int]
    arrays: List[int]
    answer: int
    touched: List[int]
    outs: int


@dataclass
class Body:
    """A body while it is drawn: visible locals by width, arrays, the place behind the last call, the outs so far, and its answer."""

    locals: Dict[int, List[str]]
    arrays: List[Array]
    answer: int = -1
    place: int = 0
    outs: int = 0
    touched: List[int] = field(default_factory=list)
    depth: int = 0

    def names(self, width: int) -> List[str]:
        """The names of the visible locals of a width."""
        return self.locals.get(width, [])


def type_text(width: int) -> str:
    """A type as it is written."""
    return 'bool' if width == 0 else 'int' if width == 32 else f'int<<{width}>>'


def has_name(text: str) -> bool:
    """Whether an expression has a leaf that is no number."""
    return re.search('[A-Za-z]', re.sub('0x[0-9a-f]+', '0', text)) is not None


def draw_number(r: Random, width: int) -> int:
    """A number of a width: often small or great, or near a bit at which a narrower machine would err."""
    edges = [edge for edge in EDGES if edge < 2 ** width]
    if edges and r.random() < (0.4 if width == 64 else 0.1):
        return r.choice(edges)
    return r.choice([0, 1, 1, 2, 3, 7, 2 ** width - 1, 2 ** (width - 1), r.randrange(2 ** width)]) % 2 ** width


class Expressions:
    """A program while it is drawn: its declarations so far, and the expressions of its bodies."""

    def __init__(self, random: Random) -> None:
        self.r = random
        self.lines: List[str] = []
        self.consts: List[Tuple[str, int]] = []
        self.arrays: List[Array] = []
        self.memops: List[Tuple[str, int]] = []
        self.events: List[Tuple[str, List[int]]] = []
        self.funs: List[Fun] = []
        self.templates: List[str] = []
        self.groups: List[Tuple[str, int]] = []
        self.count = 0
        self.has_impossible = False

    def chance(self, p: float) -> bool:
        """Whether something of this likelihood comes about."""
        return self.r.random() < p

    def fresh(self, stem: str) -> str:
        """A name of its own; seldom one that hides another."""
        self.count += 1
        return f'{stem}{self.r.randrange(3)}' if self.chance(0.02) else f'{stem}{self.count}'

    def number(self, width: int) -> str:
        """A number that fits, but for a slip."""
        if self.chance(0.0007):
            return str(2 ** width)
        value = draw_number(self.r, width)
        return hex(value) if self.chance(0.1) else str(value)

    def leaf(self, b: Body, width: int) -> str:
        """A number, a constant, a local, or one of the two inputs of 32 bits."""
        found = b.names(width) * 3 + [name for name, w in self.consts if w == width]
        if width == 32 and self.chance(0.15):
            return self.r.choice(['SELF', 'Sys.time()'])
        if self.chance(0.0015):
            return 'missing' if self.chance(0.5) else self.number(64)
        return self.r.choice(found) if found and self.chance(0.7) else self.number(width)

    def expr(self, b: Body, width: int, depth: int = 2) -> str:
        """An expression of a width, or a bool for 0."""
        if width == 0:
            return self.truth(b, depth)
        kind = self.r.randrange(14) if depth > 0 else 0
        if kind < 4:
            return self.leaf(b, width)
        if kind < 7:
            return f'{self.operand(b, width, depth)} {self.r.choice(ARITHMETIC)} {self.operand(b, width, depth)}'
        if kind == 7:
            return f'{self.r.choice("-~")}{self.told(b, width) if self.chance(0.3) else self.operand(b, width, depth)}'
        if kind == 8:
            return f'{self.operand(b, width, depth)} {self.r.choice(["<<", ">>"])} {self.r.choice([0, 1, 2, width, 70, 2 ** 32, 2 ** 32 + 1])}'
        if kind == 9:
            return f'({type_text(width)}) ({self.free(b, self.r.choice(WIDTHS), depth - 1)})'
        if kind == 10:
            args = ', '.join(self.free(b, self.r.choice(WIDTHS), depth - 1) for _ in range(self.r.randrange(1, 4)))
            args += f', {self.told(b, 32)}' if self.chance(0.3) else ''
            return f'hash<<{width}>>({args})'
        if kind == 11 and self.templates:
            return f'{self.r.choice(self.templates)}<<{width}>>({self.expr(b, width, depth - 1)})'
        if kind == 12:
            return self.call(b, width, depth) or self.leaf(b, width)
        return self.access(b, width, depth) or self.leaf(b, width)

    def told(self, b: Body, width: int, depth: int = 1) -> str:
        """A leaf, or a call of a function that prints or sends and calls no array."""
        found = [f for f in self.funs if f.answer == width and f.outs and not f.touched and not f.arrays]
        if depth <= 0 or not found or self.chance(0.6):
            return self.leaf(b, width)
        f = self.r.choice(found)
        if b.outs + f.outs > 8 and not self.chance(0.1):
            return self.leaf(b, width)
        b.outs += f.outs
        return f'{f.name}({", ".join(self.told(b, w, depth - 1) if w else "true" for w in f.params)})'

    def free(self, b: Body, width: int, depth: int) -> str:
        """An expression at a free place, where numbers alone have 32 bits."""
        text = self.expr(b, width, depth)
        return text if has_name(text) else str(self.r.randrange(9))

    def operand(self, b: Body, width: int, depth: int) -> str:
        """An operand: a leaf, or an expression in parentheses."""
        return self.leaf(b, width) if self.chance(0.6) else f'({self.expr(b, width, depth - 1)})'

    def truth(self, b: Body, depth: int) -> str:
        """A condition; often a parameter is compared with one of few numbers."""
        kind = self.r.randrange(10)
        some = [(name, w) for w, names in b.locals.items() if w > 1 for name in names]
        if kind < 5 and some:
            name, width = self.r.choice(some)
            number = self.number(width) if self.chance(0.5 if width == 64 else 0.05) else self.r.randrange(3)
            return f'{name} {self.r.choice(COMPARISONS)} {number}'
        if kind < 7 or depth <= 0:
            width = self.r.choice(WIDTHS)
            left, right = self.operand(b, width, depth), self.operand(b, width, depth)
            left = left if has_name(left + right) else f'({type_text(width)}) {self.r.randrange(9)}'
            return f'{left} {self.r.choice(COMPARISONS)} {right}'
        if kind == 7:
            return f'({self.truth(b, depth - 1)}) {self.r.choice(["&&", "||"])} ({self.truth(b, depth - 1)})'
        if kind == 8:
            return f'!({self.truth(b, depth - 1)})'
        return self.r.choice(b.names(0) + ['true', 'false', '1' if self.chance(0.02) else 'true'])

    def next_array(self, b: Body, width: Optional[int]) -> Optional[Array]:
        """An array that may be called next, but for a slip; the body then stands behind it."""
        found = [a for a in b.arrays if width in (None, a.width) and (a.place >= b.place or self.chance(0.01))]
        if not found:
            return None
        array = self.r.choice(found[:2])
        b.place = array.place + 1
        b.touched.append(array.place)
        return array

    def access(self, b: Body, width: Optional[int], depth: int, answers: bool = True) -> Optional[str]:
        """A call of an array that answers, or of any kind."""
        index = self.free(b, self.r.choice([8, 32]), depth - 1)
        place = b.place
        array = self.next_array(b, width)
        if array is None:
            return None
        memops = [name for name, w in self.memops if w == array.width or self.chance(0.005)]
        kinds = ['get'] + ([] if answers else ['set', 'set'])
        kinds += (['getm', 'update', 'update'] + ([] if answers else ['setm'])) if memops else []
        kind = self.r.choice(kinds)
        b.place, behind = place, b.place
        args = [array.name, index]
        for _ in range({'get': 0, 'update': 2}.get(kind, 1)):
            args += [] if kind == 'set' else [self.r.choice(memops)]
            args.append(self.told(b, array.width))
        b.place = behind
        return f'Array.{kind}({", ".join(args)})'

    def call(self, b: Body, width: int, depth: int) -> Optional[str]:
        """A call of a function with this answer."""
        found = [f for f in self.funs if f.answer == width and b.outs + f.outs <= 8]
        if not found:
            return None
        f = self.r.choice(found)
        before = b.outs
        args = [self.told(b, w) if w else self.r.choice(['true', 'false']) for w in f.params]
        if b.outs + f.outs > 8:
            b.outs = before
            return None
        if f.touched and not (b.arrays[:1] and b.arrays[0].name.startswith('g') and min(f.touched) >= b.place or self.chance(0.01)):
            return None
        for w in f.arrays:
            array = self.next_array(b, w)
            if array is None:
                return None
            args.append(array.name)
        if f.touched:
            b.place = max(b.place, max(f.touched) + 1)
            b.touched += f.touched
        b.outs += f.outs
        return f'{f.name}({", ".join(args)})'
