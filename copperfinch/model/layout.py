"""Rows, products of tables, first fit, and the lines of a layout (docs/ERRORS.md, 7 nofit, and docs/SCENARIO.md on the limits)."""
from itertools import accumulate
from typing import FrozenSet, List, NamedTuple, Tuple

from .json_files import Limits
from .nodes import Code, Literal, Node, nodes_of
from .refusals import Fault, Refused

Pattern = FrozenSet[Tuple[int, int]]  # fields and the values that they must have


class Row(NamedTuple):
    """A row: its operations act if its pattern matches and no earlier row's does."""
    pattern: Pattern
    ops: Tuple[int, ...]


Table = Tuple[Row, ...]
DEFAULT = Row(frozenset(), ())


def table_of(guard: Tuple[Literal, ...], op: int) -> Table:
    """A row without operations for each unequal literal, and then the row of the equal ones with the operation."""
    refusing = [Row(frozenset([(x.field, x.value)]), ()) for x in guard if not x.equal]
    return tuple(refusing + [Row(frozenset((x.field, x.value) for x in guard if x.equal), (op,))])


def product(a: Table, b: Table) -> Table:
    """Pairs each row of a, its default last, with each of b; drops pairs that never match, then those that never decide."""
    kept: List[Row] = []
    for i, x in enumerate(a + (DEFAULT,)):
        for j, y in enumerate(b + (DEFAULT,)):
            if i == len(a) and j == len(b):
                continue
            pattern = x.pattern | y.pattern
            if len({k for k, _ in pattern}) == len(pattern) and not any(row.pattern <= pattern for row in kept):
                kept.append(Row(pattern, x.ops + y.ops))
    return tuple(kept)


class Layout:
    """Code on a target: its nodes, the stage and the table of each node that is placed so far, and the tables of each stage."""

    def __init__(self, code: Code, limits: Limits) -> None:
        self.code, self.limits, self.nodes = code, limits, nodes_of(code)
        self.pairs: List[Tuple[int, int]] = []
        self.stages: List[List[Table]] = [[] for _ in range(limits.stages)]

    def check_code(self) -> None:
        """7 nofit: refuses code whose bits, or the calls of one of whose arrays, exceed their limit."""
        code, limits = self.code, self.limits
        if code.bits() > limits.bits:
            raise Refused(7, f'nofit: bits {code.bits()}', Fault('bits', None, code, limits))
        for array, a in enumerate(code.core.arrays):
            if len(code.calls(array)) > limits.arms:
                raise Refused(7, f'nofit: arms {a.name}', Fault('arms', a.at, code, array, limits))

    def merged(self, n: Node) -> Tuple[Table, int]:
        """Merges the tables of a node's operations one after another; also returns the most rows of a product on the way."""
        tables = list(accumulate([table_of(self.code.ops[i].guard, i) for i in n.ops], product))
        return tables[-1], max((len(table) for table in tables[1:]), default=0)

    def earliest(self, n: Node) -> int:
        """Returns the first stage behind all nodes that write what this one reads."""
        return max((s + 1 for m, (s, _) in zip(self.nodes, self.pairs) if m.writes & n.reads), default=0)

    def arrays(self, k: int) -> List[int]:
        """Returns the array nodes in a stage."""
        return [i for i, (s, _) in enumerate(self.pairs) if s == k and self.nodes[i].array is not None]

    def place(self, n: Node) -> bool:
        """Gives the next node the first stage and table that have room for it; says whether there is one."""
        more, most = self.merged(n)
        if most > self.limits.rows:
            return False
        for k in range(self.earliest(n), self.limits.stages):
            tables = self.stages[k]
            if n.array is not None and len(self.arrays(k)) >= self.limits.arrays:
                continue
            for t in range(min(len(tables) + 1, self.limits.tables)):
                table = product(tables[t] if t < len(tables) else (), more)
                if len(table) <= self.limits.rows:
                    tables[t:t + 1] = [table]
                    self.pairs.append((k, t))
                    return True
        return False

    def fit(self) -> None:
        """7 nofit: places all nodes in their order, or refuses the first that has no place."""
        for number, n in enumerate(self.nodes):
            if not self.place(n):
                raise Refused(7, f'nofit: node {number}', Fault('node', self.code.ops[n.ops[0]].at, self))

    def text(self) -> str:
        """Returns the lines of the passes, of the counts, and of each table by stage and table."""
        ops, arrays = self.code.ops, self.code.core.arrays
        lines = [f'pass {name} removed {gone}' for name, gone in self.code.gone]
        lines.append(f'ops {len(ops)} bits {self.code.bits()} nodes {len(self.nodes)}')
        for k, tables in enumerate(self.stages):
            for t, table in enumerate(tables):
                acting = {i for row in table for i in row.ops}
                called = sorted({ops[i].number for i in acting if ops[i].kind == 'touch'})
                names = ' arrays ' + ' '.join(arrays[a].name for a in called) if called else ''
                lines.append(f'stage {k} table {t} rows {len(table)} ops {len(acting)}{names}')
        return ''.join(line + '\n' for line in lines)
