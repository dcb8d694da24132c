"""Placements that come from a file (docs/ERRORS.md, 12 placement). A pair is the stage and the table of a node."""
from typing import List, Tuple

from .json_files import File, is_number
from .layout import Layout, Table, product
from .refusals import Fault, Refused


def read_pairs(data: bytes, count: int) -> List[Tuple[int, int]]:
    """Reads a placement file for so many nodes: its form, its keys, the length of its list, and then each item."""
    file = File(data, 12, 'placement', ['nodes'])
    nodes = file.root.get('nodes')
    file.ask(isinstance(nodes, list) and len(nodes) == count, 'nodes', f'a list of {count} pairs')
    for i, item in enumerate(nodes):
        is_pair = isinstance(item, list) and len(item) == 2 and all(is_number(n) and n < 2 ** 32 for n in item)
        file.ask(is_pair, f'nodes {i}', 'a pair of numbers below 2^32')
    return [(stage, table) for stage, table in nodes]


def ask(holds: bool, line: str, rule: str, made: Layout, node: int, *values: object) -> None:
    """Refuses a placement by its line unless it holds; its place is the pair of a node."""
    if not holds:
        raise Refused(12, 'placement: ' + line, Fault(rule, ('nodes', node), made, node, made.pairs[node], *values), 'placement')


def table_at(made: Layout, k: int, t: int) -> Table:
    """Returns a table with its nodes, one after another; a table and each product on the way has at most `rows` rows."""
    table: Table = ()
    for i, n in enumerate(made.nodes):
        if made.pairs[i] == (k, t):
            more, most = made.merged(n)
            table = product(table, more)
            rows = max(most, len(table))
            ask(rows <= made.limits.rows, f'stage {k} table {t} rows', 'rows', made, i, rows)
    return table


def audit(made: Layout, data: bytes) -> None:
    """Places the nodes as a file says; refuses places that are not there, then early nodes, then tables, then the arrays of stages."""
    made.pairs, limits = read_pairs(data, len(made.nodes)), made.limits
    for i, (stage, table) in enumerate(made.pairs):
        ask(stage < limits.stages and table < limits.tables, f'node {i} range', 'range', made, i)
    for i, n in enumerate(made.nodes):
        for j, m in enumerate(made.nodes):
            if m.writes & n.reads:
                ask(made.pairs[j][0] < made.pairs[i][0], f'node {i} early', 'early', made, i, j, made.pairs[j][0])
    for k in range(limits.stages):
        last = max((table for stage, table in made.pairs if stage == k), default=-1)
        made.stages[k] = [table_at(made, k, t) for t in range(last + 1)]
    for k in range(limits.stages):
        arrays = made.arrays(k)
        ask(len(arrays) <= limits.arrays, f'stage {k} arrays', 'stage arrays', made, arrays[-1] if arrays else 0, len(arrays))
