"""The picture of a layout: the stages side by side, as many in a row as fit, and the tables of each with what is in them."""
from typing import Dict, List

from ..errors import FormatError
from ..files import Limits
from ..layout import Layout, Table
from .svg import LETTER, SMALL, Picture, number, width_of

WIDEST = 1200


def check(layout: Layout, limits: Limits) -> None:
    """Refuses a layout that passes a limit."""
    arrays: Dict[int, int] = {}
    for it in layout.tables:
        arrays[it.stage] = arrays.get(it.stage, 0) + len(it.arrays)
        if it.stage >= limits.stages or it.table >= limits.tables or it.rows > limits.rows or arrays[it.stage] > limits.arrays:
            raise FormatError(f"stage {it.stage} table {it.table} does not fit the limits")
    if layout.bits > limits.bits:
        raise FormatError(f"bits {layout.bits} do not fit the limits")


def plural(count: int, word: str) -> str:
    return f"{count} {word}{'' if count == 1 else 's'}"


def size_of(table: Table) -> str:
    return f"{plural(table.rows, 'row')}, {plural(table.ops, 'op')}"


def stage_width(tables: List[Table]) -> float:
    texts = [width_of(size_of(it)) + 24 for it in tables] + [width_of(name) + 6 * LETTER + 52 for it in tables for name in it.arrays]
    return max([110.0] + texts)


def draw_tables(picture: Picture, tables: List[Table], x: float, y: float, width: float) -> float:
    """The tables of a stage from y on; returns where they end."""
    for it in tables:
        height = 46 + 24 * len(it.arrays)
        picture.box(2, x + 8, y, width - 16, height, 'rx="4" fill="#fff" stroke="#4477aa"')
        picture.write(3, x + 16, y + 18, f"table {it.table}", "bold")
        picture.write(3, x + 16, y + 36, size_of(it), "small")
        for at, name in enumerate(it.arrays, 1):
            picture.box(3, x + 16, y + 22 + 24 * at, width - 32, 18, 'rx="9" fill="#ffe2c6" stroke="#ee7733"')
            picture.write(4, x + 26, y + 35 + 24 * at, "array", "small grey")
            picture.write(4, x + 26 + 5 * SMALL + 7, y + 35 + 24 * at, name)
        y += height + 10
    return y


def arrow(picture: Picture, x: float, x2: float, y: float) -> None:
    picture.line(1, x, y, x2 - 8, y, 'stroke="#555" stroke-width="2"')
    picture.path(1, f"M{number(x2 - 8)} {number(y - 5)} l8 5 l-8 5 z", 'fill="#555"')


def rows_of(widths: List[float], left: float) -> List[List[int]]:
    """The stages of each row: as many as fit in WIDEST, but at least one."""
    rows: List[List[int]] = [[]]
    x = left
    for stage, width in enumerate(widths):
        if rows[-1] and x + width > WIDEST:
            rows.append([])
            x = left
        rows[-1].append(stage)
        x += width + 34
    return rows


def draw_layout(layout: Layout, limits: Limits) -> str:
    """The SVG of a layout."""
    check(layout, limits)
    picture = Picture()
    last = max((it.stage for it in layout.tables), default=-1)
    tables = [[it for it in layout.tables if it.stage == stage] for stage in range(last + 1)]
    widths = [stage_width(it) for it in tables]
    rows = rows_of(widths, 44)
    left = 20.0 if len(rows) == 1 else 44.0
    picture.write_all(3, 20, 22, f"{layout.ops} operations in {layout.nodes} nodes, a packet carries {layout.bits} bits")
    removed = ", ".join(f"{name} {count}" for name, count in layout.passes if count)
    if removed:
        picture.write_all(3, 20, 40, f"removed by passes: {removed}", "small grey")
    y = 52.0
    for row in rows:
        x, low = left, y + 60
        spots = {}
        for stage in row:
            spots[stage] = x
            low = max(low, draw_tables(picture, tables[stage], x, y + 36, widths[stage]))
            picture.write(3, x + widths[stage] / 2, y + 20, f"stage {stage}", "big", middle=True)
            if stage:
                arrow(picture, x - 30, x - 4, y + 56)
            x += widths[stage] + 34
        if row and row[-1] < last:
            arrow(picture, x - 30, x - 4, y + 56)
        for stage in row:
            picture.box(1, spots[stage], y, widths[stage], low - y + 4, 'rx="6" fill="#eef3f8" stroke="#b8c8d8"')
        picture.right = max(picture.right, x)
        picture.foot = max(picture.foot, low + 8)
        y = low + 24
    return picture.text()
