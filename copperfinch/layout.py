"""Layouts, which `lucid layout` and `lucid audit` print (docs/OUTPUT.md)."""
import re
from dataclasses import dataclass, field
from typing import List, Tuple

from .lines import NAME, NUMBER, Json, Lines

PASS = re.compile(rf"pass {NAME} removed {NUMBER}")
SUM = re.compile(rf"ops {NUMBER} bits {NUMBER} nodes {NUMBER}")
TABLE = re.compile(rf"stage {NUMBER} table {NUMBER} rows {NUMBER} ops {NUMBER}(?: arrays((?: [A-Za-z_][A-Za-z0-9_]*)+))?")


@dataclass
class Table:
    """A table of a stage."""

    stage: int
    table: int
    rows: int
    ops: int
    arrays: Tuple[str, ...]

    def json(self) -> Json:
        """Returns the object of its line."""
        return {"kind": "table", **self.__dict__, "arrays": list(self.arrays)}


@dataclass
class Layout:
    """How many operations each pass removed; operations, bits of a packet, and nodes; and the tables by stage and table."""

    passes: List[Tuple[str, int]] = field(default_factory=list)
    ops: int = 0
    bits: int = 0
    nodes: int = 0
    tables: List[Table] = field(default_factory=list)

    def json(self) -> List[Json]:
        """Returns the objects of the layout, one for each line."""
        passes: List[Json] = [{"kind": "pass", "name": name, "removed": count} for name, count in self.passes]
        return [*passes, {"kind": "sum", "ops": self.ops, "bits": self.bits, "nodes": self.nodes}, *(table.json() for table in self.tables)]


def read_layout(text: bytes) -> Layout:
    """Reads a layout: the passes, the sums, and the tables in rising order. Raises FormatError."""
    lines = Lines(text, "layout")
    made = Layout()
    while True:
        found = lines.take(PASS)
        if not found:
            break
        made.passes.append((found[1], int(found[2])))
    sums = lines.need(SUM)
    made.ops, made.bits, made.nodes = int(sums[1]), int(sums[2]), int(sums[3])
    while True:
        found = lines.take(TABLE)
        if not found:
            break
        table = Table(int(found[1]), int(found[2]), int(found[3]), int(found[4]), tuple((found[5] or "").split()))
        if made.tables and (table.stage, table.table) <= (made.tables[-1].stage, made.tables[-1].table):
            lines.refuse_last()
        made.tables.append(table)
    lines.end()
    return made
