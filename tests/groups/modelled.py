"""The second implementation of copperfinch/model answers each call of tests/rows as the row says, byte by byte.

Fails on another byte, status or line of the second implementation in any row; but of an `order:` refusal it takes each cycle that the
order allows. Leaves out full outputs and memory that ends, which it cannot have. Sees nothing of programs that no row has.
"""
from __future__ import annotations

from typing import List, Tuple

import pytest
from harness import Ended, Group
from copperfinch.model import agrees, judge
from copperfinch.bounded import deeply
from rowfile import Row, all_rows

PIECES = 8
OTHER_STREAMS = {10, 11}


def differs(rows: List[Row]) -> List[Tuple[str, str]]:
    """The rows that the second implementation answers otherwise, each with its answer."""

    def work() -> List[Tuple[str, str]]:
        found = []
        for row in rows:
            made = judge(row.words, row.read)
            ended = Ended(made.status, made.out, made.err)
            if not row.holds(ended) and (row.accepts or not agrees(made, row.status, row.out, row.err)):
                found.append((f"{row.name}: {row.title}", str(ended)))
        return found

    return deeply(work)


@pytest.mark.parametrize("piece", range(PIECES))
def test_modelled(group: Group, piece: int) -> None:
    rows = [row for row in all_rows() if row.status not in OTHER_STREAMS]
    group.check("there are 2,000 rows", len(rows) >= 2000, len(rows))
    failed = differs(rows[piece::PIECES])
    for name, ended in failed:
        group.check(name, False, ended)
    group.passed += len(rows[piece::PIECES]) - len(failed)
