"""Texts and files at their limits: the calls of tests/deep.rows, with seconds and memory, and again on stacks of 1 MiB and 288 KiB, three of 256 KiB.

Prints a line of a table for each call. Fails on a call that ends by a signal, takes over two minutes, or ends otherwise than its row says
or than on the larger stack. A walk that takes a few hundred bytes of stack more for each sign fails at 288 KiB. The environment, which lies
on the stack, too, is empty there. `--only WORD` makes the calls whose title has the word; `--fill` writes missing sums, as of rows. Sees
nothing of shapes that have no row.
"""
from __future__ import annotations

from pathlib import Path
from typing import List

from harness import TESTS, Ended, Group, compile_c, measure, table
from rowfile import Row

from .rows import fill, read_all

SMALL_STACKS = 1024, 288  # KiB
# Ordinary programs run on a smaller one.
ORDINARY, LEAST = ("a sum of 127 terms", "ifs 62 deep in one another", "an if with 256 else"), 256
# Its words take a quarter of the larger stack.
LARGE = "an event with 30,000 arguments"


def run(group: Group) -> None:
    spent = compile_c(group, "spent.c")
    rows = read_all(group, [TESTS / "deep.rows"])
    if group.options.fill:
        fill(group, [row for row in rows if row.accepts and row.sum is None])
        return
    chosen = [row for row in rows if not group.options.only or any(word in row.title for word in group.options.only)]
    lines = [line_of(group, spent, row) for row in chosen]
    table(group, ["Input", "Bytes", "Ends with", "Seconds", "MB"], lines)


def line_of(group: Group, spent: Path, row: Row) -> List[object]:
    """Makes the call of a row, and gives its line of the table."""
    folder = group.room / str(row.line)
    folder.mkdir()
    for name, text in row.files.items():
        (folder / name).write_bytes(text)
    call = [group.options.program, *row.words]
    it = measure(spent, call, folder)
    group.check(f"tests/deep.rows:{row.line}: {row.title}", row.holds(it.ended), it.ended)
    for stack in (*SMALL_STACKS, *[LEAST] * (row.title in ORDINARY)):
        if row.title != LARGE:
            small = measure(spent, ["/bin/sh", "-c", f'ulimit -s {stack}; exec env -i "$0" "$@"', *call], folder).ended
            group.check(f"tests/deep.rows:{row.line}: {row.title}: the same on a stack of {stack} KiB", small == it.ended, small)
    words = " ".join(row.words)[:40]
    return [f"{row.title}: `{words}`", row.bytes_read(), ending(it.ended), f"{it.seconds:.2f}", it.megabytes]


def ending(ended: Ended) -> str:
    """How a call ended, in a cell of a table."""
    if ended.status < 0:
        return f"signal {-ended.status}"
    return "0" if ended.status == 0 else f"{ended.status} `{ended.err.decode(errors='replace').strip()[:80]}`"
