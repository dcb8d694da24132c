"""Makes each call of tests/rows and compares its output, its error line and its exit status, byte by byte.

Fails on any other byte, line or status of these calls. Sees nothing of programs that no row has.
`--fill` writes the length and the hash below each accepted text (`+`) that has none, if the model answers the same.
"""
from __future__ import annotations

import shutil
from pathlib import Path
from typing import Dict, Iterable, List

from harness import Ended, Group, call
from copperfinch.model import judge
from copperfinch.bounded import deeply
from rowfile import ROWS, Row, read_rows, sum_of, write_sums


def make(group: Group, row: Row, links: Dict[str, Path] = {}) -> Ended:
    """Makes the call of a row, in a folder that holds its files; with links its first word is the command, below one of them."""
    folder = group.room / row.name.replace(":", ".")
    folder.mkdir()
    for name, text in row.files.items():
        (folder / name).write_bytes(text)
    for name, target in links.items():
        (folder / name).symlink_to(target)
    ended = call(row.words, cwd=folder, timeout=60) if links else group.call(*row.words, cwd=folder)
    shutil.rmtree(folder)
    return ended


def check_row(group: Group, row: Row) -> None:
    ended = make(group, row)
    group.check(f"{row.name}: {row.title}", row.holds(ended), ended)


def test_sums(group: Group) -> None:
    """Each accepted text has its length and its hash; `--fill` writes those that are missing."""
    missing = [row for row in read_all(group, sorted(ROWS.glob("*.rows"))) if row.accepts and row.sum is None]
    if group.options.fill:
        fill(group, missing)
    else:
        group.check("each accepted text has its sum: tests/run rows --fill", not missing, [row.name for row in missing])


def read_all(group: Group, paths: Iterable[Path]) -> List[Row]:
    """The rows of these files, which have calls and no other lines."""
    rows: List[Row] = []
    for path in paths:
        found, unread = read_rows(path)
        group.check(f"{path.name} has calls and no other lines", bool(found) and not unread, unread)
        rows += found
    return rows


def fill(group: Group, rows: Iterable[Row]) -> None:
    """Writes the missing sums of accepted texts into the files of rows."""
    sums: Dict[Path, Dict[int, str]] = {}
    for row in rows:
        ended = make(group, row)
        well = ended.status == 0 and not ended.err and bool(ended.out)
        made = deeply(lambda: judge(row.words, row.read))
        agrees = Ended(made.status, made.out, made.err) == ended
        if group.check(f"{row.name}: {row.title}: accepted, and the model agrees", well and agrees, ended):
            sums.setdefault(row.path, {})[row.line] = "= %d %016x" % sum_of(ended.out)
    for path, lines in sums.items():
        write_sums(path, lines)
        for line, text in lines.items():
            group.note(f"{path.name}:{line} {text}")
