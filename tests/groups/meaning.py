"""One-line changes of the second implementation, made by a script: which of them no row and no drawn call notices.

    tests/run meaning [--runs N] [--seed S]     N changes (300) that the seed chooses
    tests/run meaning --only NUMBER             one of them

A change is an operator, a comparison, a number, `and` for `or`, or a branch that is always taken, in one place of copperfinch/model: but for
the files of ELSEWHERE, and for what a fault says beside its line, which `explained` compares. The copy answers the rows first, those of few
bytes before the others, and then CALLS drawn calls; of a cycle it must refuse other names, too. Prints the changes that survive; fails if
more than 2 % survive without a reason in SAME. A copy that takes longer than SECONDS counts as noticed. Sees no change of two places.
"""
from __future__ import annotations

import ast
import os
import pickle
import random
import shutil
import subprocess
import sys
import tempfile
from dataclasses import dataclass
from pathlib import Path
from typing import Dict, Iterator, List, Tuple

from harness import TESTS, TOP, Group

MODEL = TOP / "copperfinch/model"
RUNS, CALLS, SECONDS = 300, 500, 120
SWAPS = {"Lt": "<=", "LtE": "<", "Gt": ">=", "GtE": ">", "Eq": "!=", "NotEq": "==", "Add": "-", "Sub": "+", "Mult": "+", "And": "or", "Or": "and"}
# A command that reads the machine's files, and passes that no call of these has: the group `passes` has its changes.
ELSEWHERE = "__main__.py", "more_passes.py"
# Survivors that mean the same, by file and line of text, each with its reason.
SAME: Dict[Tuple[str, str], str] = {}
# What the copy does: reads the calls with their answers, and prints the number of the first that it answers otherwise.
ANSWER = """import pickle, sys
sys.path[:0] = [sys.argv[1], sys.argv[2]]
from copperfinch.bounded import deeply
from copperfinch.model import agrees, judge
def work():
    for number, (words, files, status, out, err, others) in enumerate(pickle.load(sys.stdin.buffer)):
        def read(name):
            if name.decode("utf-8", "surrogateescape") not in files: raise OSError(name)
            return files[name.decode("utf-8", "surrogateescape")]
        try:
            made = judge(words, read)
            same = agrees(made, status, out, err) and not any(agrees(made, status, out, other) for other in others)
        except Exception: same = False
        if not same: return number
print(deeply(work))
"""


@dataclass(frozen=True)
class Change:
    """A change of one line of a file."""

    file: str
    line: int
    old: str
    new: str


def changes_of(path: Path) -> Iterator[Change]:
    """The changes of a file, by its syntax tree."""
    text = path.read_text()
    lines = text.splitlines()

    def made(node: ast.AST, begin: int, end: int, new: str) -> Iterator[Change]:
        line = lines[node.lineno - 1]
        if line.isascii() and node.lineno == node.end_lineno and begin < end and line[begin:end].strip():
            yield Change(path.name, node.lineno, line, line[:begin] + new + line[end:])

    tree = ast.parse(text)
    told = {id(below) for node in ast.walk(tree) if isinstance(node, ast.Call) and getattr(node.func, "id", "") == "Fault"
            for part in [*node.args[2:], *(it.value for it in node.keywords)] for below in ast.walk(part)}
    for node in ast.walk(tree):
        if id(node) in told:
            continue
        if isinstance(node, ast.Compare) and len(node.ops) == 1 and type(node.ops[0]).__name__ in SWAPS:
            yield from made(node, node.left.end_col_offset, node.comparators[0].col_offset, f" {SWAPS[type(node.ops[0]).__name__]} ")
        elif isinstance(node, ast.BinOp) and type(node.op).__name__ in SWAPS:
            between = lines[node.lineno - 1][node.left.end_col_offset : node.right.col_offset]
            if node.lineno == node.end_lineno and "(" not in between and ")" not in between:
                yield from made(node, node.left.end_col_offset, node.right.col_offset, f" {SWAPS[type(node.op).__name__]} ")
        elif isinstance(node, ast.BoolOp):
            between = lines[node.lineno - 1][node.values[0].end_col_offset : node.values[1].col_offset]
            if node.lineno == node.end_lineno and "(" not in between and ")" not in between:
                yield from made(node, node.values[0].end_col_offset, node.values[1].col_offset, f" {SWAPS[type(node.op).__name__]} ")
        elif isinstance(node, ast.Constant) and type(node.value) is int:
            yield from made(node, node.col_offset, node.end_col_offset, str(node.value + 1))
        elif isinstance(node, ast.UnaryOp) and isinstance(node.op, ast.Not):
            yield from made(node, node.col_offset, node.operand.col_offset, "")
        elif isinstance(node, ast.IfExp):
            yield from made(node, node.test.col_offset, node.test.end_col_offset, "True")


def noticed(change: Change, data: bytes) -> str:
    """The number of the first call that a copy with the change answers otherwise; `None` if there is none, `time` if it takes too long."""
    with tempfile.TemporaryDirectory(prefix="lucid-meaning-") as folder:
        shutil.copytree(TOP / "copperfinch", Path(folder, "copperfinch"))
        path = Path(folder, "copperfinch/model", change.file)
        lines = path.read_text().splitlines(keepends=True)
        lines[change.line - 1] = change.new + "\n"
        path.write_text("".join(lines))
        try:
            words = [sys.executable, "-B", "-c", ANSWER, folder, str(TESTS)]
            made = subprocess.run(words, input=data, capture_output=True, timeout=SECONDS, cwd=folder, env={**os.environ, "PYTHONPATH": ""})
        except subprocess.TimeoutExpired:
            return "time"
        return made.stdout.decode().strip() or "no program"


def calls_of() -> List[Tuple[object, ...]]:
    """The rows that the second implementation answers as they say, the shortest first, and drawn calls, each with the answer as it is, and
    with lines that are not of it: those of a cycle with a name less, a name twice, and two names changed about."""
    from copperfinch.bounded import deeply
    from copperfinch.model import agrees, judge
    from drawn.cases import draw_case
    from rowfile import all_rows

    found: List[Tuple[object, ...]] = []

    def add(words: List[str], files: Dict[str, bytes], status: int, out: bytes, err: bytes) -> None:
        def read(name: bytes) -> bytes:
            if name.decode("utf-8", "surrogateescape") not in files:
                raise OSError(name)
            return files[name.decode("utf-8", "surrogateescape")]

        made = judge(words, read)
        if agrees(made, status, out, err):
            head, *names = err.split() if status == 6 else [b""]
            others = [b" ".join([head, *line]) + b"\n" for line in (names[:-1], [*names, *names[:1]], names[1::-1] + names[2:])] if names else []
            found.append((words, files, status, out, err, [other for other in others if not agrees(made, status, out, other)]))

    rows = [row for row in all_rows() if row.status not in (10, 11) and not row.accepts and (row.bytes_read() < 20000 or row.status == 3)]
    for row in sorted(rows, key=lambda row: row.bytes_read()):
        deeply(lambda: add([*row.words], row.files, row.status, row.out, row.err))
    for number in range(CALLS):
        case = deeply(lambda: draw_case(0, number))
        answer = deeply(case.model)
        deeply(lambda: add(case.words, case.files, answer.status, answer.out, answer.err))
    return found


def run(group: Group) -> None:
    every = [change for path in sorted(MODEL.glob("*.py")) if path.name not in ELSEWHERE for change in changes_of(path)]
    chosen = random.Random(group.options.seed).sample(every, min(len(every), group.options.runs or RUNS))
    if group.options.only:
        chosen = [chosen[int(number)] for number in group.options.only]
    data = pickle.dumps(calls_of())
    found = group.side_by_side(lambda change: noticed(change, data), chosen)
    survivors = [change for change, number in zip(chosen, found) if number == "None"]
    without = [change for change in survivors if (change.file, change.old.strip()) not in SAME]
    for change in survivors:
        group.note(f"meaning: {change.file}:{change.line}: {change.old.strip()}  ->  {change.new.strip()}{'' if change in without else ' (the same)'}")
    group.note(f"meaning: {len(every)} changes, {len(chosen)} tried, {found.count('time')} out of time, {len(survivors)} survive")
    group.check("98 % of the changes are noticed, or mean the same", len(without) * 50 <= len(chosen), len(without))
