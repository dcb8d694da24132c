"""Explanations of refusals: each refused call of tests/rows gets one, which names the same place as the refusal.

For each refused row the refusal that tools/explain works out is the row's line. If it has a place in a text, the explanation names file,
line and column, and shows that line. A declaration, a token, a byte and a line that the refusal counts are those of the place. The examples
are placed on targets of 2 and of 5 stages; where one is refused, the explanation names the operation, its place and why it finds no stage.
Then tools/explain itself is called on a row of each kind: its first line is the program's own, and its code the program's.

Fails on a rule that refuses without a place, on a place outside the refused declaration, on a `nofit` without the operation or the reason,
and on another refusal of the second implementation. Sees nothing of whether the words of an explanation are right.
"""
from __future__ import annotations

import re
import sys
from typing import Dict

from harness import EXAMPLES, TOP, Ended, Group, call
from copperfinch.explain import Report, explain
from copperfinch.model import agrees
from copperfinch.model.lexer import lex
from copperfinch.bounded import deeply
from rowfile import Row, all_rows

PLACED = {4, 5, 6, 7, 8, 9, 12, 13}
# Words of rows, and the words of tools/explain for the same refusal.
FORMS = {
    "check": ["check", "p"],
    "layout": ["layout", "p", "l"],
    "run pipe": ["run", "pipe", "p", "l", "t"],
    "run placed": ["run", "placed", "p", "l", "t", "q"],
    "audit": ["audit", "p", "l", "q"],
}
REASON = (
    r"(it can stand in stage \d+ at the earliest, and (the last is stage \d+|no stage from there on has room)"
    r"|the tables of its calls have \d+ rows together, and `rows` is \d+)"
)


def printable(text: str) -> str:
    return "".join(c for c in text if c == "\t" or c.isprintable()).replace("?", "")


def shows_its_line(report: Report, row: Row) -> bool:
    """Whether the place is in its file: there is such a line, with such a column, and it is shown."""
    place = report.explanation.place
    lines = row.files[place.file].split(b"\n")
    if not 1 <= place.line <= len(lines) or not 1 <= place.column <= len(lines[place.line - 1]) + 1:
        return False
    line = lines[place.line - 1]
    return len(line) > 100 or printable(place.source) == printable(line.decode("utf-8", "replace"))


def same_place(report: Report, row: Row) -> bool:
    """Whether the place is the one that the refusal counts: of a byte, a token, or a declaration and its line."""
    line = row.err.decode("utf-8", "replace")
    fault, program = report.answer.refused.fault, report.answer.program
    text = program.text if program.expanded is None else program.expanded.text
    byte = re.match(r"syntax: byte (\d+)", line)
    if byte:
        return fault.at == int(byte.group(1))
    token = re.match(r"(syntax: nesting at|syntax:|sizes: broken at) token (\d+)", line)
    if token:
        at = lex(text)[int(token.group(2)) - 1].at
        return (fault.notes[0][0] if token.group(1) == "syntax:" else fault.at) == at
    declaration = re.match(r"(types|order): declaration \d+ line (\d+)", line)
    if declaration and row.status == 5:
        begin = fault.notes[-1][0]
        return text.count("\n", 0, begin) + 1 == int(declaration.group(2)) and fault.at is not None and begin <= fault.at
    if declaration:
        return all(text.count("\n", 0, at) + 1 >= int(declaration.group(2)) for at, _ in report.explanation.words.notes)
    return True


def check_row(group: Group, row: Row) -> None:
    report = explain(row.words, row.read, with_nodes=False)
    made = report.explanation
    is_explained = made is not None and agrees(report.answer, row.status, row.out, row.err)
    if not group.check(f"{row.name} is explained", is_explained, report.answer.err):
        return
    group.check(f"{row.name} has a rule and a remedy", bool(made.words.problem and made.words.rule and made.words.remedy))
    if row.err.startswith(b"nofit: node "):
        group.check(f"{row.name} names the operation and the reason", names_the_node(report), made.words.problem)
    if row.status in PLACED and group.check(f"{row.name} has a place", made.place is not None, made.words.problem):
        group.check(f"{row.name} shows its line", shows_its_line(report, row), made.place)
        group.check(f"{row.name} names the place of the refusal", same_place(report, row), made.lines())


def names_the_node(report: Report) -> bool:
    """Whether the explanation of a `nofit: node N` names that node, what it is and why it finds no stage."""
    made = report.explanation
    named = re.fullmatch(rf"node (\d+) \(.+\) finds no stage: {REASON}", made.words.problem)
    return named is not None and made.refusal == f"nofit: node {named.group(1)}"


def check_example(group: Group, name: str, stages: int) -> bool:
    """Whether an example is refused on a target of so many stages; then its explanation names the operation, its place and the reason."""
    files = {b"p": (EXAMPLES / name).read_bytes(), b"l": b'{"stages": %d}' % stages}
    report = explain(["layout", "p", "l"], files.__getitem__)
    made = report.explanation
    if made is None or not made.refusal.startswith("nofit: node "):
        return False
    node = next(n for n in report.nodes if f"nofit: node {n['node']}" == made.refusal)
    group.check(f"{name} with {stages} stages: the operation and the reason", names_the_node(report), made.words.problem)
    group.check(f"{name} with {stages} stages: its place", made.place.head() == f"p:{node['line']}:{node['column']}", made.place)
    chain = re.match(r"node \d+ reads node|(a new table of )?stage \d+ ", made.details[0])
    group.check(f"{name} with {stages} stages: the chain", chain is not None, made.details[0])
    return True


def call_tool(group: Group, row: Row) -> None:
    """Calls tools/explain on a row: the first line and the code are the program's, and the second line names the place."""
    for name, data in row.files.items():
        group.file(name, data)
    files = ["p", "l", "-", "q"] if row.words[0] == "audit" else [word for word in row.words if word in ("p", "l", "t", "q")]
    done = call([sys.executable, TOP / "tools/explain", *files, "--lucid", group.options.program], cwd=group.room)
    own = group.call(*row.words, cwd=group.room)
    first, _, second = done.out.partition(b"\n")
    group.check(f"tools/explain {row.name}: the line and the code are the program's", Ended(done.status, b"", first + b"\n") == own, done)
    group.check(f"tools/explain {row.name}: file:line:column", re.match(rb"[pltq]:\d+:\d+: error: ", second) is not None, second)


def work(group: Group) -> None:
    refused = [1 for path in sorted(EXAMPLES.glob("*.luc")) for stages in (2, 5) if check_example(group, path.name, stages)]
    group.check("there are ten refusals of examples on 2 and 5 stages", len(refused) >= 10, len(refused))
    kinds: Dict[str, Row] = {}
    for row in all_rows():
        if row.accepts or row.status in (0, 10, 11):
            continue
        check_row(group, row)
        command = " ".join(row.words[: 2 if row.words[:1] == ["run"] else 1])
        if row.status in PLACED and row.words == FORMS.get(command):
            kinds.setdefault(re.sub(r"\d+", "N", row.err.decode("utf-8", "replace")), row)
    group.check("there are rows of 35 kinds for tools/explain", len(kinds) >= 35, len(kinds))
    for row in kinds.values():
        call_tool(group, row)


def run(group: Group) -> None:
    deeply(lambda: work(group))
