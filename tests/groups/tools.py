"""The tools of tools/: refusals that a tool is given as one word. The calls of tests/tools.rows are items of their own, byte by byte.

Fails on another output, error line or status of a tool. The groups printed, pictures, page, schemas, editors, script and builds test what
the tools show. Sees no tool that has no row. Seen to fail, by titles of rows:
- other words: usage that ends with 1, a word too many for `picture`, `²` as a number for `page`, a scenario of 20,001 events
- where: a file without an end that is read, columns from 0, 2^64 - 1 that is no number, a mark one token early, `fun <<` as a usual function,
  a declaration without its first line, digits that `int` reads, a scan that copies the rest of the text (a call has 60 seconds)
- json: nothing `lost`, leading zeros, a wrong count of lost events, switches that fall, lines behind the last, a drive of switch 1
- picture, page, editor: files deeper than the stack, arrows without `stages`, a program that can not be run, lists in another order
- mutated: a program, limits, a scenario or a log that is changed and ends a tool with a traceback, output before its refusal, or two lines
- one_word: the first line of several, an empty word, an array that is not found where it is declared
"""
from __future__ import annotations

import io
import random
import sys
from typing import Dict, List

from harness import EXAMPLES, Group
from samples import example

from copperfinch import command


def test_one_word(group: Group) -> None:
    """`where` takes a refusal as one word, below the line of an unproved build, too; and shows all places of a cycle."""
    path = group.file("a file", '// \\ "\n  event\t$ e();')
    mark = f"{path}:2:9\n  event\t$ e();\n       \t^\n".encode()
    group.expect("where a byte is, in one word", group.tool("where", path, "syntax: byte 15"), 0, mark)
    group.expect("where a byte is, below another line", group.tool("where", path, "lucid: unproved: x\nsyntax: byte 15\n"), 0, mark)
    empty = group.tool("where", path, "")
    group.check("where, with an empty word", empty.status == 2 and empty.err.startswith(b"usage: tools/where "), empty)
    crossed = EXAMPLES / "crossed.luc"
    cycle = group.tool("where", crossed, group.call("check", crossed).err.decode())
    lines = [f"{crossed}:5:1", "5 | handle pkt", "x is declared at", f"{crossed}:2:22", "y is named at", f"{crossed}:5:31"]
    group.check("where a cycle is", cycle.status == 0 and all(line in cycle.out.decode() for line in lines), cycle)


def mutated(draw: random.Random, data: bytes) -> bytes:
    """A text with some bytes changed, dropped, doubled, or put in."""
    made = bytearray(data)
    for _ in range(draw.randrange(1, 3)):
        at, length = draw.randrange(len(made)), draw.randrange(1, 20)
        part = draw.choice([b"", made[at:at + length] * 2, bytes([draw.randrange(256)]), b"18446744073709551616", b"-1", b'"', b"[", b"null", b"\0"])
        made[at:at + draw.choice([0, 1, length])] = part
    return bytes(made)


def test_mutated(group: Group) -> None:
    """Tools that follow a run end with an answer, or with one line and nothing else, whatever was changed in one of their files."""
    draw, ends = random.Random(88), {0: 0, 1: 0}
    sources = dict(zip("plt", (path.read_bytes() for path in example("heavy"))))
    sources["log"] = group.call("run", "whole", *example("heavy")).out
    sources["csv"] = b"time,from,mac,s\n0.5,10.0.0.1,00:00:00:00:01:02,1\n0.500012,0x10,5,0\n"
    names: Dict[str, str] = {name: str(group.file(name, data)) for name, data in sources.items()}
    p, l, t, log, table = (names[it] for it in ("p", "l", "t", "log", "csv"))
    calls: List[List[str]] = [
        ["follow", p, l, t, "3", "--log", log], ["follow", p, l, t, "packet(7,_)", "--log", log, "--json", "--show", "source=ip"],
        ["cells", p, l, t, "first", "--log", log, "--names", "0=edge"], ["json", "log", log, "--limits", l, "--scenario", t],
        ["json", "log", log, "--csv", "--program", p, "--show", "first=hex"], ["picture", "log", l, t, log], ["trace", table, "--event", "pkt(from, mac)", "--switch", "s", "--into", t],
    ]
    for number in range(420):
        words = draw.choice(calls)
        name = draw.choice([it for it, path in names.items() if path in words])
        group.file(name, mutated(draw, sources[name]))
        out, err = io.TextIOWrapper(io.BytesIO()), io.TextIOWrapper(io.BytesIO())
        before = sys.stdout, sys.stderr
        sys.stdout, sys.stderr = out, err
        try:
            status = command.run_tool(words[0], words[1:])
        finally:
            sys.stdout, sys.stderr = before
        said, answer = err.buffer.getvalue(), out.buffer.getvalue()
        holds = status == 0 and bool(answer) or status == 1 and not answer and said.count(b"\n") == 1
        group.check(f"mutated file {number}, {name} of tools/{' '.join(words)}", holds, (status, said[:300]))
        ends[status] = ends.get(status, 0) + 1
        group.file(name, sources[name])
    group.check("answers and refusals", ends[0] > 40 and ends[1] > 40, ends)
