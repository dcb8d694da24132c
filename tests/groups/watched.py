"""The tool `tools/watch`: what it shows at each change of its files.

Fails on an answer that is another one than the program's, a change that is not seen, an explanation that lacks its remedy, a file that is gone
and ends the tool. Seen to fail: a tool that compares only sizes, one that shows the whole log again, one that compares with the refused answer.
Sees no terminal.
"""
from __future__ import annotations

import subprocess
import sys
import threading
from typing import List

from harness import EXAMPLES, TOP, Group

from copperfinch.commands.watch import MOST, shown

ENDINGS = ".luc", ".limits.json", ".scenario.json"


def test_watch(group: Group) -> None:
    """A run, another number, a file that is gone, a refusal, and the first program again."""
    for ending in ENDINGS:
        group.file(f"nat{ending}", (EXAMPLES / f"nat{ending}").read_bytes())
    path, files = group.room / "nat.luc", [f"nat{ending}" for ending in ENDINGS]
    text = path.read_text()
    words = [sys.executable, "-B", TOP / "tools/watch", *files, "--times", "5", "--lucid", group.options.program]
    process = subprocess.Popen(words, cwd=group.room, stdout=subprocess.PIPE, stderr=subprocess.STDOUT, encoding="utf-8")
    timer = threading.Timer(60, process.kill)  # a change that is not seen would wait for ever
    timer.start()
    log = (EXAMPLES / "nat.run").read_text().splitlines()[1:]  # behind the words of the call
    assert process.stdout is not None

    def until(end: str) -> List[str]:
        """The lines up to one that begins so."""
        found: List[str] = []
        while not found or not found[-1].startswith(end):
            line = process.stdout.readline()
            if not line:
                break
            found.append(line.rstrip("\n"))
        return found

    group.check("the log", until("entered ") == log)
    path.write_text(text.replace("outer = 2", "outer = 1"))
    changed = until("-- changed") + until("+")
    path.unlink()
    changed += until("-- changed")
    lost = until("remedy: ")
    path.write_text(text.replace("const int idle", "const bool idle"))
    refused = until("remedy: ")
    path.write_text(text)
    last, status = process.communicate(timeout=60)[0], process.wait()
    timer.cancel()
    was = [line for line in changed[1:-1] if line.startswith("-")]
    group.check("the change of the log", changed[0] == changed[-1] == "-- changed: nat.luc" and bool(was) and {line[1:] for line in was} <= set(log), changed)
    group.check("a file that is gone", lost[0] == "read fault: nat.luc", lost)
    group.check("a refusal", "types: declaration 1 line 4" in refused and "remedy: write an int" in refused, refused)
    group.check("the lines against the last answer", status == 0 and last.count("\n+") == len(was), last)


def test_shown(group: Group) -> None:
    """Long answers and long differences are cut, and the lines that differ are those between equal ones."""
    many = [str(number) for number in range(10_000)]
    group.check("a long answer", shown(None, many) == [*many[:MOST], ".. and 9960 more lines", "  9999"])
    group.check("a line that differs", shown(many, [*many[:5], "x", *many[6:]]) == ["-5", "+x"])
    group.check("a line more", shown(["a", "a"], ["a", "a", "a"]) == ["+a"], shown(["a", "a"], ["a", "a", "a"]))
    group.check("all lines differ", shown(many, ["x"] * 9_000)[-1] == f".. and {19_000 - MOST} more lines")
    group.check("no line differs", shown(many, many) == ["the answer is the same"])
