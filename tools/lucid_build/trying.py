"""Answers a call by `rt try`, which compiles the program, runs it once, and keeps nothing.

The program runs in a folder of its own there. So each file gets the name `word-N` of its place among the words, and the line of a refusal
gets the name as it was given. No more of a file is copied than the program reads of any.
"""
from __future__ import annotations

import contextlib
import os
import re
import subprocess
import sys
import tempfile
from pathlib import Path
from typing import Dict, List, Sequence

from . import running
from .front import Stopped
from .running import say

# Which words name files, by the first word: numbers of words, from 1.
FILES = {"check": (2,), "once": (2,), "expand": (2,), "layout": (2, 3), "drive": (2, 3, 4), "audit": (2, 3, 4), "snap": (2, 3, 4), "run": (3, 4, 5, 6)}
# The program refuses a file of more than 8 MiB, and reads one byte more of it.
READ = 8 * 2**20 + 1
OF_RT = (b"checked: ", b"interpreted: ", b"call=", b"run=", b"rt: ")
NAMED = re.compile(rb"(read fault|too long): word-(\d+)")


def copy_file(name: bytes, copy: Path) -> bool:
    """Copies the beginning of a file; returns whether it can be read."""
    try:
        with open(name, "rb") as file, open(copy, "wb") as to:
            left = READ
            while left:
                piece = file.read(min(left, 1 << 20))
                if not piece:
                    break
                to.write(piece)
                left -= len(piece)
        return True
    except OSError:
        with contextlib.suppress(OSError):
            copy.unlink()
        return False


def answer(top: Path, words: Sequence[bytes]) -> int:
    """Writes the answer to these words, and returns its exit code; raises Stopped if rt gives none."""
    for word in words:
        try:
            word.decode()
        except UnicodeDecodeError:
            print("usage", file=sys.stderr)
            return 1
    with tempfile.TemporaryDirectory(prefix="lucid-") as folder:
        room = Path(folder).absolute()
        names: Dict[int, bytes] = {it: words[it - 1] for it in FILES.get(words[0].decode(), ()) if it <= len(words)}
        given = [b"word-%d" % number if number in names else word for number, word in enumerate(words, 1)]
        data = [f"word-{it}={room}/word-{it}" for it, name in names.items() if copy_file(name, room / f"word-{it}")]
        call: List[running.Word] = ["rt", "try", *(it for word in data for it in ("--data", word)), "--", *given]
        with open(room / "out", "wb") as out, open(room / "err", "wb") as err:
            child = running.start(call, cwd=top / "crates/lucid_main", stdout=out, stderr=err)
            try:
                child.wait()
            finally:
                with running.undisturbed():
                    running.end(child)
        said = (room / "err").read_bytes().splitlines()
        codes = [found[1] for found in (re.match(rb"run=ended status=(\d+) ", line) for line in said) if found]
        if not codes:
            for line in said[-5:]:
                say(os.fsdecode(line))
            raise Stopped("there is no answer without proofs; rt said the lines above")
        return write(room / "out", [line for line in said if not line.startswith(OF_RT)], names, int(codes[-1]))


def write(out: Path, lines: Sequence[bytes], names: Dict[int, bytes], code: int) -> int:
    """Writes the output and the line of a refusal; returns the exit code, which is that of a write fault if the output cannot be written."""
    try:
        with open(out, "rb") as answer_, open(1, "wb", closefd=False) as to:
            while True:
                piece = answer_.read(1 << 20)
                if not piece:
                    break
                to.write(piece)
    except OSError:
        lines, code = [b"write fault"], 10
    with contextlib.suppress(OSError), open(2, "wb", closefd=False) as to:
        for line in lines:
            found = NAMED.fullmatch(line)
            to.write((b"%s: %s" % (found[1], names[int(found[2])]) if found else line) + b"\n")
    return code
