"""Makes a call again at each change of its files, until it is interrupted: `check`, with LIMITS `layout`, and with SCENARIO `run pipe`.

Each time it shows why the call is refused, as `explain` does. Of an accepted call it shows the first lines of the answer, and then the lines
that a change took away (-) and made (+); at most 40 of them. The files are looked at five times a second.
"""
import argparse
import difflib
import os
import subprocess
import sys
import time
from typing import List, Optional, Tuple

from ..command import Once, number
from ..program import TOP, Ended, Program
from ..streams import write

USAGE = "%(prog)s PROGRAM [LIMITS [SCENARIO]] [--lucid COMMAND] [--times N]"
COMMANDS = {1: "check", 2: "layout", 3: "run pipe"}
PAUSE, MOST = 0.2, 40
# Longer differences are not matched line by line.
MATCHED = 2000
EXPLAIN = f"import sys; sys.path.insert(0, {str(TOP)!r}); from copperfinch.command import run_tool; sys.exit(run_tool('explain', sys.argv[1:]))"
Seen = List[Optional[Tuple[int, int, int]]]


def add_words(parser: argparse.ArgumentParser) -> None:
    """Adds the words."""
    parser.add_argument("program", metavar="PROGRAM")
    for name in ("limits", "scenario"):
        parser.add_argument(name, nargs="?", metavar=name.upper())
    parser.add_argument("--lucid", action=Once, metavar="COMMAND", help="another program than the built one")
    parser.add_argument("--times", type=number(1, 10**9), metavar="N", help="end after N calls")


def run(given: argparse.Namespace) -> int:
    """Makes the calls."""
    files = [path for path in (given.program, given.limits, given.scenario) if path is not None]
    program = Program(given.lucid)
    lines: Optional[List[str]] = None
    count = 0
    try:
        while True:
            seen = settled(files)
            ended = program.call(COMMANDS[len(files)], *files)
            if ended.status:
                write(explained(program, files, ended))
            else:
                before, lines = lines, ended.out.decode("utf-8", "replace").splitlines()
                write("".join(f"{line}\n" for line in shown(before, lines)))
            count += 1
            if count == given.times:
                return 0
            while look(files) == seen:
                time.sleep(PAUSE)
            changed = [path for path, was, now in zip(files, seen, look(files)) if was != now]
            write(f"-- changed: {' '.join(changed) or files[0]}\n")
    except KeyboardInterrupt:
        return 0


def look(files: List[str]) -> Seen:
    """Returns what tells that a file has changed; None for a file that is not there."""
    found: Seen = []
    for path in files:
        try:
            about = os.stat(path)
            found.append((about.st_mtime_ns, about.st_size, about.st_ino))
        except OSError:
            found.append(None)
    return found


def settled(files: List[str]) -> Seen:
    """Waits until no file changes, as one that is being written; returns how they are."""
    before = look(files)
    while True:
        time.sleep(PAUSE / 4)
        now = look(files)
        if now == before:
            return now
        before = now


def explained(program: Program, files: List[str], ended: Ended) -> bytes:
    """Explains a refused call in a process of its own, whose time is bounded."""
    words = [sys.executable, "-B", "-c", EXPLAIN, *files, "--lucid", program.command]
    made = subprocess.run(words, stdin=subprocess.DEVNULL, stdout=subprocess.PIPE, stderr=subprocess.STDOUT)
    return made.stdout if made.returncode == ended.status else ended.err


def shown(before: Optional[List[str]], lines: List[str]) -> List[str]:
    """Returns the lines of an answer, or those that differ from the answer before it; not all of very many."""
    if before is None:
        found = lines
    elif before == lines:
        return ["the answer is the same"]
    else:
        found = differences(before, lines)
    more = len(found) - MOST
    return found if more <= 0 else [*found[:MOST], f".. and {more} more lines", *([f"  {lines[-1]}"] if found is lines else [])]


def differences(before: List[str], after: List[str]) -> List[str]:
    """Returns the lines that are gone and those that are new, in order."""
    first = len(os.path.commonprefix([before, after]))
    last = min(len(os.path.commonprefix([before[::-1], after[::-1]])), len(before) - first, len(after) - first)
    old, new = before[first:len(before) - last], after[first:len(after) - last]
    found = [("replace", 0, len(old), 0, len(new))]
    if max(len(old), len(new)) <= MATCHED:
        found = list(difflib.SequenceMatcher(None, old, new, autojunk=False).get_opcodes())
    signed = [[f"-{line}" for line in old[a:b]] + [f"+{line}" for line in new[c:d]] for kind, a, b, c, d in found if kind != "equal"]
    return [line for lines in signed for line in lines]
