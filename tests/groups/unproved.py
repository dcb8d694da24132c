"""The program without proofs, compiled by the script `lucid` in a copy where nothing is built: its answers, its checks, and its time.

Fails on an answer without its line, on another answer or status in any row, on a later call of more than 20 ms of a processor, and on a
program that goes on after a broken condition: a source of the copy has an index that is too large and a difference below 0, for calls of 20
and 21 words. Compiles once, so it takes a minute or two. Sees no programs of other kits.
"""
from __future__ import annotations

import re
import resource
import shutil
import signal
from typing import List

from harness import FIRST, FIRST_LOG, TOP, Ended, Group, call, with_variables
from rowfile import ROWS

from . import rows
from .script import SAYS

# The seconds of a processor that the quickest of some calls may take, by the script.
LATER = 0.02
# The processor seconds of the first call, at most as many times those of the kit's front end alone. Other work on the processors adds to the
# steps unevenly: it was 2.64 beside four times as many processes as there are processors.
WHOLE = 3
SOURCE = "crates/lucid_main/src/words.rt"
END = "    Ok(words)\n"
BROKEN = """    if words.len() == 20 && words[words.len()].len() == 0 {
        return Err(Refusal::Usage);
    }
    if words.len() == 21 && words.len() - 22 == 0 {
        return Err(Refusal::Usage);
    }
"""


def spent() -> float:
    usage = resource.getrusage(resource.RUSAGE_CHILDREN)
    return usage.ru_utime + usage.ru_stime


def run(group: Group) -> None:
    top = group.room / "copy"
    skipped = shutil.ignore_patterns("out", "__pycache__")
    for folder in "crates", "tools":
        shutil.copytree(TOP / folder, top / folder, ignore=skipped)
    for file in "crates.txt", "lucid", "HANDLES", "VERSION":
        shutil.copy2(TOP / file, top / file)
    text = (top / SOURCE).read_text()
    (top / SOURCE).write_text(text.replace(END, BROKEN + END))
    here = top / "here"
    here.mkdir()
    shutil.copy(FIRST, here / "a file")
    env = with_variables(XDG_CACHE_HOME=group.room / "cache")
    lucid = lambda *words: call(["../lucid", *words], cwd=here, env=env)
    before = spent()
    ended = lucid("--program")
    program = top / "crates/lucid_main/out/lucid_unproved"
    if not group.check("the program is compiled and kept", (ended.status, ended.out) == (0, f"{program}\n".encode()), ended):
        return
    group.note(f"unproved: the first call took {spent() - before:.0f} s of processors")
    steps = [float(it) for it in re.findall(r"([0-9.]+) s of processors", (top / "out/compile.log").read_text())]
    group.check(f"it takes at most {WHOLE} times the processor seconds of its front end", sum(steps) <= WHOLE * steps[0], steps)
    group.expect("an answer without proofs", lucid("once", "a file", "pkt", "5"), 0, FIRST_LOG, SAYS)
    group.expect("a refusal without proofs", lucid("check", "no file"), 2, b"", SAYS + b"read fault: no file\n")
    group.check("it is not proved", lucid("--version").out.endswith(b"\nprogram not proved\n"))
    took: List[float] = []
    for _ in range(20):
        before = spent()
        lucid("once", "a file", "pkt", "5")
        took.append(spent() - before)
    group.check(f"a later call takes at most {LATER} s of a processor", min(took) <= LATER, min(took))
    for name, count in (("an index that is too large", 17), ("a difference below 0", 18)):
        ended = lucid("once", "a file", "pkt", *["1"] * count)
        group.expect(f"{name} stops it", ended, -signal.SIGILL, b"", SAYS)
    below = group.under(program=program)
    below.stops = False
    group.side_by_side(lambda row: rows.check_row(below, row), rows.read_all(group, sorted(ROWS.glob("*.rows"))))
    group.check("its answers in all rows", not below.failed and below.passed > 500, below.failures[:5])
