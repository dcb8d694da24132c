"""Unusual words of the program and of the script `lucid`.

Fails on a script that cuts or joins words, that ends otherwise than the program, that does not take the built program, or that takes the
sums of all sources in each call. Sees nothing of the texts that the words name.
"""
from __future__ import annotations

import resource
from statistics import median
from typing import Dict, List

from harness import FIRST, TOP, Group, Word, call

from .script import SAYS

# Calls that are measured, and the milliseconds of a processor that the script may add to one. The quickest calls count, since a busy
# machine makes calls slower. On a slow machine the script may add as many times what its look at the files takes alone: there are
# thousands of files, so the look takes most of the time. The sums of all sources take more than five looks.
CALLS, MOST, LOOKS = 100, 10, 2
LOOK = ["sh", "-c", "{ read -r _; exec find -files0-from - -maxdepth 0 -cnewer out/looked; } <out/looked"]
EIGHT = "event wide(int a, int b, int c, int d, int e, int f, int g, int h);"


def run(group: Group) -> None:
    words_of_the_program(group)
    words_of_the_script(group, TOP / "lucid")
    cost_of_the_script(group, TOP / "lucid")


def words_of_the_program(group: Group) -> None:
    """A word and a limits file that are no text, and the names of a folder and of nothing."""
    expect = group.expect
    expect("a word that is not UTF-8", group.call("once", FIRST, "pkt", b"\377"), 1, err=b"usage\n")
    limits = group.file("limits", b'{"\377":4}')
    expect("limits that are not UTF-8", group.call("layout", FIRST, limits), 8, err=b"limits: not JSON\n")
    expect("a folder", group.call("once", "examples", "pkt", "5", cwd=TOP), 2, err=b"read fault: examples\n")
    expect("an empty name", group.call("check", ""), 2, err=b"read fault: \n")


def words_of_the_script(group: Group, lucid: Word) -> None:
    """Words go through the script unchanged; if the program is not proved, a line says so."""
    is_proved = b"\nprogram proved\n" in call([TOP / "lucid", "--version"]).out
    usage = call([lucid])
    group.expect("the script takes the built program", usage, 1, err=b"usage\n")
    wide = group.file("a file", EIGHT)
    blank = group.file("a file ", "event other();")
    eight = "12345678"
    said = b"" if is_proved else SAYS
    expect = lambda name, words, status, out, err: group.expect(name, call([lucid, *words]), status, out, said + err)
    expect("a name with a blank and eight arguments", ["once", wide, "wide", *eight], 0, b"[0] s0 wide(1,2,3,4,5,6,7,8)\n", b"")
    expect("nine arguments", ["once", wide, "wide", *eight, "9"], 1, b"", b"usage\n")
    expect("a name with a blank at its end", ["once", blank, "other"], 0, b"[0] s0 other()\n", b"")
    expect("an empty word", ["once", wide, ""], 1, b"", b"usage\n")


def spent() -> float:
    """The seconds of a processor that ended children took, in their code and in the system."""
    usage = resource.getrusage(resource.RUSAGE_CHILDREN)
    return usage.ru_utime + usage.ru_stime


def cost_of_the_script(group: Group, lucid: Word) -> None:
    """The processor time of the quickest call by the script, less that of the quickest call of the program."""
    commands: Dict[str, List[Word]] = {"script": [lucid, "check", FIRST], "program": [group.options.program, "check", FIRST], "look": [*LOOK]}
    took: Dict[str, List[float]] = {name: [] for name in commands}
    for _ in range(CALLS):
        for name, words in commands.items():
            before = spent()
            call(words, cwd=TOP)
            took[name].append(1000 * (spent() - before))
    added, look = min(took["script"]) - min(took["program"]), min(took["look"])
    middle = median(took["script"]) - median(took["program"])
    group.note(f"words: the script `lucid` adds {added:.1f} ms of a processor to a call, in the middle {middle:.1f} ms; its look takes {look:.1f} ms")
    group.check(f"the script adds at most {MOST} ms, or {LOOKS} looks", added <= max(MOST, LOOKS * look), f"{added:.1f} ms, a look {look:.1f} ms")
