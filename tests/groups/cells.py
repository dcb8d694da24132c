"""`tools/cells`: the changes of cells of a run are those between the cells that `run whole` prints if it stops a tick earlier or later.

The built program is called once for each tick of small networks; `tools/cells` calls it once. Each line of MUTANTS is a change of
copperfinch/cells.py that a network must notice. 20,000 events take at most 10 seconds of a processor. Bad input is one line.
"""
from __future__ import annotations

import json
import resource
import sys
from types import ModuleType
from typing import Any, Dict, List, Tuple

from harness import EXAMPLES, TOP, Group, Word
from samples import example

from copperfinch import cells
from copperfinch.files import read_limits, read_scene
from copperfinch.log import read_log
from copperfinch.network import trace
from copperfinch.scenarios import draw, text_of
from copperfinch.streams import Source

NETWORKS = ["heavy", "nat", "rip", "countmin", "detector"]
MUTANTS = [
    ("swaps the values", "self.noted.append((self.array, index, self[index], value))", "self.noted.append((self.array, index, value, self[index]))"),
    ("names the event before", "Change(number, event.switch, *it)", "Change(max(0, number - 1), event.switch, *it)"),
    ("names another switch", "Change(number, event.switch, *it)", "Change(number, 0, *it)"),
    ("forgets changes to 0", "if self[index] != value:", "if self[index] != value and value:"),
    ("shares cells between switches", "if event.switch not in cells:", "cells[event.switch] = next(iter(cells.values()), [])\n        if not cells[event.switch]:"),
    ("accepts other cells at the end", "if last != [", "if last == [0] != ["),
]
Cells = Dict[Tuple[int, str, int], int]


def seen(group: Group, name: str) -> Tuple[List[Word], bytes, Dict[int, Cells]]:
    """The files of a network, its log, and the cells after each tick at which an event enters, by a call that stops there."""
    files = example(name)
    log = group.call("run", "whole", *files).out
    scene = json.loads(files[2].read_text())
    ticks = sorted({it.tick for it in read_log(log).events})

    def after(tick: int) -> Cells:
        own = group.file(f"{name}-{tick}.json", json.dumps({**scene, "stop": tick + 1}))
        return {(it.switch, it.array, it.index): it.value for it in read_log(group.call("run", "whole", *files[:2], own).out).cells}

    return files, log, dict(zip(ticks, group.side_by_side(after, ticks)))


def fault(module: Any, files: List[Any], log: bytes, wanted: Dict[int, Cells]) -> object:
    """Where the changes differ from the cells after each tick; None if nowhere."""
    ledger = trace(read_log(log), read_limits(files[1].read_bytes()), read_scene(files[2].read_bytes()))
    made = module.history(Source.of(str(files[0])), ledger)
    now: Cells = {}
    left = list(made.changes)
    for tick, cells_then in wanted.items():
        while left and ledger.log.events[left[0].event].tick <= tick:
            it = left.pop(0)
            key = it.switch, made.arrays[it.array].name, it.cell
            if ledger.log.events[it.event].tick != tick or ledger.log.events[it.event].switch != it.switch or now.get(key, 0) != it.old or it.old == it.new:
                return tick, it
            now[key] = it.new
        if {key: value for key, value in now.items() if value} != cells_then:
            return tick, now, cells_then
    return left or None


def test_cells(group: Group) -> None:
    """The changes of five networks; and mutants of the module."""
    text = (TOP / "copperfinch/cells.py").read_text()
    found = [seen(group, name) for name in NETWORKS]
    for name, it in zip(NETWORKS, found):
        wrong = fault(cells, *it)
        group.check(f"cells of {name}", wrong is None and any(it[2].values()), wrong)
    for name, old, new in MUTANTS:
        made: Any = ModuleType("copperfinch.cells_mutant")
        made.__package__ = "copperfinch"
        sys.modules[made.__name__] = made
        exec(compile(text.replace(old, new), made.__name__, "exec"), made.__dict__)  # noqa: S102
        if group.check(f"a history that {name} is found in the text", text.count(old) == 1):
            group.check(f"a history that {name} is noticed", any(notices(made, *it) for it in found))


def notices(module: Any, files: List[Any], log: bytes, wanted: Dict[int, Cells]) -> bool:
    """Whether the changes are others, a right log is refused, or one with another cell at its end is accepted."""
    try:
        return fault(module, files, log, wanted) is not None or fault_at_end(module, files, log)
    except cells.Error:
        return True


def fault_at_end(module: Any, files: List[Any], log: bytes) -> bool:
    """Whether a log with another value of a cell is accepted."""
    head, _, last = log.rpartition(b" = ")
    value, _, rest = last.partition(b"\n")
    other = head + b" = %d\n" % (int(value) + 1) + rest
    try:
        module.history(Source.of(str(files[0])), trace(read_log(other), read_limits(files[1].read_bytes()), read_scene(files[2].read_bytes())))
    except cells.Error:
        return False
    return True


def test_command(group: Group) -> None:
    """The command prints the changes of a cell, as text and JSON; its time; and bad input."""
    files: List[Word] = [*example("heavy")]
    log = group.call("run", "whole", *files).out
    own = group.file("own.log", log)
    objects = [json.loads(it) for it in group.tool("cells", *files, "first", "--json", "--log", own).out.splitlines()]
    ledger = trace(read_log(log), read_limits(files[1].read_bytes()), read_scene(files[2].read_bytes()))
    made = cells.history(Source.of(str(files[0])), ledger)
    group.check("all cells of an array as JSON", [(it["event"], it["cell"], it["old"], it["new"]) for it in objects]
                == [(it.event, it.cell, it.old, it.new) for it in made.changes if made.arrays[it.array].name == "first"] != [], objects)
    it = objects[0]
    one = group.tool("cells", *files, f"first[{it['cell']}]", "--switch", f"s{it['switch']}", "--lucid", group.options.program)
    event = ledger.log.events[it["event"]]
    line = f"[{event.tick}] s{it['switch']} first[{it['cell']}]: {it['old']} -> {it['new']}, by event {it['event']} {event.label()}"
    group.check("one cell as text", one.out.decode().splitlines()[0] == line, one)
    shown = group.tool("cells", *files, "first", "--log", own, "--show", "first=hex", "--names", f"{it['switch']}=core", "--switch", "core")
    group.check("a format and a name", f"] core first[{it['cell']}]: 0x{it['old']:08x} -> 0x{it['new']:08x}, by".encode() in shown.out, shown)
    for title, words, why in (
        ("no such array", ["nobody"], "the program has no array nobody"), ("a cell beyond the array", ["first[64]"], "first has 64 cells"),
        ("no cell", ["first["], "first[ is no cell"), ("no such switch", ["first", "--switch", "9"], "there is no switch 9"),
    ):
        ended = group.tool("cells", *files, *words, "--log", own)
        group.check(f"{title} is one line", ended.status == 1 and not ended.out and ended.err.count(b"\n") == 1 and why.encode() in ended.err, ended)
    other = group.tool("cells", EXAMPLES / "nat.luc", *files[1:], "owners", "--log", own)
    group.check("the log of another program", other.status == 1 and other.err.count(b"\n") == 1 and b"the program has no event" in other.err, other)


def test_time(group: Group) -> None:
    """20,000 events and more take at most 10 seconds of a processor, the call of the program with them."""
    scenario = group.file("crowd.json", text_of(draw("countmin", 20000, 7)))
    before = resource.getrusage(resource.RUSAGE_CHILDREN)
    made = group.tool("cells", EXAMPLES / "countmin.luc", EXAMPLES / "countmin.limits.json", scenario, array_of("countmin"), "--lucid", group.options.program)
    after = resource.getrusage(resource.RUSAGE_CHILDREN)
    spent = after.ru_utime + after.ru_stime - before.ru_utime - before.ru_stime
    group.check("at most 10 s of a processor", made.status == 0 and spent < 10, (made.err, spent))
    group.note(f"cells: {made.out.count(b'] s'):,} changes of the first array of countmin with 20,000 events of the scenario in {spent:.1f} s of a processor")


def array_of(name: str) -> str:
    """The first array of an example."""
    words = (EXAMPLES / f"{name}.luc").read_text().partition("global ")[2].split()
    return words[words.index("=") - 1]
