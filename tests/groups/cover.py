"""tools/cover: what scenarios reach of a program; those of the applications reach each place that can be reached.

The scenarios of an application are that beside it, and two of 2,000 events that `tools/scenario` draws, or that of its properties. Fails on a
place that they miss and that tests/unreached does not name with a reason, and on a line of that file that is reached. What a small program
reaches is counted by hand. Seen to fail: on a mark in the wrong branch, on a side of a memop that is swapped, on a `match` without its last arm.
"""
from __future__ import annotations

import json
import sys
from pathlib import Path
from typing import List

import pytest

from harness import EXAMPLES, TESTS, TOP, Ended, Group, call, with_variables

from copperfinch.scenarios import MAKERS
from copperfinch.testing.properties import load, properties_of

NAMES = sorted(path.stem[5:] for path in (EXAMPLES / "properties").glob("test_*.py"))
SMALL = """global Array.t<<32>> cells = Array.create(4);
memop most(int stored, int x) {
  if (stored < x) { return x; }
  return stored;
}
event pkt(int n);
event other();
fun int twice(int n) {
  if (n > 100) { return n; }
  return n + n;
}
handle pkt(int n) {
  Array.setm(cells, n, most, twice(n));
  match n with
  | 1 -> { generate other(); }
  | 2 -> { printf("two"); }
  | _ -> { if (n == 3) { generate pkt(n + 1); } else { generate other(); } }
}
handle other() { printf("other"); }
"""
# Packets 1 and 3 enter, and what they send, which is `other` and packet 4; what that sends does not, since the network stops.
REACHED = {"3:3 the condition of most, true": 3, "3:3 the condition of most, false": 0, "9:3 the condition, true": 0, "9:3 the condition, false": 3,
           "12:1 the handler of pkt": 3, "15:5 the case": 1, "15:12 what is sent": 1, "16:5 the case": 0, "16:5 the other cases": 2,
           "17:12 the condition, true": 1, "17:12 the condition, false": 1, "17:26 what is sent": 1, "17:56 what is sent": 1, "19:1 the handler of other": 1}


def tool(group: Group, *words: object) -> Ended:
    return call([sys.executable, "-B", TOP / "tools/cover", *words], env=with_variables(LUCID=group.options.program))


@pytest.mark.parametrize("name", NAMES)
def test_application(group: Group, name: str) -> None:
    """The scenarios of an application reach each place that can be reached."""
    files: List[Path] = [EXAMPLES / f"{name}.scenario.json"]
    if name in MAKERS:
        files += [group.file(f"{seed}.json", call([TOP / "tools/scenario", name, "2000", seed]).out) for seed in ("1", "3")]
    else:
        scenes = properties_of(load(EXAMPLES / f"properties/test_{name}.py"))[0].scenes(40)
        files += [group.file(f"{at}.json", scene.text()) for at, scene in enumerate(scenes)]
    ended = tool(group, EXAMPLES / f"{name}.luc", EXAMPLES / f"{name}.limits.json", *files, "--brief")
    missed = {f"{name} {line[13:]}" for line in ended.out.decode().splitlines() if line.startswith("not reached: ")}
    lines = [line.partition(" | ") for line in (TESTS / "unreached").read_text().splitlines()]
    listed = {line for line, _, reason in lines if line.split()[0] == name and reason}
    group.check(f"{name}: what is not reached", ended.status == 0 and missed == listed, ended if ended.status else sorted(missed ^ listed))


def test_small(group: Group) -> None:
    """What a small program reaches."""
    events = [{"at": at, "switch": 0, "name": "pkt", "args": [n]} for at, n in ((0, 1), (1, 3))]
    files = group.file("small.luc", SMALL), group.file("limits", '{"stages": 6}'), group.file("scene", json.dumps({"stop": 8, "events": events}))
    ended = tool(group, *files)
    lines = ended.out.decode().splitlines()
    missed = [line[13:] for line in lines if line.startswith("not reached: ")]
    group.check("what is not reached", missed == [what for what, count in REACHED.items() if not count], missed)
    group.check("the sum", lines[-1] == f"reached {sum(map(bool, REACHED.values()))} of {len(REACHED)}", lines[-1:])
    group.check("the cells", "array cells: 3 of 4 cells, not 2" in lines, lines)
    shown = {int(line[9:13]): line[:8].split() for line in lines[:19]}
    for number, wanted in ((3, ["~", "0"]), (12, ["+", "3"]), (16, ["~", "0"]), (17, ["+", "1"]), (19, ["+", "1"]), (1, [])):
        group.check(f"line {number}", shown[number] == wanted, shown[number])
    brief = tool(group, *files, "--brief")
    group.check("--brief prints no lines", brief.out.decode().splitlines() == lines[20:], brief)


def test_bad_input(group: Group) -> None:
    """A refused program, scenario or file is a line."""
    limits, scene = EXAMPLES / "nat.limits.json", EXAMPLES / "nat.scenario.json"
    bad = {"order: declaration 4": (EXAMPLES / "crossed.luc", limits, scene), "scenario": (EXAMPLES / "nat.luc", limits, EXAMPLES / "sro.scenario.json"),
           "none": (EXAMPLES / "nat.luc", limits, group.room / "none"), "limits": (EXAMPLES / "nat.luc", scene, scene)}
    for word, words in bad.items():
        ended = tool(group, *words)
        group.check(f"bad input: {word}", ended.status == 1 and ended.err.startswith(b"cover: ") and word.encode() in ended.err and ended.err.count(b"\n") == 1, ended)
    usage = tool(group, EXAMPLES / "nat.luc")
    group.check("too few words", usage.status == 2, usage)
