"""How many stages programs need: what tools/stages and `explain --chain` say, and the table of examples/README.md of what costs a stage.

Sees no stages of the built program, which `drawn` and `passes` compare with the second implementation. Seen to fail:
- ordered: a bound that counts tests by equality, or forgets that the calls of an array share a stage (above the stages of -O); passes of -O
  without `dead`
- table: another number in the page, and a body that is refused (--fill writes the numbers)
- chains: a chain that ends early, a waiting operation that is the first of its node, no word of another handler
- placements: a placement of the four passes for -O
"""
from __future__ import annotations

import json
import re
from typing import List

from drawn.cases import draw_case
from harness import EXAMPLES, Group

from copperfinch.bounded import deeply
from copperfinch.commands.stages import Placed, counts_of
from copperfinch.errors import Error
from copperfinch.explain import explain
from copperfinch.explain.chains import longest
from copperfinch.model import judge
from copperfinch.model.more_passes import MORE
from copperfinch.streams import Source

HEAD = "global Array.t<<32>> last = Array.create(4);\nevent out(int c);\nevent pkt(int a, int<<8>> b);\nhandle pkt(int a, int<<8>> b) { %s }\n"
# The sum for `late` makes the call in `late` late, and with it what `early` does with its answer.
HANDLERS = """global Array.t<<32>> last = Array.create(4);
event early();
event late(int a);
event out(int c);
handle early() { int c = Array.get(last, 0); generate out(c + 1); }
handle late(int a) { Array.set(last, 0, (a >> 4) + SELF); }
"""
CALLS = 150


def programs(group: Group) -> List[Source]:
    """The examples, and the programs of drawn calls."""
    found = [Source.of(str(path)) for path in sorted(EXAMPLES.glob("*.luc"))]
    drawn = (draw_case(group.options.seed, number).model().files.get("program") for number in range(group.options.runs or CALLS))
    return found + [Source(f"the program of drawn call {number}", data) for number, data in enumerate(drawn) if data is not None]


def ordered(group: Group, placed: Placed, name: str) -> None:
    """No program needs more stages with -O, and none fewer than the bound says; a chain has a node in each stage."""
    four, more, below = placed.counts()
    group.check(f"stages of {name}", below <= more <= four or not placed.made[0].pairs, (four, more, below))
    for made in placed.made:
        stages = [made.pairs[link.node][0] for link in longest(made)]
        waits = all(link.waiting is not None for link in longest(made)[1:])
        group.check(f"the chain of {name}", stages == list(range(stages[0], stages[0] + len(stages))) and waits if stages else not made.pairs, stages)


def table(group: Group) -> None:
    """The rows of the page have the numbers of their bodies. With --fill they are written."""
    path, section = EXAMPLES / "README.md", "## What costs a stage\n"
    page = path.read_text()
    text = page.partition(section)[2].partition("\n## ")[0]
    rows = re.findall(r"^(\| [^|]* \| `(.*)`) \| (\d+ \| \d+ \| \d+) \|$", text, re.M)
    group.check("rows of what costs a stage", len(rows) >= 8, len(rows))
    for head, body, numbers in rows:
        counted = " | ".join(map(str, counts_of(Source("p", (HEAD % body.replace("\\|", "|")).encode()), None)))
        if group.options.fill:
            page = page.replace(f"{head} | {numbers} |", f"{head} | {counted} |")
        group.check(f"what costs a stage: {body}", counted == numbers or group.options.fill, counted)
    if group.options.fill:
        path.write_text(page)


def chains(group: Group) -> None:
    """A chain goes from handler to handler through an array, and says so."""
    path = group.file("p.luc", HANDLERS)
    lines = group.tool("stages", path).out.decode().splitlines()
    wanted = ["four passes: 5 stages", "with -O: 5 stages", "no pass goes below: 4 stages", "stage 0: 6:42 a >> 4, of late",
              "stage 1: 6:50 node 0 + SELF, of late: an operand waits",
              "stage 2: 5:26 2 calls of last, of early, late: an operand waits, of the call at 6:22 in late; the chain goes on behind the call at 5:26 in early",
              "stage 3: 5:61 node 2 + 1, of early: an operand waits", "stage 4: 5:46 generate out, of early: an operand waits"]
    group.check("a chain through two handlers", lines == wanted, lines)
    chain = group.tool("explain", path, "--chain").out.decode().splitlines()
    group.check("explain --chain has the same chain", chain == lines[3:], chain)


def placements(group: Group) -> None:
    """The placement that `explain -O` makes is the first fit of the passes of -O, and the audit with these passes accepts it."""
    for path in sorted(EXAMPLES.glob("*.limits.json")):
        program = EXAMPLES / path.name.replace(".limits.json", ".luc")
        if not program.exists():
            continue
        files = {b"p": program.read_bytes(), b"l": path.read_bytes()}
        report = explain([b"layout", b"p", b"l"], files.__getitem__, passes=MORE)
        placed = judge([b"layout", b"p", b"l"], files.__getitem__, passes=MORE)
        if placed.status != 0:
            continue
        files[b"q"] = json.dumps(report.placement).encode()
        audited = judge([b"audit", b"p", b"l", b"q"], files.__getitem__, passes=MORE)
        group.check(f"the placement of {program.name} with -O", (audited.status, audited.out) == (0, placed.out), audited.err)


def run(group: Group) -> None:
    seen = 0
    for source in programs(group):
        try:
            placed = deeply(lambda: Placed(source, None))
        except Error:
            continue
        seen += 1
        ordered(group, placed, source.name)
    group.check("programs were placed", seen >= 20, seen)
    table(group)
    chains(group)
    placements(group)
