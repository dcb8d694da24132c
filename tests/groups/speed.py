"""Seconds of the built program beside a plain program without proofs that does the same (reference.rs, which `rustc` compiles).

Runs the program that `gen` makes of 7 in a network of 64 switches, in pipes that are half full, and in one pipe that is driven by hand.
Fails if the two write other bytes. Then prints a line of a table for each call: processor seconds, the least of five calls that take
turns, or of `--runs` many, millions of instructions, and their factors; and the nanoseconds of one stage of a packet. A second table splits `run whole` into reading
its files and the rest, also beside the plain program that writes each block at once, as ours does. A third has `run whole` with one write
for each block, and with a buffer of 64 KiB (buffer.c). Fails if the buffer changes the output (seen with a buffer
that drops its last bytes). Sees no speed of other programs.
"""
from __future__ import annotations

import json
import random
import statistics
import subprocess
from pathlib import Path
from typing import Dict, List, Union

from harness import TESTS, Group, call, compile_c, instructions, measure, table
from rowfile import spelled_out

CALLS = [
    "run whole program limits network",
    "run pipe program limits network",
    "drive program limits drive",
    "bench 7 10000",
    "run whole messages limits messages.json",
    "run pipe program limits stages",
    "run pipe bare limits stages",
]
# The plain program has no functions, so this workload has no factor.
OURS_ALONE = ["run whole calls limits calls.json"]
# What the group `instructions` counts.
WORKLOADS = [words if words[:5] != "bench" else "bench 7 200" for words in CALLS] + OURS_ALONE
# The events of the networks; a drive has twice as many steps.
EVENTS = 60000
WHOLE = CALLS[0]
# The scenario of WHOLE that stops before the first tick: its events are read and are pending, and none runs.
READ = "run whole program limits unrun"
# Each event calls eight arrays through functions of functions.
FUNCTIONS = """«8:global Array.t<<32>> a# = Array.create(64);
»memop plus(int stored, int x) { return stored + x; }
memop most(int stored, int x) { if (stored < x) { return x; } else { return stored; } }
fun int mix(int a, int b) { int c = a ^ b; if (c > 1000) { return c & 1023; } else { return c; } }
fun int bump(Array.t<<32>> r, int i, int by) { return Array.update(r, mix(i, by) & 63, most, by, plus, by); }
fun int two(Array.t<<32>> r, Array.t<<32>> q, int i) { int x = bump(r, i, 1); return bump(q, x, mix(x, i)); }
event e0(int i, int v);
handle e0(int i, int v) {
  int x = two(a0, a1, i); int y = two(a2, a3, x + v); int z = two(a4, a5, mix(x, y)); int u = two(a6, a7, z);
  if (u > 100000000) { generate e0(u, v); }
}
"""
# Each event sends eight events of eight arguments of 64 bits.
LETTERS = "abcdefgh"
MESSAGES = """event out(«LETTERS»);
event e0(int a, int b);
«7:event e##(int a, int b);
»handle e0(int a, int b) { «8:generate out(#, 18446744073709551615, 1, 9223372036854775808, 2, 4294967296, 3, 10000000000000000000); »}
""".replace("«LETTERS»", ", ".join(f"int<<64>> {letter}" for letter in LETTERS))


def event(draw: random.Random, at: int, switch: int, kinds: int = 8) -> Dict[str, object]:
    return {"at": at, "switch": switch, "name": f"e{draw.randrange(kinds)}", "args": [draw.randrange(1000), draw.randrange(1000)]}


def network(count: int, switches: int = 64, kinds: int = 8) -> Dict[str, object]:
    """This many events over switches in pairs, of which each gets one in about two ticks."""
    draw, stop = random.Random(1), max(1, count * 131072 // EVENTS // switches)
    links = [[k, k + 1, 1 + k % 5] for k in range(0, switches, 2)]
    events = [event(draw, draw.randrange(stop), draw.randrange(switches), kinds) for _ in range(count)]
    return {"switches": switches, "stop": stop, "links": links, "events": events}


def stages(count: int) -> Dict[str, object]:
    """A twentieth of the events, all in the first ticks of all switches, whose descendants keep all pipes half full."""
    draw = random.Random(3)
    first = [event(draw, at, switch) for at in range(max(1, count * 48 // EVENTS)) for switch in range(64)]
    return {**network(count), "events": first}


def drive(count: int) -> Dict[str, object]:
    """This many steps of one pipe."""
    draw = random.Random(2)
    events = [event(draw, at, 0) for at in range(count // 40)]
    steps: List[List[object]] = []
    while len(steps) < count:
        choice = draw.random()
        if choice < 0.04:
            steps.append(["enter"])
        elif choice < 0.06:
            steps.append(["look", f"a{draw.randrange(8)}", draw.randrange(64)])
        else:
            steps.append(["go", draw.randrange(32)])
    return {"stop": 1, "events": events, "steps": steps}


def compile_reference(group: Group) -> Path:
    """Compiles the plain program."""
    reference = group.room / "reference"
    subprocess.run(["rustc", "--edition", "2024", "-O", "-o", reference, TESTS / "reference.rs"], check=True)
    return reference


def write_files(group: Group, count: int) -> None:
    """Writes the files of all calls, with this many events. The program `bare` sends its events and does nothing else."""
    for kind in "program", "limits":
        group.file(kind, group.call("gen", kind, "7", "1").out)
    for name, text in (("calls", FUNCTIONS), ("messages", MESSAGES)):
        group.file(name, spelled_out(text))
        group.file(f"{name}.json", json.dumps(network(count // 6, 8, 1)))
    scenarios = {"network": network(count), "unrun": {**network(count), "stop": 0}, "stages": stages(count), "drive": drive(2 * count)}
    for name, scenario in scenarios.items():
        group.file(name, json.dumps(scenario))
    lines = (group.room / "program").read_text().splitlines(keepends=True)
    group.file("bare", "".join(line for line in lines if not (line.startswith("  ") and "Array." in line)))


def run(group: Group) -> None:
    write_files(group, EVENTS)
    spent, reference = compile_c(group, "spent.c"), compile_reference(group)
    entered = 1
    for words in [*CALLS, READ]:
        ours = measure(spent, [group.options.program, *words.split()], group.room).ended
        theirs = measure(spent, [reference, *words.split()], group.room).ended
        group.check(f"{words}: the bytes of the plain program", ours == theirs and ours.status == 0, ours)
        entered = next((int(line.split()[1]) for line in ours.out.splitlines()[::-1] if line.startswith(b"entered ")), 0) or entered
    times = [{words: (seconds(group, spent, group.options.program, words), seconds(group, spent, reference, words)) for words in CALLS}
             for _ in range(group.options.runs or 5)]
    count = entered * json.loads((group.room / "limits").read_text())["stages"]
    counts = {words: [instructions([program, *words.split()], group.room) / 1e6 for program in (group.options.program.resolve(), reference)] for words in CALLS}
    rows = [[*row(f"`{words}`", "%.3f", *(min(turn[words][side] for turn in times) for side in (0, 1))), *row("", "%.0f", *counts[words])[1:]] for words in CALLS]
    steps = [statistics.median(turn[CALLS[-2]][side] - turn[CALLS[-1]][side] for turn in times) / count * 1e9 for side in (0, 1)]
    for words in OURS_ALONE:
        took = min(seconds(group, spent, group.options.program, words) for _ in range(group.options.runs or 5))
        rows.append([f"`{words}`", f"{took:.3f}", "", "", f"{instructions([group.options.program.resolve(), *words.split()], group.room) / 1e6:.0f}", "", ""])
    titles = ["Command", "Ours, s", "Plain Rust, s", "Factor", "Ours, million instructions", "Plain Rust", "Factor"]
    table(group, titles, [*rows, [*row("a stage of a packet, ns", "%.1f", *steps), "", "", ""]])
    reading(group, spent, reference)
    buffering(group, spent)


def reading(group: Group, spent: Path, reference: Path) -> None:
    """Prints the seconds of `run whole`, of reading its files alone and of the rest, which is their difference."""
    sides = (group.options.program, ""), (reference, ""), (reference, "blocks ")
    turns = [[[seconds(group, spent, program, before + words) for program, before in sides] for words in (WHOLE, READ)]
             for _ in range(group.options.runs or 5)]
    whole, read = ([min(turn[call][side] for turn in turns) for side in range(3)] for call in range(2))
    rest = [a - b for a, b in zip(whole, read)]
    titles = ["Part of `run whole`", "Ours", "Plain Rust", "Factor", "Plain Rust, block by block", "Factor"]
    rows = [[*row(name, "%.3f", ours, plain), *row("", "%.3f", ours, blocks)[2:]]
            for name, (ours, plain, blocks) in (("the whole call", whole), ("reading", read), ("the rest", rest))]
    table(group, titles, rows)


def buffering(group: Group, spent: Path) -> None:
    """Prints the seconds of `run whole` with one write for each block and with a buffer, into a file and to /dev/null."""
    compile_c(group, "buffer.c", "-fPIC", "-shared").rename(group.room / "buffer.so")
    buffered = group.file("buffered", f'#!/bin/sh\nLD_PRELOAD=./buffer.so exec "{group.options.program.resolve()}" "$@"\n')
    buffered.chmod(0o755)
    outs = [call([program, *WHOLE.split()], cwd=group.room) for program in (group.options.program.resolve(), buffered)]
    group.check(f"{WHOLE}: the same output with a buffer", outs[0] == outs[1], outs[1])
    kinds = ("a file", group.room / "out"), ("`/dev/null`", "/dev/null")
    turns = [{(kind, program): seconds(group, spent, program, WHOLE, out) for kind, out in kinds for program in (group.options.program, buffered)}
             for _ in range(group.options.runs or 5)]
    rows = [row(kind, "%.3f", *(min(turn[kind, program] for turn in turns) for program in (group.options.program, buffered))) for kind, _ in kinds]
    table(group, ["Output of `run whole`", "One write for each block", "With a buffer of 64 KiB", "Factor"], rows)


def seconds(group: Group, spent: Path, program: Path, words: str, out: Union[Path, str] = "/dev/null") -> float:
    """Processor seconds of a call with this output."""
    spent_by = measure(spent, ["/bin/sh", "-c", f'exec "$@" >"{out}"', "sh", program, *words.split()], group.room)
    group.check(f"{words}: ends with 0 as it is timed", spent_by.ended.status == 0, spent_by.ended)
    return spent_by.seconds


def row(name: str, form: str, ours: float, theirs: float) -> List[str]:
    return [name, form % ours, form % theirs, f"{ours / theirs:.2f}" if theirs > 0 else ""]
