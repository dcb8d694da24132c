"""The files of examples/ and the answers beside them, and a program that is moved step by step, for the groups on tools."""
from __future__ import annotations

import json
from typing import Dict, Iterator, List, Tuple

from harness import EXAMPLES, Group, Word

# Adds to a cell of two arrays; the second call depends on the first.
HITS = """global Array.t<<32>> x = Array.create(2);
global Array.t<<32>> y = Array.create(2);
memop plus(int stored, int a) { return stored + a; }
event hit(int v);
handle hit(int v) { int n = Array.update(x, v & 1, plus, v, plus, v); Array.set(y, v & 1, n); printf("now %d", n); }
"""


def example(name: str) -> List[Word]:
    """The program, the limits and the scenario of an example."""
    return [EXAMPLES / f"{name}.{end}" for end in ("luc", "limits.json", "scenario.json")]


def networks() -> List[str]:
    """The names of the examples that have a program and a scenario."""
    names = sorted(path.name.split(".")[0] for path in EXAMPLES.glob("*.scenario.json"))
    return [name for name in names if (EXAMPLES / f"{name}.luc").exists()]


def answer_of(name: str) -> bytes:
    """The answer that a file beside the examples has below the line of its call."""
    return (EXAMPLES / name).read_bytes().partition(b"\n")[2]


def printed() -> Iterator[Tuple[str, str, bytes]]:
    """The name, the kind and the text of each answer beside the examples that is no refusal."""
    kinds = {".run": "run", ".layout": "layout", ".once": "once"}
    for path in sorted(EXAMPLES.iterdir()):
        text = answer_of(path.name) if path.suffix in kinds else b""
        if text.startswith((b"[", b"pass")):
            yield path.name, kinds[path.suffix], text


def scene(group: Group, name: str, events: List[Tuple[int, int, str, List[int]]], stop: int, **more: object) -> Word:
    """Writes a scenario with these events, each by its tick, its switch, its name and its arguments."""
    found = [dict(zip(("at", "switch", "name", "args"), event)) for event in events]
    return group.file(name, json.dumps({"stop": stop, "events": found, **more}))


def moves(group: Group) -> List[Word]:
    """A program, limits and a scenario with steps, some of which can not be done."""
    steps: List[List[object]] = [["enter"], ["enter"], ["go", 0], ["enter"], ["go", 0], ["go", 1], ["go", 9], ["go", 9], ["look", "x", 1]]
    steps += [["go", 2], ["go", 0], ["enter"], ["go", 0]]
    events = [(0, 0, "hit", [number]) for number in (3, 5, 7)]
    files: Dict[str, str] = {"moves.luc": HITS, "moves.limits.json": '{"stages":3}'}
    return [*(group.file(name, text) for name, text in files.items()), scene(group, "moves.json", events, 1, steps=steps)]
