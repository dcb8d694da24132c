"""Draws calls of all commands with their files: limits, scenarios with moves, placements, and changed texts.

`cases()` is a strategy of hypothesis, which also makes a case smaller; `draw_case(seed, number)` is the call of a number. Limits are often at what a program takes, or one below it; windows of links often begin or
end at a tick at which something departs; placements are often first fit with nodes moved. One call in five has a file whose tokens or
bytes are changed: its own, or one of tests/rows and of the examples.
"""
from __future__ import annotations

import json
import os
from dataclasses import dataclass
from pathlib import Path
from random import Random
from typing import Any, Callable, Dict, List, Optional

from harness import Ended, call
from hypothesis import strategies
from copperfinch.model import Answer, judge
from copperfinch.model.json_files import Limits, read_limits
from copperfinch.model.layout import Layout
from copperfinch.model.passes import compose
from copperfinch.model.refusals import Refused

from .expressions import EDGES, draw_number
from .mutated import JSON_WORDS, WORDS, bases, mutated
from .programs import Program

COMMANDS = {'bench': 2, 'gen': 8, 'audit': 120, 'snap': 80, 'drive': 100, 'run placed': 120, 'run pipe': 160, 'run whole': 120,
            'layout': 120, 'expand': 40, 'once': 80, 'check': 60}
LONGEST = 60
BYTES = {count: strategies.binary(min_size=count, max_size=count) for count in range(1, 40)}
# Ticks of events, of which a handler sees the low 32 bits; a drive may begin at any.
LATE = [100, 70000, *EDGES]


@dataclass
class Case:
    """A call: its words, and the files of its folder by name; `changed` says whether one of these has changed tokens or bytes."""

    words: List[str]
    files: Dict[str, bytes]
    changed: bool = False

    @property
    def command(self) -> str:
        """The command of the words."""
        return ' '.join(self.words[:2]) if self.words[0] == 'run' else self.words[0]

    def read(self, name: bytes) -> bytes:
        """Reads a file of the case."""
        found = self.files.get(os.fsdecode(name))
        if found is None:
            raise OSError(name)
        return found

    def model(self) -> Answer:
        """The answer of the second implementation."""
        return judge([os.fsencode(word) for word in self.words], self.read)

    def call(self, program: str, folder: str) -> Ended:
        """The answer of the program."""
        for name, data in self.files.items():
            Path(folder, name).parent.mkdir(parents=True, exist_ok=True)
            Path(folder, name).write_bytes(data)
        return call([program] + self.words, cwd=folder, timeout=LONGEST)


def draw_limits(r: Random) -> Dict[str, Any]:
    """Limits, often tight, seldom out of range."""
    if r.random() < 0.35:
        return {} if r.random() < 0.6 else {'stages': 32, 'rows': 1024, 'tables': 64, 'arms': 64}
    ranges = {'stages': [1, 2, 3, 4, 6, 9, 12], 'tables': [1, 2, 3, 8], 'rows': [1, 2, 3, 4, 8, 20], 'arrays': [1, 1, 1, 2],
              'arms': [1, 2, 3, 5], 'bits': [150, 300, 500, 900, 2000], 'recirc': [0, 1, 3, 20]}
    found: Dict[str, Any] = {key: r.choice(values) for key, values in ranges.items() if r.random() < 0.35}
    if r.random() < 0.06:
        found[r.choice(list(ranges) + ['stage'])] = r.choice([0, -1, 65537, 1048577, 1.5, None, '3', [], True])
    return found


def made_of(text: bytes, limits: Dict[str, Any]) -> Optional[Layout]:
    """The nodes of a program under limits, before any is placed; None where one of them is refused."""
    try:
        answer = judge(['check', 'p'], lambda name: text)
        if answer.status != 0:
            return None
        return Layout(compose(answer.program.core), read_limits(json.dumps(limits).encode()))
    except Refused:
        return None


def draw_tight_limits(r: Random, text: bytes) -> Dict[str, Any]:
    """Limits at what a program takes, or one below it."""
    roomy = {'stages': 32, 'tables': 64, 'rows': 1024, 'arrays': 64, 'arms': 64, 'bits': 1048576}
    made = made_of(text, roomy)
    if made is None:
        return {}
    if not all(made.place(n) for n in made.nodes):
        return {}
    taken = {'stages': 1 + max((k for k, _ in made.pairs), default=0), 'bits': made.code.bits(),
             'arrays': max(len(made.arrays(k)) for k in range(32)),
             'arms': max((len(n.ops) for n in made.nodes if n.array is not None), default=1),
             'rows': max((len(table) for tables in made.stages for table in tables), default=1)}
    return {**roomy, **{key: max(1, taken[key] - r.choice([0, 1, 1])) for key in r.sample(list(taken), r.choice([1, 1, 2]))}}


def draw_events(r: Random, p: Program, switches: int, last: int) -> List[Dict[str, Any]]:
    """Events of a scenario that mostly fit; often all at few ticks, so that what they send is ready at one tick, too."""
    found: List[Dict[str, Any]] = []
    ticks = 4 if r.random() < 0.4 else max(1, last // 2)
    for _ in range(r.choice([0, 2, 4, 6, 9, 14]) if p.events else 0):
        name, widths = r.choice(p.events)
        args = [draw_number(r, w) for w in widths]
        found.append({'at': r.randrange(ticks) if r.random() < 0.9 else r.choice(LATE), 'switch': r.randrange(switches), 'name': name, 'args': args})
    return found


def draw_windows(r: Random, links: List[List[int]], events: List[Dict[str, Any]], limits: Dict[str, Any]) -> List[List[int]]:
    """Windows of links, many of them with an edge at a tick at which something may depart."""
    stages, recirc = (limits.get(key, usual) for key, usual in (('stages', 12), ('recirc', 0)))
    way = stages + recirc if type(stages) is int and type(recirc) is int and stages > 0 <= recirc else 12
    found: List[List[int]] = []
    for _ in range(r.choice([1, 2, 4, 8])):
        start, until = r.randrange(30), 0
        if events and r.random() < 0.7:
            until = r.choice(events)['at'] + way + r.choice([0, 0, 1, 3, 9])
            start = max(0, until - r.choice([1, 10])) if r.random() < 0.4 else until
        if r.random() < 0.1:
            start, until = r.choice([0, *EDGES]), 2 ** 64 - 1
        found.append([*r.sample(r.choice(links)[:2], 2), start, until if until > start else start + r.choice([1, 10, 60])])
    return found


def draw_steps(r: Random, p: Program) -> List[List[Any]]:
    """Moves of one pipeline."""
    found: List[List[Any]] = []
    for _ in range(r.choice([0, 3, 8, 20, 40])):
        kind = r.randrange(10)
        if kind == 9 and p.arrays:
            found.append(['look', r.choice(p.arrays).name, r.randrange(9)])
        else:
            found.append(['enter'] if kind < 4 else ['go', r.choice([0, 0, 1, 1, 2, 3, 4, 7, 11])])
    return found


def draw_scene(r: Random, p: Program, limits: Dict[str, Any]) -> Dict[str, Any]:
    """A scenario for a program: links, windows, events and moves; seldom with a slip."""
    switches = r.choice([1, 2, 2, 3, 3, 4])
    scene: Dict[str, Any] = {'stop': r.choice([0, 9, 20, 40, 60, 90, 90]) if r.random() < 0.98 else 131072 // switches}
    if switches > 1 or r.random() < 0.2:
        scene['switches'] = switches
    latencies = r.choice([[1, 1, 2, 5, 9], [1, 1, 2]])
    links = [[*r.sample([a, b], 2), r.choice(latencies)] for a in range(switches) for b in range(a) if r.random() < 0.75]
    events = draw_events(r, p, switches, scene['stop'])
    if links and r.random() < 0.7:
        scene.update({'version': 2, 'down': draw_windows(r, links, events, limits)})
    scene.update({key: found for key, found in (('links', links), ('events', events), ('steps', draw_steps(r, p))) if found})
    if r.random() < 0.08:
        slip = r.choice([('stop', None), ('stop', 131073), ('switches', 65), ('links', [[0, 0, 1]]), ('version', 3), ('down', []),
                         ('other', 1), ('events', [{'at': 0}]), ('steps', [['go', 32]]), ('events', None), ('links', [[0, 1, 0]]),
                         ('steps', [['look', 'none', 0]])])
        scene[slip[0]] = slip[1]
    return scene


def draw_placement(r: Random, text: bytes, limits: Dict[str, Any]) -> Dict[str, Any]:
    """A placement: the first fit with nodes moved, or places that are drawn behind what they read, or any places."""
    made = made_of(text, limits)
    found = made.limits if made is not None else Limits()
    count = len(made.nodes) if made is not None else r.randrange(5)
    pairs = [[r.randrange(4), r.randrange(2)] for _ in range(count)]
    kind = r.random()
    if made is not None and kind < 0.85:
        for i, n in enumerate(made.nodes):
            behind = [pairs[j][0] + 1 for j in range(i) if made.nodes[j].writes & n.reads]
            pairs[i] = [max(behind, default=0) + r.choice([0, 0, 0, 0, 1, 2]), r.randrange(min(found.tables, r.choice([1, 2, 16])))]
    for _ in range(r.choice([0, 0, 0, 1, 2]) if pairs else 0):
        r.choice(pairs)[r.randrange(2)] = r.choice([0, 1, 2, 5, 11, 12, 70, 2 ** 32])
    plan: Dict[str, Any] = {'nodes': pairs}
    if r.random() < 0.06:
        plan = r.choice([{'nodes': pairs + [[0, 0]]}, {'nodes': pairs[1:]}, {'node': pairs}, [], {'nodes': None}, {'nodes': [[0]] * count}])
    return plan


def change(r: Random, files: Dict[str, bytes], name: str) -> None:
    """Changes one of the files; the first of them is the program."""
    files[name] = mutated(r, files[name], WORDS if name == next(iter(files)) else JSON_WORDS)


class Choices(Random):
    """A source of choices that hypothesis makes, evenly; the smallest are the first of a list and what is not likely to come about."""

    def __init__(self, draw: Callable[[Any], bytes]) -> None:
        super().__init__(0)
        self.draw = draw

    def random(self) -> float:
        return 1 - (int.from_bytes(self.draw(BYTES[2]), 'big') + 1) / 65537

    def getrandbits(self, k: int) -> int:
        return int.from_bytes(self.draw(BYTES[(k + 7) // 8]), 'big') >> (-k % 8)


@strategies.composite
def cases(draw: Callable[[Any], bytes]) -> Case:
    """A case by choices of hypothesis."""
    return draw_by(Choices(draw))


def draw_case(seed: int, number: int) -> Case:
    """The case of this number."""
    return draw_by(Random(seed * 10 ** 9 + number))


def draw_by(r: Random) -> Case:
    """A case by the choices of a source."""
    if r.random() < 0.1:
        base = r.choice(r.choice(bases()))
        case = Case(list(base.words), dict(base.files), True)
        change(r, case.files, r.choice(base.inputs()))
        return case
    command = r.choices(list(COMMANDS), list(COMMANDS.values()))[0]
    if command in ('gen', 'bench'):
        events = r.choice([1, 3, 8]) if command == 'bench' else r.choice([1, 20, 300])
        kind = [r.choice(['program', 'limits', 'scene'])] if command == 'gen' else []
        return Case([command] + kind + [str(r.randrange(2 ** r.choice([3, 64]))), str(events)], {})
    p = Program(r)
    text = p.text().encode('latin-1')
    limits = draw_tight_limits(r, text) if command not in ('check', 'once', 'expand') and r.random() < 0.25 else draw_limits(r)
    files = {'p': text, 'l': json.dumps(limits).encode(), 't': json.dumps(draw_scene(r, p, limits)).encode(), 'q': b''}
    if command in ('audit', 'run placed'):
        files['q'] = json.dumps(draw_placement(r, text, limits)).encode()
    names = {'check': 'p', 'once': 'p', 'expand': 'p', 'layout': 'pl', 'audit': 'plq', 'run placed': 'pltq'}.get(command, 'plt')
    words = command.split() + list(names)
    if command == 'once':
        name, widths = r.choice(p.events)
        args = [str(draw_number(r, w)) for w in widths]
        slip = r.choice([['05'], ['18446744073709551616'], ['x'], [str(2 ** 32)]]) if r.random() < 0.04 else []
        words += [name if r.random() < 0.98 else 'nobody'] + (args + slip if r.random() < 0.98 else args[1:])
    if command == 'snap':
        words.append(str(r.randrange(12)))
    case = Case(words, {name: files[name] for name in names})
    if r.random() < 0.1:
        case.changed = True
        change(r, case.files, r.choice('pp' + names))
    return case
