"""JSON files: the limits of a target, and scenarios (docs/SCENARIO.md). A text is read with one character for each byte."""
import json
import math
import re
from dataclasses import dataclass, field
from typing import Any, Dict, List, Optional, Tuple

from .core import Core
from .refusals import Fault, Refused

MOST_NESTING = 127
MOST_CELLS, MOST_TICKS, MOST_WINDOWS, MOST_SLOT = 4194304, 131072, 1024, 31
STRING = r'"(?:[^"\\]|\\.)*"'


def check_nesting(text: str) -> None:
    """What both files share: at most 127 lists and objects are in one another; brackets in texts in quotes do not count."""
    depth = 0
    for piece in re.finditer(STRING + r'|[][{}]', text, re.DOTALL):
        depth += {'[': 1, '{': 1, ']': -1, '}': -1}.get(piece.group(), 0)
        if depth > MOST_NESTING:
            raise Fault('not JSON', piece.start(), f'more than {MOST_NESTING} lists and objects in one another')


def check_pieces(text: str) -> None:
    """Refuses a text in quotes with half of a surrogate pair, and a number that no float holds; the text is else JSON."""
    for piece in re.finditer(STRING + r'|-?[0-9][-+.eE0-9]*', text, re.DOTALL):
        word = piece.group()
        is_half = '\\u' in word and any(0xd800 <= ord(c) < 0xe000 for c in json.loads(word))
        if is_half or word[0] != '"' and math.isinf(float(word)):
            raise Fault('not JSON', piece.start(), 'half of a surrogate pair, or a number that no float holds')


def number_of(digits: str) -> Any:
    """What both files share: a number is digits alone, below 2^64; any other is a float."""
    plain = digits.isdigit() and len(digits) <= 20 and int(digits) < 2 ** 64
    return int(digits) if plain else float(digits)


def is_number(value: Any) -> bool:
    """Whether a value is a number that is written by digits alone and is below 2^64."""
    return type(value) is int


def read_json(data: bytes) -> Any:
    """What both files share: one JSON value in UTF-8, without a byte order mark; of equal keys the last counts."""
    def no_constant(word: str) -> None:
        raise Fault('not JSON', text.index(word), f'{word} is no JSON')

    text = data.decode('latin-1')
    try:
        data.decode('utf-8')
        check_nesting(text)
        value = json.loads(text, parse_int=number_of, parse_constant=no_constant)
    except UnicodeDecodeError as e:
        raise Fault('not JSON', e.start, 'a byte that is no UTF-8') from None
    except json.JSONDecodeError as e:
        raise Fault('not JSON', e.pos, e.msg.lower()) from None
    check_pieces(text)
    return value


class File:
    """A file of keys. They are tried in the order of its table in docs/SCENARIO.md, and the first that fails is the fault."""

    def __init__(self, data: bytes, status: int, name: str, keys: List[str]) -> None:
        self.status, self.name = status, name
        try:
            self.root = read_json(data)
        except Fault as fault:
            raise self.refused('not JSON', fault) from None
        if not isinstance(self.root, dict):
            raise self.refused('file', Fault('value', (), 'an object'))
        for key in self.root:
            if key not in keys:
                raise self.refused('other', Fault('other key', (key,), keys))

    def refused(self, line: str, fault: Fault) -> Refused:
        """Returns a refusal of the file."""
        return Refused(self.status, f'{"scene" if self.name == "scenario" else self.name}: {line}', fault, self.name)

    def ask(self, holds: bool, line: str, wanted: str, *path: Any) -> None:
        """Refuses a key, as `links`, or an item, as `links 3`, unless it holds; `path` leads on to the value at fault."""
        if not holds:
            key, *item = line.split()
            raise self.refused(line, Fault('value', (key, *map(int, item), *path), wanted))

    def number(self, key: str, least: int, most: int, default: Optional[int]) -> Any:
        """Reads a number from the least to the most, or the default if the key is absent."""
        n = self.root.get(key, default)
        wanted = f'a number from {least} to {most}' if most < 2 ** 64 - 1 else 'a number below 2^64'
        self.ask(is_number(n) and least <= n <= most, key, wanted)
        return n

    def items(self, key: str) -> Any:
        """Reads a list, which is empty if the key is absent."""
        found = self.root.get(key, [])
        self.ask(isinstance(found, list), key, 'a list')
        return found

    def numbers(self, line: str, item: Any, count: int, wanted: str) -> Any:
        """Reads an item that is a list of so many numbers."""
        self.ask(isinstance(item, list) and len(item) == count and all(is_number(n) for n in item), line, wanted)
        return item


@dataclass
class Limits:
    """The limits of a target, with the defaults of the table."""
    stages: int = 12
    tables: int = 16
    rows: int = 64
    arrays: int = 4
    arms: int = 8
    bits: int = 16384
    recirc: int = 0


def read_limits(data: bytes) -> Limits:
    """The limits of a target: reads the file."""
    ranges = {'stages': (1, 32), 'tables': (1, 64), 'rows': (1, 1024), 'arrays': (1, 64), 'arms': (1, 64), 'bits': (1, 1048576),
              'recirc': (0, 65536)}
    file = File(data, 8, 'limits', list(ranges))
    return Limits(**{key: file.number(key, least, most, getattr(Limits, key)) for key, (least, most) in ranges.items()})


@dataclass
class FileEvent:
    """An event of a scenario."""
    at: int
    switch: int
    event: int
    args: List[int]


@dataclass
class Scene:
    """A scenario; a step is ('enter',), ('go', slot) or ('look', array, cell)."""
    switches: int = 1
    stop: int = 0
    links: Dict[Tuple[int, int], int] = field(default_factory=dict)
    down: List[List[int]] = field(default_factory=list)
    events: List[FileEvent] = field(default_factory=list)
    steps: List[Tuple[Any, ...]] = field(default_factory=list)


class SceneFile(File):
    """Reads a scenario of a program, key after key."""

    def __init__(self, data: bytes, core: Core) -> None:
        super().__init__(data, 9, 'scenario', ['version', 'switches', 'stop', 'links', 'down', 'events', 'steps'])
        self.core, self.scene = core, Scene()

    def read(self) -> Scene:
        """Scenarios: reads the keys in the order of the table."""
        s = self.scene
        version = self.number('version', 1, 2, 1)
        s.switches = self.number('switches', 1, 64, 1)
        cells = sum(a.size for a in self.core.arrays)
        self.ask(cells * s.switches <= MOST_CELLS, 'switches', f'at most {MOST_CELLS // max(1, cells)} switches of {cells} cells')
        s.stop = self.number('stop', 0, 2 ** 64 - 1, None)
        self.ask(s.stop * s.switches <= MOST_TICKS, 'stop', f'at most {MOST_TICKS // s.switches}')
        for i, item in enumerate(self.items('links')):
            self.link(f'links {i}', item)
        self.ask('down' not in self.root or version == 2, 'down', 'no windows without `"version": 2`')
        for i, item in enumerate(self.items('down')):
            a, b, start, until = self.numbers(f'down {i}', item, 4, '[a, b, from, until]')
            self.ask((a, b) in s.links and start < until and i < MOST_WINDOWS, f'down {i}',
                     f'a linked pair, `from` below `until`, and at most {MOST_WINDOWS} windows')
            s.down.append(item)
        s.events = [self.event(f'events {i}', item) for i, item in enumerate(self.items('events'))]
        s.steps = [self.step(f'steps {i}', item) for i, item in enumerate(self.items('steps'))]
        return s

    def link(self, key: str, item: Any) -> None:
        """Scenarios: a link joins two different switches that no link before joins, with a latency."""
        a, b, latency = self.numbers(key, item, 3, '[a, b, latency]')
        self.ask(max(a, b) < self.scene.switches and a != b and (a, b) not in self.scene.links, key,
                 f'two different switches below {self.scene.switches} that no link before joins')
        self.ask(1 <= latency <= 65536, key, 'a latency from 1 to 65536')
        self.scene.links[a, b] = self.scene.links[b, a] = latency

    def event(self, key: str, item: Any) -> FileEvent:
        """Scenarios: an event has just its four keys; of several events of a name the last declared is meant."""
        self.ask(isinstance(item, dict) and set(item) == {'at', 'switch', 'name', 'args'}, key,
                 'an object with the keys `at`, `switch`, `name` and `args`, and no others')
        at, switch, name, args = item['at'], item['switch'], item['name'], item['args']
        self.ask(is_number(at), key, 'a tick', 'at')
        self.ask(is_number(switch) and switch < self.scene.switches, key, f'a switch below {self.scene.switches}', 'switch')
        number: Any = self.core.event_named(name) if isinstance(name, str) else None
        self.ask(number is not None, key, 'the name of an event of the program', 'name')
        self.ask(isinstance(args, list) and all(is_number(n) for n in args) and self.core.fits(number, args), key,
                 f'the arguments of {name}, numbers of these bits: {self.core.events[number].params}', 'args')
        return FileEvent(at, switch, number, args)

    def step(self, key: str, item: Any) -> Tuple[Any, ...]:
        """Steps: ["enter"], ["go", slot] or ["look", name, cell]; of several arrays of a name the last declared is meant."""
        parts = item if isinstance(item, list) else []
        arrays = [k for k, a in enumerate(self.core.arrays) if parts[1:2] == [a.name]]
        if parts == ['enter']:
            return ('enter',)
        if parts[:1] == ['go'] and len(parts) == 2 and is_number(parts[1]) and parts[1] <= MOST_SLOT:
            return ('go', parts[1])
        is_look = parts[:1] == ['look'] and len(parts) == 3 and is_number(parts[2]) and len(arrays) > 0
        self.ask(is_look, key, '["enter"], ["go", slot below 32] or ["look", array, cell]')
        return ('look', arrays[-1], parts[2])


def read_scene(data: bytes, core: Core) -> Scene:
    """Reads a scenario."""
    return SceneFile(data, core).read()
