"""Places in the files of a call: line and column of a byte, of a value of a JSON file, and of the expanded program."""
import json
import re
from bisect import bisect_right
from dataclasses import dataclass
from typing import Any, Dict, List, Optional, Sequence, Tuple

from ..model.answers import Answer
from ..model.json_files import STRING
from ..streams import printable

WIDEST = 140  # of a shown line
PIECE = re.compile(STRING + r'|[][{}:,]|[^][{}:,"\s]+', re.DOTALL)
TOKEN = re.compile(rb'\w+|"[^"\n]*"?|\|[+-]\||[-=!<>&|]=|<<|>>|&&|\|\||->|\S')

Keys = Tuple[Any, ...]  # the keys and the numbers that lead to a value


@dataclass
class Place:
    """A place in a file: line and column, from 1, with columns in bytes."""

    file: str
    line: int
    column: int
    source: str
    caret: str
    at: int = 0  # the byte in the file, from 0
    end: int = 0  # the byte behind the token that stands there

    def head(self) -> str:
        """`file:line:column`."""
        return f'{self.file}:{self.line}:{self.column}'

    def shown(self) -> List[str]:
        """The source line, and a mark below it."""
        return [self.source, self.caret]

    def data(self) -> Dict[str, Any]:
        """The place as JSON; `end` is the column behind its token."""
        return {'file': self.file, 'line': self.line, 'column': self.column, 'end': self.column + self.end - self.at}


@dataclass(frozen=True)
class Edit:
    """A change of a file: the bytes from `start` on, up to `end`, become `text`."""

    start: int
    end: int
    text: str

    def data(self) -> Dict[str, Any]:
        """The edit as JSON."""
        return {'start': self.start, 'end': self.end, 'text': self.text}


def apart(edits: Sequence[Edit]) -> List[Edit]:
    """Returns changes in the order of their places; of those that meet, the one that is given first."""
    kept: List[Edit] = []
    for edit in edits:
        if all(edit.end < other.start or other.end < edit.start or edit.end == other.start != edit.start for other in kept):
            kept.append(edit)
    return sorted(kept, key=lambda one: one.start)


def applied(data: bytes, edits: Sequence[Edit]) -> bytes:
    """Returns a file with changes made; of those that meet, the one that is given first."""
    for edit in reversed(apart(edits)):
        data = data[:edit.start] + edit.text.encode('latin-1', 'replace') + data[edit.end:]
    return data


def place_in(file: str, data: bytes, at: int) -> Place:
    """The place of a byte of a file; of a long line what stands round it is shown."""
    start = data.rfind(b'\n', 0, at) + 1
    end = min(found for found in (data.find(b'\n', at), data.find(b'\r', at), len(data)) if found >= 0)
    first = start if at - start <= WIDEST - 40 else at - 60
    last = min(end, first + WIDEST)
    while at < last < end and data[last] & 0xc0 == 0x80:  # no character is cut
        last -= 1
    while start < first and data[first] & 0xc0 == 0x80:
        first -= 1
    source, before = (printable(data[first:end].decode('utf-8', 'replace')) for end in (last, at))
    return Place(file, data.count(b'\n', 0, at) + 1, at - start + 1, source, re.sub(r'[^\t]', ' ', before) + '^')


class Values:
    """The values of a JSON text, each by the keys and numbers that lead to it; of equal keys the last counts."""

    def __init__(self, text: str) -> None:
        self.pieces = list(PIECE.finditer(text))
        self.here = 0
        self.found: Dict[Keys, Tuple[int, int]] = {}  # where a value begins and ends
        self.keys: Dict[Keys, Tuple[int, int]] = {}
        self.value(())

    def next(self) -> str:
        """The text of the next piece."""
        return self.pieces[self.here].group()

    def value(self, path: Keys) -> None:
        """Finds a value and all within it."""
        start, sign = self.pieces[self.here].start(), self.next()
        self.here += 1
        if sign in ('[', '{'):
            number = 0
            while self.next() not in (']', '}'):
                key: Any = number
                if sign == '{':
                    key = json.loads(self.next())
                    self.keys[path + (key,)] = self.pieces[self.here].span()
                    self.here += 2
                self.value(path + (key,))
                self.here += self.next() == ','
                number += 1
            self.here += 1
        self.found[path] = start, self.pieces[self.here - 1].end()


class Sources:
    """The files of a call."""

    def __init__(self, answer: Answer) -> None:
        self.answer = answer
        program = answer.program
        self.expanded: Any = program.expanded if program is not None else None
        self.begins: List[int] = [begin for begin, _ in self.expanded.pieces] if self.expanded is not None else []
        self.is_other = self.expanded is not None and self.expanded.text != program.text

    def source_of(self, at: int) -> int:
        """The byte of the program as it was given, of a byte of the expanded text."""
        if self.expanded is None:
            return at
        begin, source = self.expanded.pieces[max(0, bisect_right(self.begins, at) - 1)]
        return int(at + source - begin)

    def text(self, rule: str) -> str:
        """The text of the program of which the places of a broken rule are: as it was given, or expanded."""
        return str(self.answer.program.text if rule == 'no token' or self.expanded is None else self.expanded.text)

    def edits(self, edits: Sequence[Edit]) -> List[Edit]:
        """Changes of the program as it was given, of changes of the expanded text; none if one is not of one piece of it."""
        found = [Edit(self.source_of(one.start), self.source_of(one.end), one.text) for one in edits]
        return found if all(a.end - a.start == b.end - b.start for a, b in zip(edits, found)) else []

    def place(self, file: str, at: int) -> Place:
        """A place of the program as it was given, or of the limits, the scenario or the placement."""
        if file == 'program':
            at = self.source_of(at)
        data = self.answer.files[file]
        at = min(at, len(data))
        found = place_in(self.answer.call.files[file], data, at)
        piece = TOKEN.match(data, at)
        found.at, found.end = at, piece.end() if piece else at
        return found

    def span(self, file: str, path: Keys, is_key: bool) -> Tuple[int, str]:
        """Where a value or a key is in a JSON file, and its text; what is not there is at the value round it."""
        text = self.answer.files[file].decode('latin-1')
        values = Values(text)
        found: Optional[Tuple[int, int]] = (values.keys if is_key else values.found).get(path)
        if found is None:
            return values.found[path[:-1]][0], f'no key `{path[-1]}`'
        shown = text[slice(*found)].encode('latin-1').decode('utf-8', 'replace')
        if len(shown) > 60 or '\n' in shown:
            shown = {'{': 'an object', '[': 'a list'}.get(shown[0], shown[:60] + '..')
        return found[0], shown

    def copies(self, at: int) -> List[str]:
        """Says where a place is in the expanded text, where that is another."""
        if not self.is_other:
            return []
        line = self.expanded.text.count('\n', 0, at) + 1
        return [f'note: this is line {line} of the text that `lucid expand` prints; refusals count lines and tokens of that text']
