"""Changes texts: bytes flipped, cut and doubled; tokens exchanged, dropped, doubled and put in the place of others.

`bases()` are calls of tests/rows and of the examples whose files may be changed, by the form of their words.
"""
from __future__ import annotations

import random
import re
from dataclasses import dataclass
from functools import lru_cache
from typing import Dict, List, Tuple

from harness import EXAMPLES, TOP
from rowfile import all_rows

MOST = 4096
FILES = {"check": 1, "once": 1, "expand": 1, "layout": 2, "drive": 3, "audit": 3, "snap": 3, "run": 4}
TOKEN = re.compile(rb'[ \t\r\n]+|[A-Za-z_0-9]+|"[^"\n]*"|[|][+-][|]|&&|[|][|]|==|!=|<=|>=|<<|>>|->|.', re.S)
WORDS = (
    b"const int global memop event handle fun if else return generate printf bool void true false hash SELF Array Event Sys match with"
    b" group create t get set getm setm update delay locate time _ |+| |-| && || == != <= >= << >> -> + - & | ^ ~ ! < > = ( ) { } , ; . /* */"
    b' // " 0 1 8 9 32 33 64 65 255 256 65536 65537 4294967295 4294967296 18446744073709551615 18446744073709551616 0x 0xff'
).split()
JSON_WORDS = (
    rb'{ } [ ] , : " null true false 0 1 -1 1.0 1e0 1e400 01 64 65 1024 1025 131072 131073 4294967296 18446744073709551615'
    rb' 18446744073709551616 "version" "switches" "stop" "links" "down" "events" "steps" "at" "switch" "name" "args" "enter" "go" "look"'
    rb' "stages" "tables" "rows" "arrays" "arms" "bits" "recirc" "nodes" \u0000 \ud800 \ ' + b"\\"
).split()


# What is put behind a token: one step off the grammar.
STEPS = [b";", b",", b"()", b"{}", b" |", b" _", b" 1", b"<<8>>", b" return", b" int x;"]
# What may stand for a blank, and what may not.
BLANKS = [b"\t", b"\r", b"\n", b"\x0b", b"\x0c", b"\0", b"\xef\xbb\xbf", b"/**/", b"//\r\n", b""]


@dataclass(frozen=True)
class Base:
    """A call whose files may be mutated: its words, and the texts of those that name files."""

    words: Tuple[str, ...]
    files: Dict[str, bytes]

    def inputs(self) -> List[str]:
        first = 2 if self.words[0] == "run" else 1
        names = self.words[first : first + FILES.get(self.words[0], 0)]
        return [word for word in names if len(self.files.get(word, b" " * MOST)) < MOST]


@lru_cache
def bases() -> List[List[Base]]:
    """The calls of tests/rows and of the examples that read their files, and others over the same files, by the form of their words."""
    found = [
        Base(tuple(row.words), row.files)
        for row in all_rows()
        if row.path.name not in ("large.rows", "files.rows") and row.status not in (1, 2, 3)
    ]
    for path in sorted(EXAMPLES.iterdir()):
        if path.suffix in (".once", ".run", ".layout"):
            words = tuple(path.read_text().split("\n", 1)[0].split())
            found.append(Base(words, {word: (TOP / word).read_bytes() for word in words if (TOP / word).is_file()}))
    found += [other for base in found for other in others(base)]
    forms: Dict[Tuple[str, ...], List[Base]] = {}
    for base in found:
        if base.inputs():
            forms.setdefault(base.words[: 2 if base.words[0] == "run" else 1], []).append(base)
    return [forms[form] for form in sorted(forms)]


def others(base: Base) -> List[Base]:
    """Other commands over the files of a call."""
    if base.words[0] == "check":
        return [Base(("expand", *base.words[1:]), base.files)]
    if base.words[:2] == ("run", "whole"):
        files = base.words[2:5]
        return [Base((*verb.split(), *files[:count]), base.files) for verb, count in (("layout", 2), ("drive", 3), ("run pipe", 3))]
    return []


def change_tokens(draw: random.Random, tokens: List[bytes], words: List[bytes]) -> None:
    """Changes one or a few tokens in place."""
    solid = [k for k, token in enumerate(tokens) if not token.isspace()]
    if not solid:
        return
    at, other = draw.choice(solid), draw.choice(solid)
    alike = [k for k in solid if kind(tokens[k]) == kind(tokens[at])]
    how = draw.randrange(18)
    if how < 4:
        other = draw.choice(alike)
        tokens[at], tokens[other] = tokens[other], tokens[at]
    elif how < 7:
        tokens[at] = tokens[draw.choice(alike)]
    elif how < 10:
        tokens[at] = draw.choice([word for word in words if kind(word) == kind(tokens[at])] or words)
    elif how < 11:
        tokens[at] = draw.choice(words)
    elif how < 12:
        tokens[at] = b""
    elif how < 13:
        tokens[at] = tokens[at] + b" " + tokens[at]
    elif how < 14:
        tokens[at], tokens[other] = tokens[other], tokens[at]
    elif how < 16:
        tokens[at] += draw.choice(STEPS)
    elif how < 17 and any(token.isspace() for token in tokens):
        tokens[draw.choice([k for k, token in enumerate(tokens) if token.isspace()])] = draw.choice(BLANKS)
    else:
        moved = b"".join(tokens[at : at + 12])
        tokens[at : at + 12] = [b""] * len(tokens[at : at + 12])
        tokens[other] += moved


def kind(token: bytes) -> int:
    """A number, a name or a text, an operator, or another sign."""
    if token[:1].isdigit():
        return 1
    if token[:1].isalpha() or token[:1] in (b"_", b'"'):
        return 2
    return 3 if re.fullmatch(rb"[-+&^~!<>]|==|!=|<=|>=|&&|[|][|]|[|][-+][|]", token) else 4


def change_bytes(draw: random.Random, text: bytes) -> bytes:
    """One byte put in, replaced or moved, or a run of bytes cut or doubled."""
    at, size = draw.randrange(len(text) + 1), draw.randrange(1, 9 if draw.randrange(3) else 200)
    byte = bytes([draw.randrange(256)])
    how = draw.randrange(6)
    if how == 0:
        return text[:at] + byte + text[at + 1 :]
    if how == 1:
        return text[:at] + byte + text[at:]
    if how == 2:
        return text[:at] + text[at + size :]
    if how == 3:
        return text[:at]
    if how == 4:
        return text[: at + size] + text[at:]
    return text[:at] + text[draw.randrange(len(text) + 1) :][:1] + text[at + 1 :]


def mutated(draw: random.Random, text: bytes, words: List[bytes]) -> bytes:
    """Mostly one change of tokens; in a quarter of the texts changes of bytes behind them, or alone."""
    how = draw.randrange(8)
    if how < 7:
        tokens = TOKEN.findall(text)
        for _ in range(1 if draw.randrange(4) else 1 + draw.randrange(4)):
            change_tokens(draw, tokens, words)
        text = b"".join(tokens)
    if how > 5:
        for _ in range(1 + draw.randrange(3)):
            text = change_bytes(draw, text)
    return text
