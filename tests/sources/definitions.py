"""A page of definitions, a file of specs/: its imports, and the lines of each definition. A form that is not known is noted."""
from __future__ import annotations

import re
from dataclasses import dataclass, field
from pathlib import Path
from typing import Dict, List, NamedTuple, Optional, Set

from .notes import Notes
from .terms import NAME, Scope, lines_without_strings

MARKS = r"(?:(?:abbrev|unfoldable|pub) )*"
OPENED = re.compile(rf"{MARKS}(?:record|data) ({NAME})(?: |$)")
TYPED = re.compile(rf"({MARKS})({NAME})(?: \{{[^{{}}]*\}})? :(?: |$)")
MEMBER = re.compile(rf"(?:pub )?({NAME}(?: {NAME})*) :(?: |$)")
FIXITY = re.compile(rf"infix[lr]? \d+ ({NAME})")


class Line(NamedTuple):
    number: int
    indent: int
    text: str


@dataclass
class Page:
    """The definitions of a file by name: their lines without comments, and which of them a constructor or field belongs to."""

    path: Path
    module: str
    head: str = ""
    scope: Scope = field(default_factory=Scope)
    blocks: Dict[str, List[str]] = field(default_factory=dict)
    fixities: Dict[str, str] = field(default_factory=dict)  # how an operator of the page binds
    places: Dict[str, int] = field(default_factory=dict)  # the line where a definition begins
    made_by: Dict[str, Set[str]] = field(default_factory=dict)  # a constructor: the types that have it
    fields: Dict[str, Set[str]] = field(default_factory=dict)

    @property
    def lines(self) -> int:
        return sum(map(len, self.blocks.values()))


def comment_at_head(text: str, mark: str) -> str:
    """Returns the comment at the head of a file as one line."""
    lines = []
    for line in text.split("\n"):
        if not line.startswith(mark):
            break
        lines.append(line[len(mark):].strip())
    return " ".join(lines)


def read_page(path: Path, module: str, notes: Notes) -> Page:
    """Reads a page of definitions."""
    text = path.read_text(encoding="utf-8")
    page = Page(path, module, comment_at_head(text, "--"))
    lines = []
    for number, line in enumerate(text.split("\n"), 1):
        bare = line.strip()
        if not bare or bare.startswith("--"):
            continue
        plain = lines_without_strings(line)
        if "{-" in plain or "-}" in plain:
            notes.refuse(path, number, "a block comment", bare)
        elif re.search(r"(?:^|\s)--", plain):
            notes.refuse(path, number, "a comment behind a text", bare)
        elif "\t" in line:
            notes.refuse(path, number, "a tabulator", bare)
        lines.append(Line(number, len(line) - len(line.lstrip(" ")), bare))
    _Reader(page, notes).read(lines, 0)
    return page


def _is_open(lines: List[str]) -> bool:
    """Whether a bracket of these lines is still to be closed."""
    text = lines_without_strings("\n".join(lines))
    return text.count("{") > text.count("}")


class _Reader:
    """Reads the lines of a page, one definition after another."""

    def __init__(self, page: Page, notes: Notes) -> None:
        self.page, self.notes = page, notes
        self.block: Optional[str] = None
        self.kind = ""

    def read(self, lines: List[Line], level: int) -> None:
        at = 0
        while at < len(lines):
            end = at + 1
            while end < len(lines) and lines[end].indent > level:
                end += 1
            if lines[at].indent != level:
                self.refuse(lines[at], "a text at a place that is not known")
            elif re.fullmatch(r"(?:(?:abbrev|unfoldable) )*mutual", lines[at].text) and level == 0:
                self.block = None
                self.read(lines[at + 1:end], 2)
                self.block = None
            else:
                self.take(lines[at:end], level)
            at = end

    def refuse(self, line: Line, why: str) -> None:
        self.notes.refuse(self.page.path, line.number, why, line.text)

    def take(self, lines: List[Line], level: int) -> None:
        """Takes one item: an import, a fixity, a definition's head or one of its clauses."""
        first = lines[0]
        if re.match(r"(?:\w+ )*use\b", first.text):
            why = self.page.scope.take(first.text) if len(lines) == 1 and level == 0 else "an import over several lines, or in a block"
            if why:
                self.refuse(first, why)
            return
        fixity = FIXITY.fullmatch(first.text)
        if fixity and len(lines) == 1 and level == 0:
            self.page.fixities[fixity.group(1)] = first.text
            return
        opened, typed = OPENED.match(first.text), TYPED.match(first.text)
        if opened:
            self.begin(opened.group(1), first, "data" if " data " in f" {first.text.split(opened.group(1))[0]} " else "record")
            self.members(lines, level)
        elif typed:
            self.begin(typed.group(2), first, "")
        elif first.text == "}" and len(lines) == 1 and self.block and _is_open(self.page.blocks[self.block]):
            pass
        elif self.block is None or not self.continues(first.text):
            self.refuse(first, "a form that is not known")
            return
        self.page.blocks[self.block or ""] += [line.text for line in lines]

    def begin(self, name: str, line: Line, kind: str) -> None:
        if name in self.page.blocks:
            self.refuse(line, "a second definition of a name")
        self.block, self.kind = name, kind
        self.page.blocks.setdefault(name, [])
        self.page.places.setdefault(name, line.number)

    def continues(self, text: str) -> bool:
        """Whether a line is a clause of the definition that is being read, or says what its body unfolds."""
        name = self.block or ""
        if self.kind:
            return False
        if re.match(r"unfolding(?: |$)", text):
            return True
        if "◌" in name:
            signs = [part for part in name.split("◌") if part]
            left = re.split(r" = | =$", text)[0].split()
            return all(sign in left for sign in signs) or left[:1] == [name]
        return re.match(r"[^\s(){}.;,@\"«»]+", text).group(0) == name if re.match(NAME, text) else False

    def members(self, lines: List[Line], level: int) -> None:
        """Notes the constructors of a `data` and the fields of a `record`."""
        if not lines[-1].text.endswith("where") and not any(line.text.endswith(" where") for line in lines):
            self.refuse(lines[0], "a type without `where`")
        of = self.page.made_by if self.kind == "data" else self.page.fields
        for number, line in enumerate(lines[1:], 1):
            if line.indent != level + 2 or _is_open([before.text for before in lines[:number]]):
                continue
            member = MEMBER.match(line.text)
            if not member:
                self.refuse(line, "a field or constructor that is not known")
                continue
            for name in member.group(1).split():
                of.setdefault(name, set()).add(self.block or "")
