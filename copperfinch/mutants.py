"""Small breaks of a program, to find out what its tests notice: one change of a text at a time, by the tokens of docs/LANGUAGE.md.

    for it in mutants_of(text):
        print(it.line, it.kind, it.old, it.new)

Which of them are accepted and placed is for `lucid layout` to say.
"""
from dataclasses import dataclass
from typing import Dict, Iterator, List, Sequence, Tuple

from .errors import FormatError
from .model.lexer import Token, scan

SWAPS = {"==": ["!="], "!=": ["=="], "<": ["<=", ">="], ">": [">=", "<="], "<=": ["<", ">"], ">=": [">", "<"], "+": ["-"], "-": ["+"], "&": ["|"],
         "|": ["&"], "^": ["&"], "|+|": ["+"], "|-|": ["-"], "&&": ["||"], "||": ["&&"], "<<": [">>"], ">>": ["<<"]}
COMPARISONS = "==", "!=", "<", ">", "<=", ">="
DECLARATIONS = "const", "global", "memop", "event", "handle", "fun", "group"
CLOSING = {"(": ")", "{": "}"}


@dataclass(frozen=True)
class Mutant:
    """A changed program: the line and column of the change, from 1, its kind, the text that it replaces, the new one, and the program."""

    line: int
    column: int
    kind: str
    old: str
    new: str
    text: str

    def __str__(self) -> str:
        old, new = (" ".join(text.split()) or "nothing" for text in (self.old, self.new))
        return f"{self.line}:{self.column} {self.kind}: {old} -> {new}"


class Mutants:
    """The changes of a text, found by its tokens."""

    def __init__(self, text: str) -> None:
        self.text = text
        self.tokens, stop = scan(text)
        if stop is not None:
            raise FormatError(f"the program has no token at byte {stop}")
        self.words = [token.text for token in self.tokens]
        self.close = self.matches()
        self.starts = [at for at, word in enumerate(self.words) if word in DECLARATIONS and (at == 0 or self.words[at - 1] in (";", "}"))]
        # Names by what they can stand in for: arrays and memops by width, events by the types of their parameters.
        self.arrays: Dict[str, str] = {}
        self.memops: Dict[str, str] = {}
        self.events: Dict[str, str] = {}
        for start, end in self.ranges():
            self.declare(start, end)

    def matches(self) -> Dict[int, int]:
        """The closing bracket of each opening one."""
        found, opened = {}, []
        for at, word in enumerate(self.words):
            if word in CLOSING:
                opened.append(at)
            elif word in (")", "}") and opened:
                found[opened.pop()] = at
        return found

    def ranges(self) -> Iterator[Tuple[int, int]]:
        """The tokens of each declaration."""
        return zip(self.starts, [*self.starts[1:], len(self.words)])

    def declare(self, start: int, end: int) -> None:
        """Records what a declaration names."""
        words = self.words[start:end]
        if words[0] == "global" and "=" in words:
            at = words.index("=")
            self.arrays[words[at - 1]] = " ".join(words[1:at - 1])
        elif words[0] in ("memop", "event") and "(" in words:
            at = words.index("(")
            parts = self.parts(start + at)
            names = self.memops if words[0] == "memop" else self.events
            names[words[at - 1]] = ",".join(" ".join(self.words[first:last - 1]) for first, last in parts)

    def parts(self, opening: int) -> List[Tuple[int, int]]:
        """The tokens of each argument between an opening bracket and its closing one."""
        closing, found, first, at = self.close.get(opening, opening), [], opening + 1, opening + 1
        while at < closing:
            if self.words[at] == ",":
                found.append((first, at))
                first = at + 1
            at = self.close.get(at, at) + 1
        return found + [(first, closing)] if first < closing else found

    def of(self, first: int, last: int) -> str:
        """The text of tokens."""
        return self.text[self.tokens[first].at:self.end(last - 1)] if first < last else ""

    def end(self, at: int) -> int:
        """The byte behind a token."""
        return self.tokens[at].at + len(self.words[at])

    def change(self, kind: str, first: int, last: int, new: str) -> Mutant:
        """Replaces tokens by a text."""
        begin, end = self.tokens[first].at, self.end(last - 1)
        line = self.text.count("\n", 0, begin) + 1
        column = begin - self.text.rfind("\n", 0, begin)
        return Mutant(line, column, kind, self.text[begin:end], new, self.text[:begin] + new + self.text[end:])

    def all(self) -> Iterator[Mutant]:
        """All changes, declaration by declaration."""
        for start, end in self.ranges():
            kind = self.words[start]
            if kind == "const":
                yield from self.number(end - 2, "a constant")
            elif kind == "group":
                for first, last in self.parts(self.words.index("{", start)):
                    yield from self.number(first, "a member")
            elif kind in ("memop", "handle", "fun"):
                for at in range(self.words.index("{", start) if "{" in self.words[start:end] else end, end):
                    yield from self.at(at, start, kind)

    def at(self, at: int, start: int, kind: str) -> Iterator[Mutant]:
        """The changes that begin at a token of a body."""
        word, before = self.words[at], self.words[at - 1]
        if self.tokens[at].kind == "number" and not self.is_width(at):
            yield from self.number(at, "a number")
        elif word in SWAPS and not self.is_sign(at) and not self.is_angle(at) and self.words[at + 2] != "->":
            for new in SWAPS[word]:
                yield self.change("a comparison" if word in COMPARISONS else "an operator", at, at + 1, new)
        elif word == "if" and self.words[at + 1] == "(":
            for new in ("true", "false"):
                yield self.change("a condition", at + 2, self.close[at + 1], new)
        elif word == "generate" or before in (";", "{", "}") and (word == "Array" or word == "printf" or self.is_plain(at)):
            yield self.change("a statement", at, self.statement(at), "")
        if kind == "memop" and self.tokens[at].kind == "name":
            given = [self.words[last - 1] for _, last in self.parts(self.words.index("(", start))]
            yield from (self.change("a parameter", at, at + 1, name) for name in given if word in given and name != word)
        if word == "(":
            yield from self.arguments(at)
        if word == "Event" and self.words[at + 2] in ("locate", "delay"):
            yield from self.target(at)
        for names, what in ((self.arrays, "an array"), (self.memops, "a memop"), (self.events, "an event")):
            if word in names and self.words[at + 1] in ("(" if what == "an event" else ",",) and self.tokens[at].kind == "name":
                yield from (self.change(what, at, at + 1, name) for name in names if name != word and names[name] == names[word])

    def is_width(self, at: int) -> bool:
        """Whether a number is the width of a type."""
        return self.words[at - 1] == "<<" and self.is_angle(at - 1)

    def is_angle(self, at: int) -> bool:
        """Whether `<<` or `>>` encloses a width."""
        opening = at if self.words[at] == "<<" else at - 2
        return self.words[at] in ("<<", ">>") and self.words[opening] == "<<" and self.words[opening - 1] in ("int", "hash", "Array", "t", "fun")

    def is_sign(self, at: int) -> bool:
        """Whether `-` stands before its operand alone."""
        return self.words[at] == "-" and self.tokens[at - 1].kind not in ("name", "number") and self.words[at - 1] not in (")", "SELF")

    def is_plain(self, at: int) -> bool:
        """Whether a statement is an assignment or a call of a function."""
        return self.tokens[at].kind == "name" and self.words[at + 1] in ("=", "(")

    def statement(self, at: int) -> int:
        """The token behind a statement that ends with `;`."""
        while self.words[at] != ";":
            at = self.close.get(at, at) + 1
        return at + 1

    def number(self, at: int, kind: str) -> Iterator[Mutant]:
        """One more and one less."""
        if self.tokens[at].kind == "number":
            value = self.tokens[at].value
            yield from (self.change(kind, at, at + 1, str(new)) for new in (value + 1, value - 1) if new >= 0)

    def arguments(self, opening: int) -> Iterator[Mutant]:
        """Neighbouring arguments of a call of an event, a function or a hash, swapped."""
        before = self.words[opening - 1]
        if self.tokens[opening - 1].kind != "name" and before != ">>" or before in ("locate", "delay", "get", "set", "setm", "getm", "update"):
            return
        parts = self.parts(opening)
        for (first, middle), (second, last) in zip(parts, parts[1:]):
            one, two = self.of(first, middle), self.of(second, last)
            if one != two:
                yield self.change("arguments", first, last, f"{two}, {one}")

    def target(self, at: int) -> Iterator[Mutant]:
        """Another target, or none; no delay."""
        parts = self.parts(at + 3)
        if len(parts) != 2:
            return
        (first, middle), (second, last) = parts
        where = self.of(second, last)
        yield self.change(f"a {'target' if self.words[at + 2] == 'locate' else 'delay'} dropped", at, self.close[at + 3] + 1, self.of(first, middle))
        if self.words[at + 2] == "locate":
            yield self.change("a target", second, last, f"({where}) + 1")


def mutants_of(text: str) -> List[Mutant]:
    """Returns the changed programs, each text once. Raises FormatError for a text that has no tokens."""
    found: Dict[str, Mutant] = {}
    for it in Mutants(text).all():
        if it.text != text:
            found.setdefault(it.text, it)
    return list(found.values())


def lines_of(found: Sequence[Mutant]) -> str:
    """A line for each."""
    return "".join(f"{it}\n" for it in found)
