"""The names of a program text: where each is declared, where it is visible, and what uses it. Made from tokens, so that a broken text has names."""
from bisect import bisect_left, bisect_right
from dataclasses import dataclass, field
from typing import Dict, List, Optional, Tuple

from ..model.lexer import RESERVED, Token, scan

DECLARES = ("const", "global", "memop", "event", "handle", "fun", "group")
# What may stand behind a word and a `.`, and what each form does.
MEMBERS = {
    "Array": {"get": "get(array, index): the number of a cell", "set": "set(array, index, number): stores a number",
              "getm": "getm(array, index, memop, number): what the memop makes of a cell",
              "setm": "setm(array, index, memop, number): stores what the memop makes of a cell",
              "update": "update(array, index, memop, number, memop, number): the first memop makes the answer, the second what is stored",
              "create": "create(cells): only in a declaration of an array"},
    "Event": {"delay": "delay(event, ticks): sends an event later", "locate": "locate(event, switch or group): sends an event to others"},
    "Sys": {"time": "time(): the low 32 bits of the tick"},
}
FORMS = {"SELF": "the number of this switch, an int", "Sys": "Sys.time(): the low 32 bits of the tick, an int",
         "hash": "hash<<w>>(int, ..): a hash of w bits; take the high bits of hash<<32>> as an index", "Array": "Array.get, set, getm, setm or update",
         "Event": "Event.delay or Event.locate, around an event that is sent", "generate": "generate event(..); sends an event",
         "match": "match e with | 1 -> { .. } | _ -> { .. }", "printf": "printf(\"..%d..\", int); prints a line of the log"}


@dataclass
class Symbol:
    """A declared name: its kind, what is said of it, its place, its declaration, and where it is visible; all in bytes."""

    name: str
    kind: str
    type: str
    at: int
    begin: int
    end: int
    visible: Tuple[int, int]
    uses: List[int] = field(default_factory=list)

    def bits(self) -> Optional[int]:
        """The bits of a value or of a cell; None of what has none, or of a width that is a name."""
        if self.type == "bool":
            return 1
        inner = self.type.partition("<<")[2].partition(">>")[0]
        return int(inner) if inner.isdigit() else 32 if self.type == "int" else None


class Names:
    """The names of a text. A text is a `str` with one character for each byte."""

    def __init__(self, text: str) -> None:
        self.text = text
        self.tokens: List[Token] = scan(text)[0]
        self.symbols: List[Symbol] = []
        self.by_name: Dict[str, List[Symbol]] = {}
        self.handlers: Dict[int, List[int]] = {}  # the handlers of the event that is declared at a place
        at = 0
        while at < len(self.tokens):
            at = self.declaration(at)
        for symbol in self.symbols:
            self.by_name.setdefault(symbol.name, []).append(symbol)
        own = {symbol.at for symbol in self.symbols}
        for number, token in enumerate(self.tokens):
            found = self.meaning(number) if token.kind == "name" and token.at not in own else None
            if found is not None:
                found.uses.append(token.at)
                if number > 0 and self.tokens[number - 1].text == "handle":
                    self.handlers.setdefault(found.at, []).append(token.at)

    def meaning(self, number: int) -> Optional[Symbol]:
        """Returns what a token that is a name means, if that is declared."""
        token = self.tokens[number]
        if number > 0 and self.tokens[number - 1].text == ".":
            return None
        return self.visible(token.text, token.at)

    def visible(self, name: str, at: int) -> Optional[Symbol]:
        """Returns what a name means at a place: what was declared last of what is visible, or else the first of that name."""
        named = self.by_name.get(name, [])
        found = [one for one in named if one.visible[0] <= at < one.visible[1]]
        everywhere = [one for one in named if one.visible[1] > len(self.text)]
        return max(found, key=lambda one: one.visible[0]) if found else everywhere[0] if everywhere else None

    def token_at(self, at: int) -> Optional[int]:
        """Returns the number of the token at a place, or that ends there."""
        count = bisect_right([token.at for token in self.tokens], at)
        near = [(number, token) for number in (count - 1, count - 2) if number >= 0 for token in [self.tokens[number]] if at <= token.at + len(token.text)]
        words = [number for number, token in near if token.kind in ("name", "word", "number")]
        return words[0] if words else near[0][0] if near and at < near[0][1].at + len(near[0][1].text) else None

    def symbol_at(self, at: int) -> Optional[Symbol]:
        """Returns the symbol whose name is at a place, where it is declared or used."""
        number = self.token_at(at)
        if number is None or self.tokens[number].kind != "name":
            return None
        own = [one for one in self.symbols if one.at == self.tokens[number].at]
        return own[0] if own else self.meaning(number)

    # ---- declarations

    def declaration(self, first: int) -> int:
        """Reads a declaration, and returns the token behind it: behind a `;` or a `}` outside all braces, or the next first word of one."""
        tokens, end, depth = self.tokens, first + 1, 0
        while end < len(tokens) and tokens[end].text not in DECLARES:
            depth += (tokens[end].text == "{") - (tokens[end].text == "}")
            end += 1
            if depth <= 0 and tokens[end - 1].text in (";", "}") and (end == len(tokens) or tokens[end].text != ";"):
                break
        if tokens[first].text in DECLARES:
            self.declared(first, end)
        return end

    def declared(self, first: int, end: int) -> None:
        """Adds the names of a declaration: its own, its parameters and its locals."""
        kind, tokens = self.tokens[first].text, self.tokens
        stop = tokens[end - 1].at + len(tokens[end - 1].text)
        begin = first + 1
        signs = ("(",) if kind in ("memop", "event", "handle", "fun") else ("=", ";")
        name = next((at for at in range(first + 1, end) if tokens[at].kind == "name" and tokens[at - 1].text != "."
                     and at + 1 < len(tokens) and tokens[at + 1].text in signs), None)
        if kind == "fun" and first + 2 < end and tokens[first + 1].text == "<<" and tokens[first + 2].kind == "name":
            self.add("width", "", first + 2, first, end, (tokens[first].at, stop))
            begin += 3
        if name is None:
            return
        if kind != "handle":
            self.add(kind, self.between(begin, name), name, first, end, (tokens[name].at, len(self.text) + 1))
        if kind in ("memop", "event", "handle", "fun"):
            self.locals(name + 1, end, stop)

    def add(self, kind: str, type: str, name: int, first: int, end: int, visible: Tuple[int, int]) -> None:
        """Adds a symbol that is declared by these tokens."""
        token, last = self.tokens[name], self.tokens[end - 1]
        self.symbols.append(Symbol(token.text, kind, type, token.at, self.tokens[first].at, last.at + len(last.text), visible))

    def between(self, first: int, end: int) -> str:
        """Returns the text of tokens, without blanks but between words."""
        found = ""
        for token in self.tokens[first:end]:
            found += " " if found and found[-1].isalnum() and token.text[0].isalnum() else ""
            found += token.text
        return found

    def locals(self, first: int, end: int, stop: int) -> None:
        """Adds the parameters and locals of a declaration, each visible up to the end of its block."""
        tokens = self.tokens
        open: List[List[Symbol]] = [[]]  # those of each open block
        for at in range(first, end - 1):
            token, type_at, following = tokens[at], self.type_before(at), tokens[at + 1].text
            if token.text == "{":
                open.append([])
            elif token.text == "}" and len(open) > 1:
                for symbol in open.pop():
                    symbol.visible = symbol.visible[0], token.at
            elif token.kind == "name" and type_at is not None and following == "=":
                begin = next((tokens[k].at for k in range(at, end) if tokens[k].text == ";"), stop)
                self.add("local", self.between(type_at, at), at, type_at, at + 1, (begin, stop))
                open[-1].append(self.symbols[-1])
            elif token.kind == "name" and type_at is not None and following in (",", ")") and len(open) == 1:
                self.add("parameter", self.between(type_at, at), at, type_at, at + 1, (token.at, stop))

    def type_before(self, at: int) -> Optional[int]:
        """Returns the first token of the type that ends before a token, if one does."""
        words = [token.text for token in self.tokens[max(0, at - 6):at]][::-1]
        if words[:1] in (["int"], ["bool"]):
            return at - 1
        if words[:1] == [">>"] and words[2:3] == ["<<"]:
            return at - 4 if words[3:4] in (["int"], ["Array"]) else at - 6 if words[3:6] == ["t", ".", "Array"] else None
        return None

    # ---- what an editor shows

    def offered(self, at: int) -> List[Tuple[str, str, str]]:
        """Returns the words that may stand at a place: each with its kind and what it is."""
        count = bisect_left([token.at for token in self.tokens], at)
        before = self.tokens[max(0, count - 3):count]
        if before and before[-1].kind in ("name", "word") and before[-1].at + len(before[-1].text) >= at:  # what is being typed
            before = before[:-1]
        if before and before[-1].text == ".":
            return [(name, "member", text) for name, text in MEMBERS.get(before[-2].text if len(before) > 1 else "", {}).items()]
        found = {one.name: one for one in sorted(self.symbols, key=lambda one: one.visible[0]) if one.visible[0] <= at < one.visible[1]}
        return [(one.name, one.kind, self.head(one)) for one in found.values()] + [(word, "word", FORMS.get(word, "")) for word in RESERVED]

    def head(self, symbol: Symbol) -> str:
        """The declaration of a symbol, up to its body."""
        text = self.text[symbol.begin:symbol.end]
        return " ".join(text.partition("{")[0].split() if symbol.kind != "group" else text.split())


def is_name(word: str) -> bool:
    """Whether a word may be the name of something."""
    tokens, stop = scan(word)
    return stop is None and len(tokens) == 1 and tokens[0].kind == "name" and tokens[0].text == word
