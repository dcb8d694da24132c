"""Where the line of a refusal points in a program: the place of a byte, of a token or of a declaration (docs/ERRORS.md)."""
import re
from dataclasses import dataclass
from typing import List, NoReturn, Optional

from ..errors import Error
from ..model.lexer import Token, end_of, scan
from ..model.parser import Parser, declarations
from ..model.refusals import Refused
from ..streams import printable
from .places import place_in

BYTE = re.compile(r"(.*?)\b(byte|token) ([0-9]{1,19})")
DECLARATION = re.compile(r"(types|order): declaration ([0-9]{1,9}) line ([0-9]{1,9})( limit [a-z ]+| cycle (.+))?")
LINES = 40  # of a declaration that is shown


def is_refusal(line: str) -> bool:
    """Whether a line has a form that points to a place."""
    return bool(BYTE.fullmatch(line) or DECLARATION.fullmatch(line))


@dataclass
class Program:
    """A program text with its tokens; `stop` is the first byte at which none begins."""

    name: str
    data: bytes

    def __post_init__(self) -> None:
        text = self.data.decode("latin-1")
        self.tokens, self.stop = scan(text)
        self.ended: List[Token] = [*self.tokens, end_of(text, self.tokens)]

    def fail(self, why: str) -> NoReturn:
        """Refuses a line that is none of this text."""
        raise Error(f"{self.name}: {why}")

    def expect_expanded(self) -> None:
        """Refuses a text with functions over a width: there a refusal counts in the output of `expand`."""
        if any(one.text == "fun" and two.text == "<<" for one, two in zip(self.tokens, self.tokens[1:])):
            self.fail("it has functions over a width; the refusal is of what `lucid expand` prints")

    def token(self, number: int) -> int:
        """Returns the byte of token `number`, counted from 1."""
        if not 1 <= number <= len(self.tokens):
            if self.stop is not None:
                self.fail(f"no token begins at byte {self.stop}; tokens before it: {len(self.tokens)}")
            self.fail(f"it has {len(self.tokens)} tokens")
        return self.tokens[number - 1].at

    def declaration(self, number: int, line: int) -> List[int]:
        """Returns the index of the first token of declaration `number`, which begins on a line, and of the one after its last."""
        bounds = declarations(self.ended)
        if not 1 <= number < len(bounds):
            self.fail(f"it has {len(bounds) - 1} declarations up to the first that is broken")
        begins = self.data.count(b"\n", 0, self.tokens[bounds[number - 1]].at) + 1
        if begins != line:
            self.fail(f"declaration {number} begins on line {begins}; the refusal is of another text")
        return bounds[number - 1:number + 1]

    def show(self, at: int) -> List[str]:
        """Returns the place of a byte, its line, and a mark below the byte."""
        place = place_in(self.name, self.data, at)
        return [place.head(), *place.shown()]

    def show_token(self, number: int, is_syntax: bool) -> List[str]:
        """Shows token `number`, and of a `syntax:` line the first token with which its declaration does not go on."""
        if is_syntax:
            self.expect_expanded()
        lines = self.show(self.token(number))
        parser = Parser(self.ended)
        parser.first = parser.here = number - 1
        try:
            parser.decl(1)
        except (Refused, RecursionError):
            stop = parser.here
            if is_syntax and stop == len(self.tokens):
                return [*lines, "the text ends before this declaration does"]
            if is_syntax and stop > number - 1:
                return [*lines, "it stops being a declaration at", *self.show(self.tokens[stop].at)]
        return lines

    def show_declaration(self, number: int, line: int, names: List[str]) -> List[str]:
        """Shows a declaration with the numbers of its lines; of a cycle also where its arrays are declared and named."""
        self.expect_expanded()
        first, after = self.declaration(number, line)
        last = self.data.count(b"\n", 0, self.tokens[after - 1].at) + 1
        lines = self.data.split(b"\n")[line - 1:last]
        width = len(str(last))
        found = [place_in(self.name, self.data, self.tokens[first].at).head()]
        for at, text in enumerate(lines[:LINES], line):
            found.append(f"{at:>{width}} | {printable(text.rstrip(bytes([13])).decode('utf-8', 'replace'))[:200]}".rstrip())
        found += [f"and {len(lines) - LINES} lines more"] if len(lines) > LINES else []
        for name in dict.fromkeys(names):
            found += self.show_array(name, first, after)
        return found

    def show_array(self, name: str, first: int, after: int) -> List[str]:
        """Shows where the last array of a name before a declaration is declared, and each place at which the declaration names it."""
        found: List[str] = []
        declared = [at for at in range(1, first - 1) if [token.text for token in self.tokens[at - 1:at + 2]] == [">>", name, "="]]
        for at in declared[-1:]:
            found += [f"{name} is declared at", *self.show(self.tokens[at].at)]
        for token in self.tokens[first:after]:
            if token.text == name and token.kind == "name":
                found += [f"{name} is named at", *self.show(token.at)]
        return found


def show_refusal(name: str, data: bytes, line: str) -> List[str]:
    """Returns the lines that show where a refusal points. Raises Error if the text has no such place."""
    program = Program(name, data)
    place, declared = BYTE.fullmatch(line), DECLARATION.fullmatch(line)
    if place and place[2] == "token":
        return program.show_token(int(place[3]), place[1].strip() == "syntax:")
    if place:
        if int(place[3]) >= len(data):
            program.fail(f"it has {len(data)} bytes")
        return program.show(int(place[3]))
    if not declared:
        raise Error(f"{line}: it points to no place")
    return program.show_declaration(int(declared[2]), int(declared[3]), (declared[5] or "").split())


def find(data: bytes, line: str) -> Optional[int]:
    """Returns the byte of a program to which the line of a refusal points, or None if it points to none. Raises Error for another text."""
    place, declared = BYTE.fullmatch(line), DECLARATION.fullmatch(line)
    if place and place[2] == "byte":
        return int(place[3])
    program = Program("the program", data)
    if place:
        return program.token(int(place[3]))
    return program.tokens[program.declaration(int(declared[2]), int(declared[3]))[0]].at if declared else None
