"""Writes a program in one style. No token changes, each comment stays where it is, and a formatted program stays as it is.

A declaration, a statement and a case begin a line each, two blanks deeper for each block. A block stays on one line if it was written so and
the line has at most 140 characters; the blocks of one `if` all stay, or none does. Longer lines break between words. Of several empty lines
one is left, and none at the ends of a block.
"""
import re
from dataclasses import dataclass, field
from typing import Iterator, List, Optional, Tuple, Union

from .errors import Error
from .explain import explanation_of
from .explain.places import Sources
from .model.answers import MOST_BYTES, Answer, Call, Program
from .model.lexer import lex
from .model.parser import parse
from .model.refusals import Refused
from .streams import Source

WIDTH, STEP, DEEPER = 140, "  ", "    "
COMMENT = re.compile(r"//[^\n]*|/\*.*?\*/", re.DOTALL)
ENDS_OPERAND = ("true", "false", "SELF", ")")


@dataclass
class Piece:
    """A token or a comment: whether a blank stands before it, and how many line feeds."""

    text: str
    kind: str
    breaks: int
    gap: str = " "

    @property
    def is_comment(self) -> bool:
        return self.kind in ("line", "block")


@dataclass
class Block:
    """Statements in braces, and the comments behind the opening one."""

    open: Piece
    behind: List[Piece] = field(default_factory=list)
    body: List["Line"] = field(default_factory=list)
    close: Optional[Piece] = None

    def pieces(self) -> Iterator[Piece]:
        """The pieces behind the opening brace."""
        yield from self.behind
        for line in self.body:
            for part in [*line.parts, *line.behind]:
                yield from [part.open, *part.pieces()] if isinstance(part, Block) else [part]
        yield from [self.close] if self.close else []

    def is_flat(self) -> bool:
        """Whether it was written on one line, and may stay there."""
        return all(piece.breaks == 0 and piece.kind != "line" and piece.text != "match" and "\n" not in piece.text for piece in self.pieces())


@dataclass
class Line:
    """A declaration, a statement, the first line of a `match`, a case, or a comment; and the comments behind it."""

    parts: List[Union[Piece, Block]] = field(default_factory=list)
    behind: List[Piece] = field(default_factory=list)

    def breaks(self) -> int:
        """The line feeds before it."""
        first = self.parts[0]
        return first.open.breaks if isinstance(first, Block) else first.breaks


def gaps(tokens: List[Piece]) -> Iterator[str]:
    """What stands before each token that does not begin a line."""
    closes: List[Tuple[int, str]] = []  # the widths that are open: where each ends, and what stands behind it
    is_operand, before, casts = False, "", 0
    for at, token in enumerate(tokens):
        text, following = token.text, [one.text for one in tokens[at + 1:at + 4]]
        is_width = text == "<<" and following[1:2] == [">>"] and (before in ("int", "hash", "fun", "Array", "t") or before == "name" and following[2:3] == ["("])
        is_prefix = text in ("-", "~", "!") and not is_operand
        is_glued = before in ("", "(", ".", "prefix", "width") or text in (")", ",", ";", ".")
        if is_width:
            is_glued = before != "fun"
            closes.append((at + 2, "close"))
        closed = bool(closes) and closes[-1][0] == at
        is_glued = is_glued or closed or text == "(" and before in ("printf", "close", "name")
        yield "" if is_glued else " "
        if text == "(" and following[:1] == ["int"]:
            casts = at + (5 if following[1:2] == ["<<"] else 2)
        is_cast = text == ")" and at == casts > 0
        is_operand = token.kind in ("name", "number", "text") or text in ENDS_OPERAND and not is_cast
        before = "prefix" if is_prefix else "width" if is_width else "t" if text == "t" and before == "." else "name" if token.kind == "name" else text
        if closed:
            before = closes.pop()[1]


def pieces_of(text: str) -> List[Piece]:
    """Returns the tokens and the comments of a text. Raises Refused where no token begins."""
    found: List[Piece] = []
    for token in lex(text):
        at = token.before
        for comment in COMMENT.finditer(text, token.before, token.at):
            kind = "line" if comment.group().startswith("//") else "block"
            found.append(Piece(comment.group().rstrip(" \t\r"), kind, text.count("\n", at, comment.start())))
            at = comment.end()
        found.append(Piece(token.text, token.kind, text.count("\n", at, token.at)))
    return found


def space(pieces: List[Piece]) -> None:
    """Sets what stands before each piece that does not begin a line: a blank, or nothing."""
    tokens = [piece for piece in pieces if not piece.is_comment]
    for piece, gap in zip(tokens, gaps(tokens)):
        piece.gap = gap
    for before, piece in zip(pieces, pieces[1:]):
        if before.kind == "block" and not piece.is_comment and piece.text not in (")", ",", ";"):
            piece.gap = " "


class Reader:
    """Reads the lines of a text from its pieces. It takes any pieces, so that a function over a width that is never used is one text more."""

    def __init__(self, pieces: List[Piece]) -> None:
        self.pieces, self.here = pieces, 0

    @property
    def piece(self) -> Piece:
        """The next piece."""
        return self.pieces[self.here]

    def take(self) -> Piece:
        """Takes the next piece."""
        self.here += 1
        return self.pieces[self.here - 1]

    def is_last(self) -> bool:
        """Whether the next piece, a comment, is the last on its line."""
        following = self.pieces[self.here + 1]
        return self.piece.kind == "line" or following.breaks > 0 or following.kind == "end" or following.text == "}"

    def behind(self) -> List[Piece]:
        """Takes the comments that are behind what was taken, to the end of their line."""
        found: List[Piece] = []
        while self.piece.is_comment and self.piece.breaks == 0 and self.is_last():
            found.append(self.take())
        return found

    def lines(self, is_inner: bool) -> List[Line]:
        """Takes the lines of a block up to its closing brace, or those of the text."""
        found: List[Line] = []
        while self.piece.kind != "end" and not (is_inner and self.piece.text == "}"):
            found.append(self.line())
        return found

    def line(self) -> Line:
        """Takes a line: up to a `;`, a block that no `else` follows at once, or a `with`."""
        made = Line()
        if self.piece.is_comment and self.is_last():
            return Line([self.take()])
        while self.piece.kind != "end":
            before, piece = made.parts[-1] if made.parts else None, self.take()
            if piece.text == "{" and piece.kind == "sign" and isinstance(before, Piece) and before.text == "=":
                made.parts += self.listed(piece)
                continue
            made.parts.append(self.block(piece) if piece.text == "{" and piece.kind == "sign" else piece)
            if piece.text in (";", "with") or piece.text == "{" and self.piece.text != "else" or self.piece.text == "}":
                break
        made.behind = self.behind()
        return made

    def listed(self, piece: Piece) -> List[Piece]:
        """Takes the numbers of a group, with their braces."""
        found = [piece]
        while self.piece.kind != "end" and found[-1].text != "}":
            found.append(self.take())
        return found

    def block(self, open: Piece) -> Block:
        """Takes a block behind its opening brace."""
        made = Block(open, self.behind())
        made.body = self.lines(True)
        made.close = self.take() if self.piece.text == "}" else None
        return made


class Writer:
    """Writes lines."""

    def __init__(self) -> None:
        self.out: List[str] = []

    def block(self, lines: List[Line], indent: str) -> None:
        """Writes lines at an indent."""
        for number, line in enumerate(lines):
            if number > 0 and line.breaks() > 1:
                self.out.append("")
            self.line(line, indent)

    def line(self, line: Line, indent: str) -> None:
        """Writes a line, with its blocks on it if it fits."""
        blocks = [part for part in line.parts if isinstance(part, Block)]
        flat = words_of(line.parts) if blocks and all(block.is_flat() for block in blocks) and not any(
            isinstance(part, Piece) and part.kind == "line" for part in line.parts) else []
        if flat and len(indent) + len(" ".join(flat)) <= WIDTH:
            self.out.append(indent + " ".join(flat))
        else:
            self.broken(line, indent)
        self.trail(line.behind)

    def trail(self, comments: List[Piece]) -> None:
        """Adds comments to the last line."""
        for comment in comments:
            self.out[-1] += f"  {comment.text}"

    def broken(self, line: Line, indent: str) -> None:
        """Writes a line with its blocks on lines of their own."""
        held: List[Union[Piece, Block]] = []  # what is written next
        deeper = ""
        for part in line.parts:
            if isinstance(part, Block) and part.body + part.behind:
                self.wrapped([*words_of(held), "{"], indent, deeper)
                self.trail(part.behind)
                self.block(part.body, indent + STEP)
                held, deeper = [part.close] if part.close else [], ""
            elif isinstance(part, Piece) and part.kind == "line":
                if held and part.breaks == 0:
                    self.wrapped(words_of(held), indent, deeper)
                    self.trail([part])
                else:
                    self.wrapped(words_of(held), indent, deeper)
                    self.out.append(indent + (DEEPER if line.parts[0] is not part else "") + part.text)
                held, deeper = [], DEEPER
            else:
                held.append(part)
        self.wrapped(words_of(held), indent, deeper)

    def wrapped(self, words: List[str], indent: str, deeper: str) -> None:
        """Writes words, on more lines if one is too short."""
        while words:
            count, size = 1, len(indent) + len(deeper) + len(words[0])
            while count < len(words) and size + 1 + len(words[count]) <= WIDTH:
                size += 1 + len(words[count])
                count += 1
            self.out.append(indent + deeper + " ".join(words[:count]))
            words, deeper = words[count:], DEEPER


def words_of(parts: List[Union[Piece, Block]]) -> List[str]:
    """Returns the words of a line: what stands between two blanks. Blocks are on the line."""
    found: List[str] = []
    for part in parts:
        if isinstance(part, Block):
            found += ["{", *(comment.text for comment in part.behind)]
            for line in part.body:
                found += words_of([*line.parts, *line.behind])
            found.append("}")
        elif part.gap == " " or not found:
            found.append(part.text)
        else:
            found[-1] += part.text
    return found


def formatted(text: str) -> str:
    """Returns a text in the style. A text is a `str` with one character for each byte. Raises Refused where no token begins."""
    pieces = pieces_of(text)
    space(pieces)
    writer = Writer()
    writer.block(Reader(pieces).lines(False), "")
    made = "".join(f"{line}\n" for line in writer.out)
    if same(pieces, made):
        return made
    raise Error("the formatter would change a token or a comment")


def same(pieces: List[Piece], text: str) -> bool:
    """Whether a text has these tokens and comments."""
    return [(piece.kind, piece.text) for piece in pieces] == [(piece.kind, piece.text) for piece in pieces_of(text)]


def format_program(source: Source) -> bytes:
    """Returns a program in the style. Raises Error with the place if it is too long, or if it is no tree of the language."""
    if len(source.data) > MOST_BYTES["program"]:
        raise Error(f"too long: {source.name}")
    program = Program(source.data.decode("latin-1"))
    try:
        expanded = program.expand()
        parse(expanded, lex(expanded))
    except Refused as refused:
        answer = Answer(call=Call("check", {"program": source.name}, "", []), files={"program": source.data}, program=program)
        found = explanation_of(Sources(answer), refused)
        raise Error(f"{found.place.head()}: {found.words.problem}" if found.place else found.refusal) from None
    return formatted(program.text).encode("latin-1")
