"""Functions over a width, written out before the tree is read (docs/LANGUAGE.md, Functions over a width)."""
import re
from dataclasses import dataclass, field
from typing import List, Optional, Set, Tuple

from .lexer import Token, depth_behind
from .refusals import Fault, Refused

MOST_BYTES = 8388608


@dataclass
class Template:
    """A function over a width: the tokens of its `fun`, of its name and behind it, its name for the width, and the used widths."""
    first: int
    name: int
    end: int
    width: str
    used: Set[int] = field(default_factory=set)


@dataclass
class Expanded:
    """An expanded text, and for each piece of it where the piece begins in it and in the file."""
    text: str
    pieces: List[Tuple[int, int]]


def is_text(tokens: List[Token], at: int, *texts: str) -> bool:
    """Whether these are the tokens from here on; '' is any name."""
    here = tokens[at:at + len(texts)]
    return len(here) == len(texts) and all(t.kind == 'name' if text == '' else t.text == text for t, text in zip(here, texts))


def template_at(tokens: List[Token], first: int) -> Template:
    """It extends to the `}` that closes its first `{`; its name is the first name before that `{` that is followed by `(`."""
    name = braces = 0
    for at in range(first + 4, len(tokens)):
        if name == 0 and is_text(tokens, at, '', '('):
            name = at
        if tokens[at].text == '{' and name == 0:
            break
        if tokens[at].text == '{' or tokens[at].text == '}' and braces > 0:
            braces += 1 if tokens[at].text == '{' else -1
            if braces == 0:
                return Template(first, name, at + 1, tokens[first + 2].text)
    raise Refused(13, f'sizes: broken at token {first + 1}', Fault('template', tokens[first].at))


def templates_of(tokens: List[Token]) -> List[Template]:
    """`fun <<w>>`, outside all brackets, begins a function over a width; two of them have two names."""
    found: List[Template] = []
    brackets = 0
    for at, token in enumerate(tokens):
        if brackets == 0 and (not found or at >= found[-1].end) and is_text(tokens, at, 'fun', '<<', '', '>>'):
            found.append(template_at(tokens, at))
        brackets = depth_behind(brackets, token)
    names: Set[str] = set()
    for name in (tokens[t.name] for t in found):
        if name.text in names:
            raise Refused(13, f'sizes: {name.text} twice', Fault('two templates', name.at, name.text))
        names.add(name.text)
    return found


class Writer:
    """Writes the expanded text. `of` and `value` are the template of the tokens at hand and its width; outside there is none."""

    def __init__(self, text: str, tokens: List[Token], templates: List[Template]) -> None:
        self.text, self.tokens = text, tokens
        self.templates = {tokens[t.name].text: t for t in templates}
        runs = [len(run) for t in tokens if t.kind == 'name' for run in re.findall('_+', t.text)]
        self.line = '_' * (1 + max(runs, default=0))
        self.out: List[str] = []
        self.pieces: List[Tuple[int, int]] = []
        self.size = 0

    def use_at(self, at: int, of: Optional[Template], value: int) -> Optional[Tuple[Template, int]]:
        """Returns the template and the width of a use here, which is a name, `<<`, a number or the name of the width, `>>` and `(`."""
        if not is_text(self.tokens, at, '', '<<') or not is_text(self.tokens, at + 3, '>>', '('):
            return None
        template, width = self.templates.get(self.tokens[at].text), self.tokens[at + 2]
        if template is None or width.kind != 'number' and (of is None or width.text != of.width):
            return None
        return template, width.value if width.kind == 'number' else value

    def find_used(self, first: int, end: int, of: Optional[Template] = None, value: int = 0) -> None:
        """A use counts if it is outside all templates, or in one at a width that is used itself."""
        waiting = [(first, end, of, value)]
        while waiting:
            first, end, of, value = waiting.pop()
            for use in (self.use_at(at, of, value) for at in range(first, end)):
                if use is not None and use[1] not in use[0].used:
                    use[0].used.add(use[1])
                    waiting.append((use[0].first + 4, use[0].end, *use))

    def put(self, piece: str, source: int) -> None:
        """Adds a piece to the text, with the place in the file that it comes from."""
        self.pieces.append((self.size, source))
        self.out.append(piece)
        self.size += len(piece)
        if self.size > MOST_BYTES:
            raise Refused(13, 'sizes: too long', Fault('too long', source, MOST_BYTES))

    def put_before(self, token: Token) -> None:
        """Adds the blanks and comments before a token, which stay."""
        self.put(self.text[token.before:token.at], token.before)

    def copy(self, first: int, end: int, of: Optional[Template] = None, value: int = 0) -> None:
        """Adds tokens; the width replaces its name in each `<<w>>`, and a use and the name of an instance become its new name."""
        at = first
        while at < end:
            token = self.tokens[at]
            self.put_before(token)
            use, piece, count = self.use_at(at, of, value), token.text, 1
            if of is not None and at == of.name:
                piece = f'{piece}{self.line}{value}'
            elif use is not None:
                piece, count = f'{piece}{self.line}{use[1]}(', 5
            elif of is not None and is_text(self.tokens, at, '<<', of.width, '>>'):
                piece, count = f'<<{value}>>', 3
            self.put(piece, token.at)
            at += count


def expand(text: str, tokens: List[Token]) -> Expanded:
    """The functions at the used widths replace the original, by rising width; one that is not used is dropped."""
    templates = templates_of(tokens)
    if not templates:
        return Expanded(text, [(0, 0)])
    made = Writer(text, tokens, templates)
    outside = list(zip([0] + [t.end for t in templates], [t.first for t in templates] + [len(tokens)]))
    for first, end in outside:
        made.find_used(first, end)
    for t, (first, end) in zip(templates, outside):
        made.copy(first, end)
        made.put_before(tokens[t.first])
        at = tokens[t.first].at
        for number, value in enumerate(sorted(t.used)):
            made.put('\n' if number > 0 else '', at)
            made.put('fun ', at)
            made.copy(t.first + 4, t.end, t, value)
        if not t.used:
            made.put('\n', at)
    made.copy(*outside[-1])
    return Expanded(''.join(made.out), made.pieces)
