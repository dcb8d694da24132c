"""What else is wrong in a program that is refused: the text, the tree and the types are read on behind each refusal.

`Repaired` replaces what begins no token by other bytes of the same number, so that all places stay. `Recovering` reads a declaration on
behind a syntax error, at the next `;` or `}`. `Elaborating` types on behind a fault. A name whose declaration was refused is `UNSURE`: no
fault is reported where it is used. A type fault in a statement whose text was replaced is not reported either.
"""
from __future__ import annotations

import re
from bisect import bisect_left, bisect_right
from dataclasses import dataclass, field
from typing import Any, Callable, ChainMap, List, Optional, Set, Tuple

from ..model import core, tree
from ..model.declarations import Elaboration
from ..model.expand import Expanded, expand
from ..model.lexer import PIECE, Token, end_of, number_of, scan
from ..model.order import Order, Walk, Scheme
from ..model.core import ArrayName
from ..model.parser import Parser
from ..model.refusals import Fault, Refused
from ..model.statements import ALWAYS, NEVER, Statements, Steps
from ..model.types import LOGIC, Entry, Type, bits, value_type
from .published import is_published

UNSURE = 'unsure'
DECLARES = ('const', 'global', 'memop', 'event', 'handle', 'fun', 'group')
DECLARATION = re.compile(r'(handle|event|memop) \w+ \(|fun (int|bool|void|<<)|global Array|const (int|bool)|group \w+ =')
BEGINS = ('if', 'match', 'int', 'bool', 'return', 'generate', 'printf', 'Array', '}')  # of a statement, and the end of a block
NAME = re.compile(r'[A-Za-z_][A-Za-z0-9_]*')
# What is no token, with what replaces it. A line of `#`, a `@` with its name and brackets become blanks; a sign between operands becomes
# another one, so that the expression is read on.
REPAIRS = [re.compile(form, re.DOTALL) for form in (
    r'#[^\n]*', r'@\w*', r'\[[^\]\n;{}]*\]?', r"'\w*", r'/\*.*', r'"[^"\n]*"?', r'0x[0-9A-Fa-f]+|[0-9]+', r'[\x80-\xff]+', r'.')]


@dataclass
class Damage:
    """A part of the text that was replaced; where `is_typed`, what replaces it has the type that was meant."""

    start: int
    end: int
    is_typed: bool


def shape_of(piece: str) -> str:
    """Returns what replaces a piece that is no token."""
    if piece in ('*', '/', '%', '?', ':'):
        return '+'
    if piece[0].isdigit():
        return '0' * len(piece)
    if piece[0] == '"' and piece[-1] == '"' and len(piece) > 1:
        return '"' + '_' * (len(piece) - 2) + '"'
    return re.sub(r'[^\n]', ' ', piece)


class Repaired:
    """A text all of whose bytes are in tokens and blanks, what was replaced, and a refusal for each replaced part."""

    def __init__(self, text: str) -> None:
        self.damages: List[Damage] = []
        self.refusals: List[Refused] = []
        self.names: Set[str] = set()  # of definitions in replaced lines
        self.text, self.expanded = text, Expanded(text, [(0, 0)])
        done: List[str] = []
        begin = at = 0
        while at < len(text):
            token = PIECE.match(text, at)
            if token is not None and not (token.lastgroup == 'number' and number_of(token.group()) == 2 ** 64):
                at = token.end()
                continue
            piece = next(found for found in (form.match(text, at) for form in REPAIRS) if found).group()
            if piece[0] == '#':
                self.names.update(NAME.findall(piece))
            if piece != ':' or '?' not in re.split('[;{}]', text[max(0, at - 200):at])[-1]:
                self.refusals.append(Refused(4, f'syntax: byte {at}', Fault('no token', at, text)))
            self.damages.append(Damage(at, at + len(piece), piece in ('*', '/', '%')))
            done += [text[begin:at], shape_of(piece)]
            begin = at = at + len(piece)
        self.text = ''.join(done) + text[begin:]
        self.expand()

    def expand(self) -> None:
        """Expands functions over a width; one that cannot be read, or whose name was used, becomes blanks."""
        while True:
            tokens, _ = scan(self.text)
            try:
                self.expanded = expand(self.text, tokens)
                break
            except Refused as refused:
                self.refusals.append(refused)
                if not self.leave_out(tokens, refused):
                    self.expanded = Expanded(self.text, [(0, 0)])
                    break
        self.damages.sort(key=lambda d: d.start)
        self.starts = [d.start for d in self.damages]
        self.begins = [begin for begin, _ in self.expanded.pieces]

    def leave_out(self, tokens: List[Token], refused: Refused) -> bool:
        """Replaces the function over a width that is refused, and the width of each use of its name."""
        fault = refused.fault
        at = fault.at if fault is not None else None
        first = next((i for i, token in enumerate(tokens) if token.at == at), None)
        if first is None or refused.line == 'sizes: too long':
            return False
        begins = [i for i, token in enumerate(tokens) if token.text == 'fun' and i <= first]
        start = begins[-1] if begins else first
        end = next((i for i in range(start + 1, len(tokens)) if tokens[i].text in DECLARES and tokens[i - 1].text in ('}', ';')), None)
        stop = len(self.text) if end is None else tokens[end].at
        self.names.update(token.text for token in tokens[start:end] if token.kind == 'name')
        self.blank(tokens[start].at, stop)
        for i in range(len(tokens) - 4):
            if tokens[i].text in self.names and tokens[i + 1].text == '<<' and tokens[i + 3].text == '>>':
                self.blank(tokens[i + 1].at, tokens[i + 3].at + 2)
        return True

    def blank(self, start: int, end: int) -> None:
        """Replaces a part of the text by blanks."""
        self.text = self.text[:start] + re.sub(r'[^\n]', ' ', self.text[start:end]) + self.text[end:]
        self.damages.append(Damage(start, end, False))

    def place(self, at: int) -> int:
        """Returns the byte of the file at which a byte of the expanded text is."""
        begin, source = self.expanded.pieces[bisect_right(self.begins, at) - 1]
        return at - begin + source

    def is_hurt(self, start: int, end: int, typed: bool) -> bool:
        """Whether a part of the file was replaced, by what has another type or at all."""
        near = self.damages[max(0, bisect_left(self.starts, start) - 1):bisect_right(self.starts, end)]
        return any(start <= d.end and not (typed and d.is_typed) for d in near)


Broken = tree.form('Broken', 'names', 'blocks')  # a statement that is none: the names in it, and the blocks that could be read


@dataclass
class BrokenDecl(tree.Decl):
    """A declaration that is none: the names in it, and its body if that could be read."""

    names: List[str] = field(default_factory=list)


class Recovering(Parser):
    """Reads all declarations; `found` are the refusals, each with the place where its statement or declaration begins."""

    def __init__(self, text: str, tokens: List[Token]) -> None:
        super().__init__(tokens)
        self.text = text
        self.found: List[Tuple[Refused, int]] = []
        self.hurt: Set[int] = set()  # the places of declarations with a refusal
        self.places: Set[Any] = set()  # of refusals
        self.words: Set[str] = set()  # reserved words that were written as names
        self.is_nameless = False  # whether a declaration lacks its name
        self.stray = 0  # braces that were opened by what is no declaration
        self.was_hurt = False
        self.depth = 0  # of blocks
        self.extra: List[tree.Decl] = []

    def note(self, refused: Refused, start: int) -> None:
        """Keeps a refusal, once for each place."""
        token, wanted = self.token, refused.fault.values[1:] if refused.fault is not None else ()
        follows = token.text in self.words or self.is_behind and (token.text in (*BEGINS, '|', 'else') or self.starts_name())
        if token.at not in self.places and not follows:
            self.found.append((refused, self.tokens[start].at))
        self.places.add(token.at)
        if 'a name' in wanted and token.kind == 'word':
            self.words.add(token.text)
        self.is_nameless = self.is_nameless or 'a name' in wanted
        self.hurt.add(self.tokens[self.first].at)

    def starts_name(self) -> bool:
        """Whether the next tokens begin a statement by a name."""
        return self.token.kind == 'name' and self.tokens[self.here + 1].text in ('=', '(', '+', '-')

    @property
    def is_behind(self) -> bool:
        """Whether a declaration is to begin here, and the one before was refused."""
        return self.here == self.first and self.was_hurt

    def program(self, text: str) -> List[tree.Decl]:
        """Reads all declarations of the text."""
        decls: List[tree.Decl] = []
        line, seen = 1, 0
        while self.token.kind != 'end':
            if self.token.text == '}' and self.stray > 0:
                self.here, self.stray = self.here + 1, self.stray - 1
                continue
            self.depth = 0
            self.was_hurt = bool(decls) and self.tokens[self.first].at in self.hurt
            self.first, at = self.here, self.token.at
            line, seen = line + text.count('\n', seen, at), at
            decls += [self.decl(line), *self.extra]
            self.extra = []
        return decls

    def decl(self, line: int) -> tree.Decl:
        """Reads a declaration, or what is none up to its end."""
        start = self.here
        try:
            return super().decl(line)
        except Refused as refused:
            self.note(refused, start)
        if self.tokens[start].text == 'event' and self.token.text == '{' and self.tokens[self.here - 1].text == ')':
            return self.event_with_body(start, line)
        return self.broken_decl(start, line)

    def event_with_body(self, start: int, line: int) -> tree.Decl:
        """Reads an event with a body as the event and its handler."""
        self.here = start + 1
        name, params = self.name(), self.bracketed(self.param)
        at = self.tokens[start].at
        self.extra = [tree.Decl('handle', at, line, name=name, params=params, body=self.block())]
        return tree.Decl('event', at, line, name=name, params=params)

    def broken_decl(self, start: int, line: int) -> tree.Decl:
        """Reads on to the `;` or the `}` of a declaration that is none, or to the next first word of one."""
        made = BrokenDecl('broken', self.tokens[start].at, line, body=[])
        if self.here == start:
            self.here += 1
        depth = 0
        while self.token.kind != 'end' and (not self.declares() or self.tokens[self.here - 1].text == 'extern'):
            token = self.token
            is_other = self.tokens[start].text not in DECLARES and self.here > start and self.text[token.at - 1:token.at] == '\n'
            if is_other and depth <= 0 and token.text not in ('{', '}'):
                break
            if token.text == '{' and self.begins_block(depth):
                if self.tokens[start].text in DECLARES or self.tokens[self.here - 1].text == ')':
                    made.body = self.block()
                    break
                self.stray += 1
            self.here += 1
            depth += (token.text == '(') - (token.text == ')')
            if token.text == ';' or token.text == '}' and depth <= 0:
                break
        made.names = [token.text for token in self.tokens[start:self.here] if token.kind == 'name']
        return made

    def begins_block(self, depth: int) -> bool:
        """Whether a `{` begins a block, and no list of numbers."""
        return depth <= 0 or self.tokens[self.here + 1].kind not in ('number', 'end')

    def one_of(self, *texts: str) -> str:
        """Takes the next token; a `;` that is missing at the end of a line or of a block is noted, and read on."""
        if texts == (';',) and self.token.text != ';' and self.here > self.first and self.ends_here():
            self.note(self.stuck('`;`'), self.here)
            return ';'
        return super().one_of(*texts)

    def ends_here(self) -> bool:
        """Whether the next token begins another statement: by its word, or as a name on a line of its own."""
        is_name = self.token.kind == 'name' and '\n' in self.text[self.token.before:self.token.at]
        return self.token.text in BEGINS or self.declares() or is_name

    def declares(self) -> bool:
        """Whether the next tokens begin a declaration."""
        here = self.tokens[self.here:self.here + 3]
        return here[0].text in DECLARES and bool(DECLARATION.match(' '.join(token.text for token in here)))

    def type(self) -> tree.Ty:
        """Reads a type; the width of `int<8>` is noted and read."""
        at = self.token.at
        if self.token.text == 'int' and self.texts(1, '<', '', '>'):
            self.here += 1
            return tree.Ty(True, self.width(), at)
        return super().type()

    def width(self) -> Any:
        """Reads a width; one in single brackets is noted and read."""
        if self.texts(0, '<', '', '>'):
            self.note(self.stuck('`<<`'), self.here)
            self.here += 3
            return self.tokens[self.here - 2].value
        return super().width()

    def texts(self, ahead: int, *texts: str) -> bool:
        """Whether these are the tokens from here on; '' is a number."""
        tokens = self.tokens[self.here + ahead:self.here + ahead + len(texts)]
        return len(tokens) == len(texts) and all(t.text == text or not text and t.kind == 'number' for t, text in zip(tokens, texts))

    def block(self) -> List[tree.Stmt]:
        """Reads a block. A statement without braces is noted and read; a block ends at the first word of a declaration, too."""
        if self.token.text != '{' and (self.token.text in BEGINS[:-1] or self.token.kind == 'name'):
            self.note(self.stuck('`{`'), self.here)
            if self.depth > 0 and self.tokens[self.here - 1].text in (')', 'else'):
                return [self.stmt()]
        else:
            self.read('{')
        self.depth += 1
        found: List[tree.Stmt] = []
        while not self.take('}'):
            if self.token.kind == 'end' or self.token.text in ('|', 'else') or self.declares():
                self.note(self.stuck('a statement or `}`'), self.here)
                break
            found.append(self.stmt())
        self.depth -= 1
        return found

    def stmt(self) -> tree.Stmt:
        """Reads a statement, or what is none up to its end."""
        start = self.here
        try:
            return super().stmt()
        except Refused as refused:
            self.note(refused, start)
        return self.broken(start)

    def broken(self, start: int) -> tree.Stmt:
        """Reads on to the `;` or the `}` of a statement that is none; its blocks are read."""
        blocks: List[List[tree.Stmt]] = []
        first = max(start + 1, self.here)
        names = [token.text for token in self.tokens[start:first] if token.kind == 'name']
        opened = [token.text for token in self.tokens[start:first]]
        depth = opened.count('(') - opened.count(')')
        self.here = first if self.token.text not in ('}', '{') or self.here > start else self.here
        heads = self.tokens[start].text == 'for'
        while self.token.kind != 'end' and not self.declares():
            token = self.token
            if token.text == '}':
                break
            if token.text == '{' and self.begins_block(depth):
                blocks.append(self.block())
                depth = 0
                if self.token.text not in ('else', '|'):
                    break
                continue
            if token.text == '{':
                while self.token.text not in ('}', ';') and self.token.kind != 'end':
                    self.here += 1
                self.take('}')
                continue
            self.here += 1
            names += [token.text] * (token.kind == 'name')
            depth += (token.text == '(') - (token.text == ')')
            if token.text == ';' and not (heads and depth > 0):
                break
        return Broken(names, blocks, self.tokens[start].at)


Note = Callable[[Fault], None]


def is_silent(fault: Fault) -> bool:
    """Whether a fault follows from a name whose declaration was refused."""
    return fault.rule == 'name' and len(fault.values) > 2 and fault.values[2] == UNSURE


class Going(Statements):
    """The rules of one body, which go on behind each fault: one is noted for each place, which is a statement or an operand of its own."""

    note: Note
    is_joined = False  # within operands that share a width
    is_unsure = False  # whether a statement is missing that may return

    def at_place(self, work: Callable[[], Any]) -> Any:
        """Does work for a place of its own."""
        outer, self.is_joined = self.is_joined, False
        try:
            return work()
        finally:
            self.is_joined = outer

    def value(self, asked: Any, e: tree.Expr) -> core.Expr:
        if self.is_joined:
            return super().value(asked, e)
        try:
            return super().value(asked, e)
        except Fault as fault:
            self.is_joined = False
            self.note(fault)
            return core.Fixed(bits(asked), 0, e.at)

    def operation(self, asked: Type, e: Any) -> core.Expr:
        outer, self.is_joined = self.is_joined, e.sign not in LOGIC and e.sign != '!'
        try:
            return super().operation(asked, e)
        finally:
            self.is_joined = outer

    def free(self, e: tree.Expr) -> core.Expr:
        try:
            return self.at_place(lambda: super(Going, self).free(e))
        except Fault as fault:
            self.note(fault)
            return core.Fixed(32, 0, e.at)

    def given(self, call: Any, entry: Entry) -> Tuple[List[core.ArrayName], List[core.Expr]]:
        found: Tuple[List[core.ArrayName], List[core.Expr]] = self.at_place(lambda: super(Going, self).given(call, entry))
        return found

    def access(self, e: tree.Access) -> core.Touch:
        return self.at_place(lambda: super(Going, self).access(e))

    def block(self, stmts: List[tree.Stmt], begin: int = 0) -> Steps:
        outer = self.names
        try:
            return super().block(stmts, begin)
        except Fault as fault:
            self.note(fault)
            at = next((i for i in range(begin + 1, len(stmts)) if stmts[i].at == fault.at), len(stmts))
            return self.block(stmts, at)[0], ALWAYS
        finally:
            self.names = outer

    def statement(self, s: tree.Stmt) -> Steps:
        if isinstance(s, Broken):
            return self.broken(s)
        try:
            return super().statement(s)
        except Fault as fault:
            self.is_joined = False
            self.note(fault)
        if isinstance(s, tree.Declare):
            self.names[s.name] = Entry(UNSURE)
        if isinstance(s, tree.Match):
            return self.broken(Broken([], [body for _, body in s.cases] + [s.last], s.at))
        self.is_unsure = self.is_unsure or isinstance(s, tree.Return)
        return [], NEVER

    def broken(self, s: Any) -> Steps:
        """Types the blocks of a statement that is none; its names mean nothing that is sure."""
        self.is_unsure = True
        for name in s.names:
            if name not in self.names:
                self.names[name] = Entry(UNSURE)
        blocks = [self.block(body)[0] for body in s.blocks]
        return [core.If(core.Fixed(1, 0, s.at), body, [], NEVER, s.at) for body in blocks], NEVER


class Elaborating(Elaboration):
    """Types all declarations; `found` are the refusals."""

    def __init__(self, hurt: Set[int], unsure: Set[str], is_nameless: bool) -> None:
        super().__init__()
        self.hurt, self.is_nameless = hurt, is_nameless
        self.found: List[Refused] = []
        self.places: Set[Tuple[str, Any]] = set()
        self.here: Tuple[int, tree.Decl] = (0, tree.Decl('', 0, 0))
        self.rules: Optional[Going] = None
        self.names.update({name: Entry(UNSURE) for name in unsure})

    def note(self, fault: Fault) -> None:
        """Keeps a fault of the declaration at hand as a refusal: once for each place, and once for each name that is not declared."""
        number, d = self.here
        place: Tuple[str, Any] = (fault.rule, fault.at)
        if fault.rule == 'name' and fault.values[2] is None and not is_published(fault.values[0]):
            place = 'name', fault.values[0]
            if self.is_nameless:
                return
        if is_silent(fault) or place in self.places:
            return
        if fault.rule in ('return', 'no return') and (isinstance(d, BrokenDecl) or self.rules is not None and self.rules.is_unsure):
            return
        self.places.add(place)
        fault.notes.append((d.at, f'declaration {number} begins here'))
        self.found.append(Refused(5, f'types: declaration {number} line {d.line}', fault))

    def statements(self, names: ChainMap[str, Entry], made: core.Body, answer: Optional[Type]) -> Statements:
        self.rules = Going(names, made, self.core.forms, answer)
        self.rules.note = self.note
        return self.rules

    def declare(self, number: int, d: tree.Decl) -> None:
        self.here, self.rules = (number, d), None
        if d.kind == 'memop' and d.at in self.hurt:
            self.names[d.name.text] = Entry(UNSURE)
            return
        try:
            super().declare(number, d)
            return
        except Refused as refused:
            fault = refused.fault
        if fault is not None:
            is_limit = fault.rule == 'limit'
            fault.notes = fault.notes[:-1]
            before = len(self.found)
            self.note(fault)
            if is_limit and len(self.found) > before:
                self.found[-1].line += f' limit {fault.values[0]}'
            if is_limit and d.kind != 'fun':
                return
        if d.kind == 'handle':
            self.body_alone(d)
        elif d.name is not None:
            self.names[d.name.text] = Entry(UNSURE)

    def declare_broken(self, d: BrokenDecl, _: int) -> None:
        """Types the body of a declaration that is none; its names mean nothing that is sure."""
        for name in d.names:
            if name not in self.names:
                self.names[name] = Entry(UNSURE)
        rules = self.statements(self.names.new_child(), core.Body('', self.here[0], d.line, d.at), None)
        for name in d.names:
            rules.names[name] = Entry(UNSURE)
        rules.block(d.body)

    def body_alone(self, d: tree.Decl) -> None:
        """Types the body of a handler that is refused for its head."""
        rules = self.statements(self.names.new_child(), core.Body('', self.here[0], d.line, d.at), None)
        for p in d.params:
            try:
                t = None if p.type is None else value_type(p.type)
            except Fault:
                t = None
            rules.names[p.name] = Entry(UNSURE) if t is None else Entry('local', t, rules.new_local(t, p.name))
        rules.block(d.body)


def cycles(c: core.Core) -> List[Refused]:
    """Returns a refusal for each cycle of each body, of those that share no array the shorter ones first."""
    schemes: List[Scheme] = []
    found: List[Refused] = []
    for number, body in enumerate(c.funs + c.handlers):
        scheme = Walk(schemes, body).found
        if number < len(c.funs):
            schemes.append(scheme)
        names = {ArrayName(False, i): a.name for i, a in enumerate(c.arrays)}
        names.update({ArrayName(True, i): name for i, (name, _) in enumerate(body.arrays)})
        order = Order(scheme, names)
        touched = sorted({a for pair in scheme.needs for a in pair if a is not None})
        every = [cycle for cycle in (order.cycle_from(start, touched) for start in touched) if cycle is not None]
        seen: Set[ArrayName] = set()
        for cycle in sorted(every, key=len):
            if not seen & set(cycle):
                seen |= set(cycle)
                found.append(order.refused(body, cycle))
    return found


@dataclass
class Wrong:
    """All that is wrong in a program: the repaired text, and the refusals with the places of the expanded text or of the file."""

    repaired: Repaired
    refusals: List[Refused]


class Segments:
    """The parts of a text between its signs `;`, `{` and `}`."""

    def __init__(self, text: str) -> None:
        self.ends = [found.start() for found in re.finditer('[;{}]', text)] + [len(text)]

    def of(self, at: int) -> Tuple[int, int]:
        """Returns where the part that holds a place begins and ends."""
        here = min(bisect_left(self.ends, at), len(self.ends) - 1)
        return self.ends[here - 1] + 1 if here > 0 else 0, self.ends[here]


def all_wrong(text: str) -> Wrong:
    """Finds all that is wrong in a program text."""
    repaired = Repaired(text)
    found = list(repaired.refusals)
    source = repaired.expanded.text
    tokens, _ = scan(source)
    parser = Recovering(source, tokens + [end_of(source, tokens)])
    decls = parser.program(source)
    for refused, start in parser.found:
        fault = refused.fault
        if fault is not None and not repaired.is_hurt(repaired.place(start), repaired.place(fault.at), False):
            found.append(refused)
    segments = Segments(repaired.text)
    made = Elaborating(parser.hurt, repaired.names, parser.is_nameless)
    for number, d in enumerate(decls):
        made.declare(number + 1, d)
    for refused in made.found + cycles(made.core):
        at = repaired.place(refused.fault.at) if refused.fault is not None else 0
        if not repaired.is_hurt(*segments.of(at), True):
            found.append(refused)
    return Wrong(repaired, found)
