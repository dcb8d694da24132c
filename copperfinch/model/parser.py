"""From tokens to the tree, by the grammar of docs/LANGUAGE.md (The tree): one method for each of its lines."""
from typing import Any, Callable, List, Union

from . import tree
from .lexer import Token, check_nesting
from .refusals import Fault, Refused

# Operators between operands, from the loosest level on. Comparisons do not chain, and a shift is by a number.
LEVELS = [['||'], ['&&'], ['==', '!=', '<', '>', '<=', '>='], ['|'], ['^'], ['&'], ['<<', '>>'], ['+', '-', '|+|', '|-|']]
LEVEL_OF = {sign: level for level, signs in enumerate(LEVELS) for sign in signs}
COMPARISONS, SHIFTS = 2, 6


class Reader:
    """Takes tokens from the left, by the next one alone or by the next two; `first` is the first token of the declaration."""

    def __init__(self, tokens: List[Token]) -> None:
        self.tokens, self.here, self.first = tokens, 0, 0

    @property
    def token(self) -> Token:
        """The next token."""
        return self.tokens[self.here]

    def stuck(self, *wanted: str) -> Refused:
        """4 syntax: returns the refusal of a declaration that does not go on with the next token, but with one of these."""
        notes = [(self.tokens[self.first].at, 'the declaration begins here')]
        return Refused(4, f'syntax: token {self.first + 1}', Fault('no tree', self.token.at, self.token, *wanted, notes=notes))

    def take(self, *texts: str) -> str:
        """Takes the next token if it is one of these, and returns its text, or else nothing."""
        if self.token.text not in texts:
            return ''
        self.here += 1
        return self.tokens[self.here - 1].text

    def one_of(self, *texts: str) -> str:
        """Takes the next token, which must be one of these, and returns its text."""
        found = self.take(*texts)
        if not found:
            raise self.stuck(*(f'`{text}`' for text in texts))
        return found

    def kind(self, kind: str, wanted: str) -> Token:
        """Takes the next token, which must be of a kind."""
        if self.token.kind != kind:
            raise self.stuck(wanted)
        self.here += 1
        return self.tokens[self.here - 1]

    def read(self, *parts: Union[str, Callable[[], Any]]) -> List[Any]:
        """Reads a line of the grammar, part by part: a text is the next token, a method reads; returns what the methods read."""
        found: List[Any] = []
        for part in parts:
            if isinstance(part, str):
                self.one_of(part)
            else:
                found.append(part())
        return found

    def several(self, item: Callable[[], Any], close: str) -> List[Any]:
        """Reads items with commas between, and a closing bracket."""
        found = [item()]
        while self.take(','):
            found.append(item())
        self.read(close)
        return found

    def bracketed(self, item: Callable[[], Any]) -> List[Any]:
        """Reads items in parentheses, of which there may be none."""
        self.read('(')
        return [] if self.take(')') else self.several(item, ')')

    def name(self, wanted: str = 'a name') -> Token:
        """Takes a name."""
        return self.kind('name', wanted)

    def number(self) -> tree.Number:
        """Takes a number."""
        token = self.kind('number', 'a number')
        return tree.Number(token.value, token.at)

    def type(self) -> tree.Ty:
        """type = "int" [ width ] | "bool" """
        at = self.token.at
        is_int = self.one_of('int', 'bool') == 'int'
        return tree.Ty(is_int, self.width() if is_int and self.token.text == '<<' else None, at)

    def width(self) -> Any:
        """width = "<<" number ">>" """
        return self.read('<<', self.number, '>>')[0].value

    def array(self) -> Any:
        """array = "Array" [ "." 't' ] width"""
        self.read('Array')
        if self.take('.'):
            self.read('t')
        return self.width()

    def expr(self, level: int = 0) -> tree.Expr:
        """expr to sum: operands with operators of this level and tighter ones between; those of one level group to the left"""
        at, left = self.token.at, self.pre()
        loosest = len(LEVELS) - 1
        while level <= LEVEL_OF.get(self.token.text, -1) <= loosest:
            sign_at, sign = self.token.at, self.take(self.token.text)
            here = LEVEL_OF[sign]
            if here == SHIFTS:
                left = tree.Shift(left, sign, self.number().value, at)
            else:
                left = tree.Infix(sign, left, self.expr(here + 1), sign_at, at)
            loosest = here - 1 if here == COMPARISONS else here
        return left

    def pre(self) -> tree.Expr:
        """pre = ( "-" | "~" | "!" ) pre | "(" "int" [ width ] ")" pre | prim"""
        at = self.token.at
        sign = self.take('-', '~', '!')
        if sign:
            return tree.Prefix(sign, self.pre(), at)
        if self.token.text == '(' and self.tokens[self.here + 1].text == 'int':
            ty, arg = self.read('(', self.type, ')', self.pre)
            return tree.Cast(ty.width, arg, at)
        return self.prim()

    def prim(self) -> tree.Expr:
        """prim, by its first token"""
        at, word = self.token.at, self.token.text
        if self.token.kind == 'number':
            return self.number()
        if word == 'Array':
            return self.access()
        if self.take('true', 'false'):
            return tree.Truth(word == 'true', at)
        if self.take('SELF'):
            return tree.Input('me', at)
        if self.take('Sys'):
            self.read('.', 'time', '(', ')')
            return tree.Input('now', at)
        if self.take('hash'):
            (width,) = self.read(self.width, '(')
            return tree.Hash(width, self.several(self.expr, ')'), at)
        if self.take('('):
            return tree.Paren(*self.read(self.expr, ')'), at)
        name = self.name('an expression').text
        return tree.Call(name, self.bracketed(self.expr), at) if self.token.text == '(' else tree.Name(name, at)

    def access(self) -> tree.Access:
        """access = "Array" "." ( 'get' .. | 'set' .. | 'getm' .. | 'setm' .. | 'update' .. )"""
        at = self.token.at
        self.read('Array', '.')
        kind = self.one_of('get', 'set', 'getm', 'setm', 'update')
        array, index = self.read('(', self.name, ',', self.expr)
        found = tree.Access(kind, array.text, index, [], [], at)
        for _ in range({'get': 0, 'update': 2}.get(kind, 1)):
            if kind != 'set':
                found.memops += self.read(',', lambda: self.name('a memop'))
            found.args += self.read(',', self.expr)
        self.read(')')
        return found


class Parser(Reader):
    """Reads declarations and statements."""

    def program(self, text: str) -> List[tree.Decl]:
        """program = { decl }"""
        decls: List[tree.Decl] = []
        line, seen = 1, 0
        while self.token.kind != 'end':
            self.first, at = self.here, self.token.at
            line, seen = line + text.count('\n', seen, at), at
            decls.append(self.decl(line))
        return decls

    def decl(self, line: int) -> tree.Decl:
        """decl = "const" .. | "global" .. | "memop" .. | "event" .. | "handle" .. | "fun" .. | "group" .."""
        at = self.token.at
        d = tree.Decl(self.one_of('const', 'global', 'memop', 'event', 'handle', 'fun', 'group'), at, line)
        if d.kind == 'const':
            d.type, d.name, d.size = self.read(self.type, self.name, '=', self.number, ';')
        elif d.kind == 'global':
            d.width, d.name, d.size = self.read(self.array, self.name, '=', 'Array', '.', 'create', '(', self.size, ')', ';')
        elif d.kind == 'memop':
            d.name, first, second, d.body = self.read(self.name, '(', self.plain, ',', self.plain, ')', self.block)
            d.params = [first, second]
        elif d.kind == 'event':
            d.name, d.params = self.read(self.name, lambda: self.bracketed(self.param), ';')
        elif d.kind == 'group':
            d.name, d.members = self.read(self.name, '=', '{', lambda: self.several(self.number, '}'), ';')
        else:
            if d.kind == 'fun' and not self.take('void'):
                d.type = self.type()
            d.name, d.params, d.body = self.read(self.name, lambda: self.bracketed(self.param), self.block)
        return d

    def size(self) -> Union[tree.Number, tree.Name]:
        """number | name"""
        if self.token.kind == 'number':
            return self.number()
        name = self.name('a number or a name')
        return tree.Name(name.text, name.at)

    def param(self) -> tree.Param:
        """param = ( type | array ) name"""
        at = self.token.at
        if self.token.text != 'Array':
            return self.plain()
        width, name = self.read(self.array, self.name)
        return tree.Param(None, width, name.text, at)

    def plain(self) -> tree.Param:
        """type name"""
        at = self.token.at
        ty, name = self.read(self.type, self.name)
        return tree.Param(ty, 0, name.text, at)

    def block(self) -> List[tree.Stmt]:
        """block = "{" { stmt } "}" """
        self.read('{')
        found: List[tree.Stmt] = []
        while not self.take('}'):
            found.append(self.stmt())
        return found

    def stmt(self) -> tree.Stmt:
        """stmt = type name "=" expr ";" | .., by its first word"""
        at, word = self.token.at, self.token.text
        if word == 'if':
            return self.choice()
        if word == 'match':
            return self.match()
        made: tree.Stmt
        if word in ('int', 'bool'):
            ty, name, value = self.read(self.type, self.name, '=', self.expr)
            made = tree.Declare(ty, name.text, value, at)
        elif self.take('return'):
            made = tree.Return(None if self.token.text == ';' else self.expr(), at)
        elif self.take('generate'):
            made = tree.Generate(self.sent(), at)
        elif self.take('printf'):
            (text,) = self.read('(', lambda: self.kind('text', 'a text in quotes'))
            args = self.several(self.expr, ')') if self.take(',') else self.read(')')
            made = tree.Printf(text.text[1:-1], args, at)
        elif word == 'Array':
            made = tree.Do(self.access(), at)
        else:
            called = self.name('a statement or `}`').text
            if self.token.text == '(':
                made = tree.Do(tree.Call(called, self.bracketed(self.expr), at), at)
            else:
                made = tree.Assign(called, *self.read('=', self.expr), at)
        self.read(';')
        return made

    def choice(self) -> tree.Cond:
        """choice = "if" "(" expr ")" block [ "else" ( block | choice ) ]"""
        at = self.token.at
        test, yes = self.read('if', '(', self.expr, ')', self.block)
        if not self.take('else'):
            return tree.Cond(test, yes, None, at)
        return tree.Cond(test, yes, [self.choice()] if self.token.text == 'if' else self.block(), at)

    def match(self) -> tree.Match:
        """"match" expr "with" case { case } [ "|" '_' "->" block ]"""
        made = tree.Match(None, [], [], self.token.at)
        (made.test,) = self.read('match', self.expr, 'with', '|')
        while True:
            made.cases.append(self.read(self.number, '->', self.block))
            if not self.take('|'):
                return made
            if self.take('_'):
                (made.last,) = self.read('->', self.block)
                return made

    def sent(self) -> tree.Sent:
        """sent = "(" sent ")" | call | "Event" "." ( 'delay' | 'locate' ) "(" sent "," expr ")" """
        at = self.token.at
        if self.take('('):
            return self.read(self.sent, ')')[0]
        if self.take('Event'):
            self.read('.')
            word = 'delay' if self.one_of('delay', 'locate') == 'delay' else 'to'
            return tree.SentWith(word, *self.read('(', self.sent, ',', self.expr, ')'), at)
        return tree.SentCall(self.name('an event').text, self.bracketed(self.expr), at)


def declarations(tokens: List[Token]) -> List[int]:
    """Returns the number of tokens before each declaration, up to the first that is broken, and before that or the end."""
    parser, found = Parser(tokens), [0]
    while parser.token.kind != 'end':
        parser.first = parser.here
        try:
            parser.decl(1)
        except (Refused, RecursionError):
            break
        found.append(parser.here)
    return found


def parse(text: str, tokens: List[Token]) -> List[tree.Decl]:
    """Returns the declarations of a text; tries the counts of nesting over all tokens first."""
    check_nesting(tokens)
    return Parser(tokens).program(text)
