"""Tokens of a program text (docs/LANGUAGE.md, Tokens). A text is a `str` with one character for each byte."""
import re
from typing import List, NamedTuple, Optional, Tuple

from .refusals import Fault, Refused

MOST_NESTING = {'open brackets': 64, 'tokens since the last `;`, `{` or `}`': 256, '`else` in a declaration': 256}
RESERVED = ('const global memop event handle fun if else return generate printf int bool void true false hash SELF '
            'Array Event Sys match with group').split()
SIGNS = '|+| |-| && || == != <= >= << >> -> + - & | ^ ~ ! < > = ( ) { } , ; .'.split()
# Each piece is the longest at its place; signs are tried in their order, so longer ones come before their beginnings.
PIECE = re.compile(r'''(?P<blank>[ \t\n\r]+|//[^\n]*|/\*.*?\*/)
    |(?P<name>[A-Za-z_][A-Za-z0-9_]*)
    |(?P<number>0x[0-9A-Fa-f]+|[0-9]+)
    |(?P<text>"[\x20\x21\x23-\x5b\x5d-\x7e]*")
    |(?P<sign>''' + '|'.join(map(re.escape, SIGNS)) + ')', re.DOTALL | re.VERBOSE)


class Token(NamedTuple):
    """A token: its kind ('name', 'number', 'text', 'word', 'sign' or 'end'), its bytes, where it and the blanks before it begin."""
    kind: str
    text: str
    at: int
    before: int
    value: int = 0  # of a number


def number_of(digits: str) -> int:
    """Returns the number that digits write, at most 2^64."""
    base = 16 if digits.startswith('0x') else 10
    short = digits[2 if base == 16 else 0:].lstrip('0') or '0'
    return min(int(short, base), 2 ** 64) if len(short) <= 20 else 2 ** 64


def scan(text: str) -> Tuple[List[Token], Optional[int]]:
    """Returns the tokens of a text, and the first byte at which no blank, comment or token begins, if there is one."""
    tokens: List[Token] = []
    at = before = 0
    while at < len(text):
        found = PIECE.match(text, at)
        value = number_of(found.group()) if found is not None and found.lastgroup == 'number' else 0
        if found is None or value == 2 ** 64:
            return tokens, at
        if found.lastgroup != 'blank':
            kind = 'word' if found.group() in RESERVED else found.lastgroup or ''
            tokens.append(Token(kind, found.group(), at, before, value))
            before = found.end()
        at = found.end()
    return tokens, None


def lex(text: str) -> List[Token]:
    """Returns the tokens of a text and then its end; refuses it at the first byte at which no blank, comment or token begins."""
    tokens, stop = scan(text)
    if stop is not None:
        raise Refused(4, f'syntax: byte {stop}', Fault('no token', stop, text))
    return tokens + [end_of(text, tokens)]


def end_of(text: str, tokens: List[Token]) -> Token:
    """Returns the token at the end of a text."""
    return Token('end', '', len(text), tokens[-1].at + len(tokens[-1].text) if tokens else 0)


def depth_behind(depth: int, token: Token) -> int:
    """Returns how many brackets are open behind a token; a closing one without its opening one does not count."""
    if token.kind != 'sign':
        return depth
    return max(0, depth + (token.text in '({') - (token.text in ')}'))


def check_nesting(tokens: List[Token]) -> None:
    """The tree: refuses the first token at which one of the three limits on tokens is exceeded."""
    brackets = since = elses = 0
    for number, token in enumerate(tokens[:-1]):
        sign = token.text if token.kind == 'sign' else ''
        brackets = depth_behind(brackets, token)
        since = 0 if sign in (';', '{', '}') else since + 1
        elses += token.text == 'else'
        for count, (what, most) in zip((brackets, since, elses), MOST_NESTING.items()):
            if count > most:
                raise Refused(4, f'syntax: nesting at token {number + 1}', Fault('nesting', token.at, most, what))
        goes_on = sign == '}' and tokens[number + 1].text == 'else'
        if sign in ('}', ';') and brackets == 0 and not goes_on:
            elses = 0
