"""The syntax tree (docs/LANGUAGE.md, The tree): a dataclass for each form, whose last field `at` is the place of its first byte."""
from dataclasses import dataclass, make_dataclass
from typing import Any


def form(name: str, *fields: str) -> Any:
    """Returns the dataclass of a form with these parts."""
    return make_dataclass(name, [*fields, 'at'])


Ty = form('Ty', 'is_int', 'width')  # `int` (without a width), `int<<width>>` or `bool`
Param = form('Param', 'type', 'width', 'name')  # a value of a type; or, without one, an array with cells of a width

# Expressions.
Expr = Any
Number = form('Number', 'value')
Truth = form('Truth', 'value')
Input = form('Input', 'name')  # `SELF` ('me') or `Sys.time()` ('now')
Name = form('Name', 'name')
Hash = form('Hash', 'width', 'args')
Call = form('Call', 'name', 'args')
Access = form('Access', 'kind', 'array', 'index', 'memops', 'args')  # get, set, getm, setm or update; memops and args take turns
Paren = form('Paren', 'inner')
Prefix = form('Prefix', 'sign', 'arg')
Cast = form('Cast', 'width', 'arg')
Shift = form('Shift', 'arg', 'sign', 'amount')
Infix = form('Infix', 'sign', 'left', 'right', 'sign_at')

# Events that are sent.
Sent = Any
SentCall = form('SentCall', 'name', 'args')
SentWith = form('SentWith', 'word', 'inner', 'more')  # with a `delay`, or a target, which is the word `to`

# Statements.
Stmt = Any
Declare = form('Declare', 'type', 'name', 'value')
Assign = form('Assign', 'name', 'value')
Do = form('Do', 'call')  # a call of a function or of an array as a statement
Cond = form('Cond', 'test', 'yes', 'no')  # `no` are the statements of the `else`, just one where it is an `if`; or None
Match = form('Match', 'test', 'cases', 'last')  # pairs of a number and statements, and the statements of the last arm
Return = form('Return', 'value')
Generate = form('Generate', 'sent')
Printf = form('Printf', 'text', 'args')


@dataclass
class Decl:
    """A declaration: `kind` is its first word, and the rest is what that kind has, or else None."""
    kind: str
    at: int
    line: int
    name: Any = None  # its token
    type: Any = None
    width: int = 0
    size: Any = None  # the number of a constant, or the size of an array: a number or a name
    params: Any = None  # and the rest are lists
    body: Any = None
    members: Any = None
