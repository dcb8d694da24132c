"""The typed program (docs/LANGUAGE.md, What a program means). The last field of a form is its place in the text."""
from dataclasses import dataclass, field
from typing import Any, Iterator, List, NamedTuple, Optional, Tuple, Union

from .tree import form


class ArrayName(NamedTuple):
    """A declared array, or an array parameter, by its number; declared arrays come first."""
    is_param: bool
    number: int

    def among(self, arrays: List[Any]) -> Any:
        """Returns the declared array that this means in a body whose array parameters mean these."""
        return arrays[self.number] if self.is_param else self


Expr = Any
Fixed = form('Fixed', 'width', 'value')
Local = form('Local', 'number', 'width')
Input = form('Input', 'name')  # `Sys.time()` ('now') or `SELF` ('me'), of 32 bits
Un = form('Un', 'op', 'amount', 'arg', 'width')
Bin = form('Bin', 'op', 'left', 'right', 'width')  # of a comparison the width is that of its operands, and its value has one bit
Cast = form('Cast', 'width', 'arg')
Hash = form('Hash', 'width', 'args')
Touch = form('Touch', 'array', 'index', 'get', 'get_arg', 'set', 'set_arg', 'answers')
Fun = form('Fun', 'number', 'arrays', 'args')

Stmt = Any
Assign = form('Assign', 'local', 'value')
Drop = form('Drop', 'value')
If = form('If', 'test', 'yes', 'no', 'ending')  # `ending` says on which paths it returns
Say = form('Say', 'form', 'args')
# `args` are followed by what `extras` names, `delay` or `to` or both as they are written; `members` are those of a group, or None.
Gen = form('Gen', 'event', 'args', 'extras', 'members')
Return = form('Return', 'value')


# The fields of each form that are expressions, or lists of them, in the order in which they are evaluated.
PARTS = {Un: ['arg'], Cast: ['arg'], Bin: ['left', 'right'], Hash: ['args'], Fun: ['args'], Touch: ['index', 'get_arg', 'set_arg'],
         Assign: ['value'], Drop: ['value'], Return: ['value'], If: ['test'], Say: ['args'], Gen: ['args']}
Node = Union[Expr, Stmt]


def children(x: Node) -> List[Expr]:
    """Returns the expressions directly in a node, in the order in which they are evaluated."""
    found: List[Expr] = []
    for name in PARTS.get(type(x), []):
        part = getattr(x, name)
        found += part if isinstance(part, list) else [part] if part is not None else []
    return found


def sent_parts(s: Stmt, parts: List[Any]) -> Tuple[List[Any], Any, Any]:
    """Splits what the expressions of a `Gen` became into the arguments, the delay and the target; None for one that is missing."""
    count = len(parts) - len(s.extras)
    extras = dict(zip(s.extras, parts[count:]))
    return parts[:count], extras.get('delay'), extras.get('to')


def walk(nodes: List[Node]) -> Iterator[Node]:
    """Yields these nodes and all within them, each before its parts."""
    waiting = nodes[::-1]
    while waiting:
        x = waiting.pop()
        yield x
        waiting += (children(x) + (x.yes + x.no if isinstance(x, If) else []))[::-1]


@dataclass
class ArrayDef:
    """A declared array."""
    name: str
    width: int
    size: int
    at: int


@dataclass
class EventDef:
    """A declared event: the widths of its parameters, its handler, and the names of its parameters."""
    name: str
    params: List[int]
    handler: Optional[int] = None
    names: List[str] = field(default_factory=list)


@dataclass
class Body:
    """A function or a handler; value parameters are the first locals. `long_matches` are the places of matches with too many cases."""
    name: str
    decl: int
    line: int
    at: int
    arrays: List[Tuple[str, int]] = field(default_factory=list)
    params: int = 0
    locals: List[int] = field(default_factory=list)
    names: List[str] = field(default_factory=list)
    answer: Optional[int] = None
    body: List[Stmt] = field(default_factory=list)
    event: int = 0
    long_matches: List[int] = field(default_factory=list)


@dataclass
class Core:
    """A typed program."""
    arrays: List[ArrayDef] = field(default_factory=list)
    memops: int = 0
    events: List[EventDef] = field(default_factory=list)
    funs: List[Body] = field(default_factory=list)
    handlers: List[Body] = field(default_factory=list)
    forms: List[str] = field(default_factory=list)

    def event_named(self, name: str) -> Optional[int]:
        """Returns the last declared event of a name."""
        return max((i for i, e in enumerate(self.events) if e.name == name), default=None)

    def fits(self, event: int, args: List[int]) -> bool:
        """Whether these arguments fit the parameters of an event."""
        widths = self.events[event].params
        return len(widths) == len(args) and all(a < 2 ** w for a, w in zip(args, widths))
