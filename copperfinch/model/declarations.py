"""The typing rules of declarations, the shape of memops, and the limits (docs/LANGUAGE.md, Declarations, Memops and Limits)."""
from typing import Any, ChainMap, Container, List, Optional, Tuple

from . import core, tree
from .refusals import Fault, Refused
from .statements import ALWAYS, Statements
from .types import Entry, Expressions, Type, bits, check_width, number, value_type
from .values import COMPARE, MemAlu, MemArg

MOST_ARRAYS, MOST = 64, 8  # MOST parameters, arguments and outs


def int_width(p: tree.Param) -> int:
    """Returns the width of a parameter or a constant, whose type must be an int."""
    if p.type is None or not p.type.is_int:
        raise Fault('int', p.at, 'an array' if p.type is None else 'bool')
    return bits(value_type(p.type))


def most_outs(nodes: List[core.Node], funs: List[int]) -> int:
    """Limits: the most outs on any path; a call counts those of its function, and a group counts its members."""
    total = 0
    for x in nodes:
        total += most_outs(core.children(x), funs)
        if isinstance(x, core.Fun):
            total += funs[x.number]
        elif isinstance(x, core.Gen):
            total += 1 if x.members is None else len(x.members)
        elif isinstance(x, core.Say):
            total += 1
        elif isinstance(x, core.If):
            total += max(most_outs(x.yes, funs), most_outs(x.no, funs))
    return total


def bare(e: tree.Expr) -> tree.Expr:
    """Parentheses are free."""
    while isinstance(e, tree.Paren):
        e = e.inner
    return e


class Shape(Expressions):
    """The rules of the body of a memop of a width, whose parameters are locals 0 and 1."""

    def __init__(self, names: ChainMap[str, Entry], width: int) -> None:
        super().__init__(names)
        self.width = width

    def memop(self, d: tree.Decl) -> MemAlu:
        """The body is one `return`, or one `if` with one `return` in each branch, the second in an `else` or after the `if`."""
        first, behind = (d.body or [None])[0], d.body[1:]
        if isinstance(first, tree.Return):
            yes = self.returned(d.body, d.at)
            return MemAlu(self.width, None, yes, yes)
        if not isinstance(first, tree.Cond):
            raise Fault('shape', d.at, 'the body is no return and no `if`')
        if first.no is not None and behind:
            raise Fault('shape', first.at, 'more than one `if`, or a statement behind it')
        test = bare(first.test)
        if not isinstance(test, tree.Infix) or test.sign not in COMPARE:
            raise Fault('shape', test.at, 'the condition is no comparison')
        no = behind if first.no is None else first.no
        return MemAlu(self.width, self.joined(test, COMPARE), self.returned(first.yes, first.at), self.returned(no, first.at))

    def returned(self, body: List[tree.Stmt], at: int) -> Tuple[Any, ...]:
        """A returned expression is a parameter, a number or a constant, or two of these joined by one of `+ - & | ^`."""
        if len(body) != 1 or not isinstance(body[0], tree.Return) or body[0].value is None:
            raise Fault('shape', body[0].at if body else at, 'a branch is one return with a value, and nothing else')
        e = bare(body[0].value)
        return self.joined(e, ['+', '-', '&', '|', '^']) if isinstance(e, tree.Infix) else (self.operand(e),)

    def joined(self, e: tree.Infix, signs: Container[str]) -> Tuple[str, MemArg, MemArg]:
        """A returned expression and the condition use each parameter at most once."""
        if e.sign not in signs:
            raise Fault('shape', e.sign_at, f'two operands are joined by one of + - & | ^, and not by {e.sign}')
        a, b = self.operand(e.left), self.operand(e.right)
        if a == b and isinstance(a, str):
            raise Fault('shape', e.at, 'a parameter is used twice in one expression')
        return e.sign, a, b

    def operand(self, inner: tree.Expr) -> MemArg:
        """A parameter, a number or a constant, at the memop's width."""
        e = bare(inner)
        if not isinstance(e, (tree.Number, tree.Name)):
            raise Fault('shape', e.at, 'an operand is a parameter, a number or a constant, and nothing else')
        x = self.value(self.width, e)
        return ('stored', 'arg')[x.number] if isinstance(e, tree.Name) and self.names[e.name].kind == 'local' else x.value


class Elaboration:
    """Types the declarations of a tree one after another."""

    def __init__(self) -> None:
        self.core = core.Core()
        self.names: ChainMap[str, Entry] = ChainMap()
        self.outs: List[int] = []

    def declare(self, number: int, d: tree.Decl) -> None:
        """Types a declaration, then asks for the limits; refuses it by its number and line."""
        line = f'types: declaration {number} line {d.line}'
        try:
            body = getattr(self, 'declare_' + d.kind)(d, number)
            outs = most_outs(body.body, self.outs) if body is not None else 0
            limit = self.exceeded(d, body, outs)
            if limit is not None:
                line += ' limit ' + limit.values[0]
                raise limit
        except Fault as fault:
            fault.notes.append((d.at, f'declaration {number} begins here'))
            raise Refused(5, line, fault) from None
        if d.kind == 'fun':
            self.outs.append(outs)

    def exceeded(self, d: tree.Decl, body: Optional[core.Body], outs: int) -> Optional[Fault]:
        """Limits: returns the first, in their order, that the newest declaration exceeds, with the place at which it does."""
        params = d.params if d.kind in ('fun', 'event') else []
        wide = [x.at for x in core.walk(body.body if body is not None else [])
                if isinstance(x, core.Hash) and len(x.args) > 1 + MOST or isinstance(x, core.Say) and len(x.args) > MOST]
        places = {'arrays': [d.at] if len(self.core.arrays) > MOST_ARRAYS else [],
                  'array parameters': [p.at for p in params if p.type is None][MOST:],
                  'value parameters': [p.at for p in params if p.type is not None][MOST:],
                  'arguments': wide, 'outs': [d.at] if outs > MOST else [], 'cases': body.long_matches if body is not None else []}
        return next((Fault('limit', found[0], name, outs) for name, found in places.items() if found), None)

    def declare_const(self, d: tree.Decl, _: int) -> None:
        """Constants and arrays: an int whose number fits its width."""
        width = int_width(d)
        self.names[d.name.text] = Entry('constant', width, number(width, d.size).value)

    def declare_global(self, d: tree.Decl, _: int) -> None:
        """Constants and arrays: 1 to 65,536 cells, written or a constant."""
        width, size = check_width(d.width, d.at), d.size
        cells = Expressions(self.names).entry(size.name, size.at, 'constant').number if isinstance(size, tree.Name) else size.value
        if not 1 <= cells <= 65536:
            raise Fault('array size', size.at, cells)
        self.names[d.name.text] = Entry('array', width, array=core.ArrayName(False, len(self.core.arrays)))
        self.core.arrays.append(core.ArrayDef(d.name.text, width, cells, d.at))

    def declare_event(self, d: tree.Decl, _: int) -> None:
        """Events and handlers: parameters are ints."""
        widths = [int_width(p) for p in d.params]
        self.names[d.name.text] = Entry('event', None, len(self.core.events), params=[(False, w) for w in widths])
        self.core.events.append(core.EventDef(d.name.text, widths, names=[p.name for p in d.params]))

    def declare_group(self, d: tree.Decl, _: int) -> None:
        """Groups: 1 to 8 switch numbers below 64, none twice."""
        members = [m.value for m in d.members]
        for i, m in enumerate(d.members):
            if m.value >= 64 or m.value in members[:i] or i >= 8:
                raise Fault('member', m.at, m.value)
        self.names[d.name.text] = Entry('group', members=members)

    def declare_memop(self, d: tree.Decl, _: int) -> None:
        """Memops: both parameters are ints of one width, which is also the width of the answer."""
        width, other = (int_width(p) for p in d.params)
        if other != width:
            raise Fault('memop parameters', d.params[1].at, width, other)
        names = self.names.new_child({p.name: Entry('local', width, i) for i, p in enumerate(d.params)})
        self.names[d.name.text] = Entry('memop', None, alu=Shape(names, width).memop(d))
        self.core.memops += 1

    def declare_handle(self, d: tree.Decl, number: int) -> core.Body:
        """Events and handlers: names a visible event that has no handler yet, and repeats the widths of its parameters."""
        name, found = d.name, Expressions(self.names).entry(d.name.text, d.name.at, 'event')
        event = self.core.events[found.number]
        if event.handler is not None:
            raise Fault('two handlers', name.at, name.text, notes=[(self.core.handlers[event.handler].at, 'the other handler')])
        widths = [int_width(p) for p in d.params]
        if widths != event.params:
            raise Fault('handler widths', name.at, event.params, widths)
        made = self.body(d, number)
        made.event, event.handler = found.number, len(self.core.handlers)
        self.core.handlers.append(made)
        return made

    def declare_fun(self, d: tree.Decl, number: int) -> core.Body:
        """Functions: parameters are ints, bools and arrays. Names: a function can't call itself."""
        made = self.body(d, number)
        params = [(p.type is None, p.width if p.type is None else value_type(p.type)) for p in d.params]
        self.names[d.name.text] = Entry('fun', d.type and value_type(d.type), len(self.core.funs), params=params)
        self.core.funs.append(made)
        return made

    def statements(self, names: ChainMap[str, Entry], made: core.Body, answer: Optional[Type]) -> Statements:
        """Returns the rules of the statements of a body."""
        return Statements(names, made, self.core.forms, answer)

    def body(self, d: tree.Decl, number: int) -> core.Body:
        """Functions: a function with a value returns one on every path; a later parameter hides an earlier one of its name."""
        answer = None if d.type is None else value_type(d.type)
        made = core.Body(d.name.text, number, d.line, d.at, answer=None if answer is None else bits(answer))
        rules = self.statements(self.names.new_child(), made, answer)
        for p in d.params:
            if p.type is None:
                check_width(p.width, p.at)
                rules.names[p.name] = Entry('array', p.width, array=core.ArrayName(True, len(made.arrays)))
                made.arrays.append((p.name, p.width))
            else:
                t = value_type(p.type)
                rules.names[p.name] = Entry('local', t, rules.new_local(t, p.name))
        made.params = len(made.locals)
        made.body, ending = rules.block(d.body)
        if answer is not None and ending != ALWAYS:
            raise Fault('no return', d.name.at, d.name.text, ending)
        return made


def elaborate(decls: List[tree.Decl]) -> core.Core:
    """Returns the core of a tree; refuses the first declaration that breaks a rule or exceeds a limit."""
    made = Elaboration()
    for number, d in enumerate(decls):
        made.declare(number + 1, d)
    return made.core
