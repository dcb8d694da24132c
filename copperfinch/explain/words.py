"""The words for each broken rule of copperfinch.model: the problem, the rule, the remedy, and what was expected and found."""
from dataclasses import dataclass, field
from typing import Any, Callable, Dict, List, Optional, Tuple

from ..model.nodes import Code
from ..model.core import ArrayName
from ..model.json_files import Limits
from ..model.layout import Layout
from ..model.lexer import Token
from ..model.order import Order
from ..model.types import BOOL, Type

Notes = List[Tuple[int, str]]  # places of the expanded program, each with a text


@dataclass
class Words:
    """What is said of a broken rule."""

    problem: str
    rule: str
    remedy: str
    expected: Optional[str] = None
    found: Optional[str] = None
    notes: Notes = field(default_factory=list)


def shown(t: Optional[Type]) -> str:
    """A type as it is written."""
    return 'no value' if t is None else BOOL if t == BOOL else 'int' if t == 32 else f'int<<{t}>>'


def several(widths: List[int]) -> str:
    """The types of parameters."""
    return '(' + ', '.join(shown(w) for w in widths) + ')'


def counted(count: int, thing: str) -> str:
    """A number of things, as `1 argument` and `2 arguments`."""
    return f'{count} {thing}' + 's' * (count != 1)


def with_article(kinds: str) -> str:
    """Kinds of names with an article, as `an array` and `a local or a constant`."""
    return ' or '.join(('an ' if kind[0] in 'aeiou' else 'a ') + kind.replace('fun', 'function') for kind in kinds.split(' or '))


def no_token(text: str, at: int = 0) -> Words:
    """Why no token begins at a byte."""
    rule = 'Each piece of a text is a blank, a comment, a name, a number below 2^64, a text in quotes or a sign.'
    if text.startswith('/*', at):
        return Words('a comment without its end', rule, 'close the comment with */')
    if text[at] == '"':
        return Words('a text without its end, or with a byte that is not printable ASCII', rule,
                     'close the text with " on its line, and write no \\ in it')
    if text[at].isdigit():
        return Words('a number of 2^64 or more', rule, 'write a smaller number')
    signs = {'*': 'write sums and shifts, as n << 1', '/': 'write a shift, as n >> 1', '%': 'write a mask, as n & 7',
             '#': 'write // before a comment', '[': 'call an array by Array.get and Array.set'}
    found = text[at] if '!' <= text[at] <= '~' else f'byte 0x{ord(text[at]):02x}'
    return Words(f'no token begins with {found}', rule, signs.get(text[at], 'remove this byte'))


def no_tree(token: Token, *texts: str) -> Words:
    """Where a declaration stops being one, and what may be there."""
    wanted = ', '.join(texts[:-1]) + ' or ' * (len(texts) > 1) + texts[-1]
    found = 'the end of the text' if token.kind == 'end' else f'`{token.text}`'
    remedy = f'write {wanted} here'
    if token.kind == 'word' and 'name' in wanted:
        found, remedy = found + ', which is a reserved word', 'choose another name'
    return Words(f'expected {wanted}, found {found}', 'The tokens must form one of the declarations of docs/LANGUAGE.md (The tree).',
                 remedy, wanted, found)


def wrong_name(name: str, kind: str, found: Optional[str]) -> Words:
    """A name that is not visible, or that means something else."""
    wanted = with_article(kind)
    if found is None:
        return Words(f'no visible name {name}, and {wanted} is wanted here', 'A name is visible after its declaration only, to the end '
                     'of its block or of the program.', f'declare {name} before this place', wanted, 'an unknown name')
    return Words(f'{name} is {with_article(found)}, and {wanted} is wanted here', 'All names share one space, and a declaration hides '
                 'earlier ones of its name.', f'name {wanted}', wanted, with_article(found))


def wrong_type(asked: Type, found: Optional[Type]) -> Words:
    """A place that expects another type."""
    remedy = f'cast it, as ({shown(asked)}) (..)'
    if asked == BOOL and found is not None:
        remedy = 'compare it with a number, as (..) != 0'
    elif found == BOOL:
        remedy = 'assign a number by an `if`'
    elif found is None:
        remedy = 'call it as a statement, or call a function or an access that gives a value'
    return Words(f'expected `{shown(asked)}`, found `{shown(found)}`',
                 'No value is widened or narrowed but by a cast, and an int is no bool.', remedy, shown(asked), shown(found))


def wrong_return(answer: Optional[Type]) -> Words:
    """A return with a value or without one, where it is the other way."""
    wanted, found = ('no value', 'a value') if answer is None else (f'a value of type `{shown(answer)}`', 'no value')
    return Words(f'expected {wanted}, found {found}', 'A function with a value returns one of its type; a void function and a handler '
                 'return without a value.', f'return {wanted}', wanted, found)


def limit(name: str, outs: int) -> Words:
    """A limit of the language."""
    problem = {'arrays': 'more than 64 arrays', 'array parameters': 'more than 8 array parameters',
               'value parameters': 'more than 8 value parameters', 'cases': 'more than 32 cases in a match',
               'arguments': 'more than 8 arguments of a hash behind its seed, or of a printf',
               'outs': f'{outs} outs on one path, and at most 8 are allowed'}[name]
    return Words(problem, 'A program keeps the limits of docs/LANGUAGE.md (Limits).', 'use fewer of them')


def cycle(_: str, order: Order, names: List[ArrayName]) -> Words:
    """Both places of each need in a cycle."""
    notes: Notes = []
    for x, y in zip(names, names[1:] + names[:1]):
        if (x, y) in order.scheme.needs:
            before, here = order.scheme.needs[x, y]
            notes += [(before, f'{order.names[x]} is called here'), (here, f'and {order.names[y]} is called behind it, here')]
    first, last = order.names[names[0]], order.names[names[-1]]
    problem, remedy = f'{first} is called twice on one path', 'make both calls one `Array.update`, or send an event between them'
    if len(names) > 1:
        problem = f'{first} must come before {last}, and {last} before {first}'
        remedy = 'swap the calls or the declarations, or send an event between the calls'
    return Words(problem, 'On each path a handler calls each array at most once, in the order of their declarations.', remedy, notes=notes)


def too_many(what: str) -> Callable[[int, int], Words]:
    """A count before calls are inlined."""
    return lambda total, most: Words(f'the handlers have {total} {what} once calls are inlined, and at most {most} are placed',
                                     'A call that is made twice is inlined twice.', 'make fewer calls of large functions')


def bits(code: Code, limits: Limits) -> Words:
    """The bits of a packet, with the widest fields."""
    written = sorted((code.widths[op.to], number) for number, op in enumerate(code.ops) if op.to is not None)
    widest = {code.ops[number].at: width for width, number in written}
    return Words(f'a packet carries {code.bits()} bits, and `bits` is {limits.bits}',
                 'A packet carries the inputs, and each field that an operation reads or writes.',
                 'use smaller widths, and fewer locals that are joined behind an `if`',
                 notes=[(at, f'a field of {width} bits is written here') for at, width in list(widest.items())[:-6:-1]])


def arms(code: Code, array: int, limits: Limits) -> Words:
    """The places at which an array is called, and whether they are in one handler."""
    name, calls = code.core.arrays[array].name, code.calls(array)
    handlers = {x.value for i in calls for x in code.ops[i].guard if x.field == 0 and x.equal}
    remedy = 'make one call, with the cell chosen before it'
    problem = f'{name} is called at {len(calls)} places, and `arms` is {limits.arms}'
    if len(handlers) > 1:
        problem = f'{name} is called at {len(calls)} places of {len(handlers)} handlers, and `arms` is {limits.arms}'
        remedy = 'allow more `arms`, or let the handlers send an event whose handler makes the call'
    return Words(problem, 'An array is called at no more places than `arms`: in all handlers together, and a call in a function counts at each '
                 'call of that function.', remedy,
                 notes=[(code.ops[i].at, f'{name} is called here') for i in calls])


def node(made: Layout) -> Words:
    """The first node for which first fit finds no place."""
    return Words(f'node {len(made.pairs)} finds no stage', 'A node stands in a stage behind all nodes that write what it reads, which '
                 'has room for a table, its rows and its array.',
                 'allow more, shorten the chain of nodes before it, or send what depends on an array in an event of its own')


SHAPE = ('A memop is one return, or one `if` with one return in each branch; each returned expression and the condition '
         'have one or two operands, and use each parameter at most once.')
OPERAND = 'an operand is a parameter, a number or a constant, and nothing else'
REMEDIES = {OPERAND: 'compute it outside: give the sum as the argument of the call, compare the stored number with the limit less the step, or use two '
                     'memops in one `Array.update`; in the handler a sum that stops is `|+|`',
            'the condition is no comparison': 'compare two operands by one of == != < > <= >=',
            'the body is no return and no `if`': 'write `return ..;`',
            'a branch is one return with a value, and nothing else': 'write `return ..;`'}
# What each key must be, by the file and the key.
KEYS = {'limits': 'Each key of a limits file is a number within its range (docs/SCENARIO.md, The limits of a target).',
        'placement': 'A placement gives each node, in their order, a pair of a stage and a table (docs/ERRORS.md, 12 placement).',
        'scenario': 'Each key of a scenario follows its line of the table (docs/SCENARIO.md, Scenarios).',
        'switches': 'A network has 1 to 64 switches, and 4,194,304 cells in all.',
        'stop': '`stop` is given, and `stop` times `switches` is at most 131,072.',
        'links': 'A link joins two different switches of the network, each pair once, with a latency from 1 to 65,536 ticks.',
        'down': 'A window is of a pair that a link joins, begins before it ends, and needs `"version": 2`.',
        'events': 'An event has a tick, a switch of the network, the name of an event of the program, and arguments that fit it.',
        'steps': 'A step enters the next event, moves the packet of a slot, or looks at a cell.'}
VALUES = {'no windows without `"version": 2`': 'add `"version": 2`, or write no windows'}
WORDS: Dict[str, Callable[..., Words]] = {
    'usage': lambda problem: Words(problem, 'The words must be one of the forms of docs/ERRORS.md and the README.',
                                   'use a form of the table in the README'),
    'read fault': lambda name: Words(f'read fault: {name}', 'The files that the words name are read first.',
                                     'name a file that can be read'),
    'long file': lambda name: Words(f'too long: {name}', 'A program or a limits file has at most 1,048,576 bytes, a scenario or a '
                                    'placement at most 8,388,608.', 'use a shorter file'),
    'no token': no_token,
    'nesting': lambda most, what: Words(f'more than {most} {what}', f'A text has at most {most} {what}.',
                                        'use locals for parts of an expression, and functions for parts of a body'),
    'no tree': no_tree,
    'template': lambda: Words('this function over a width has no name, no body or no end', 'A function over a width is `fun <<w>>`, a '
                              'name before its parameters, and a body in braces.',
                              'write `fun <<w>> int<<w>> NAME(..) { .. }`, and close its braces'),
    'two templates': lambda name: Words(f'two functions over a width have the name {name}',
                                        'Each function over a width has a name of its own.', 'rename one of them'),
    'too long': lambda most: Words(f'the expanded text has more than {most} bytes', 'Each width that is used is a copy of the function.',
                                   'use fewer widths'),
    # types
    'width': lambda w: Words(f'a width of {w} bits', 'A width is 1 to 64.', 'write a width from 1 to 64', '1 to 64', str(w)),
    'number': lambda n, w: Words(f'{n} does not fit {w} bits', 'A number must fit its place.',
                                 f'write a number below {2 ** w}, or a wider place', f'a number below {2 ** w}', str(n)),
    'int': lambda found: Words(f'expected an int, found {found}', 'Constants, and parameters of events and memops, are ints.',
                               'write an int', 'an int', found),
    'name': wrong_name,
    'type': wrong_type,
    'free type': lambda found: Words(f'expected an int, found `{shown(found)}`', 'A free place takes ints alone.', 'write an int here',
                                     'an int', shown(found)),
    'arguments': lambda name, wanted, given: Words(f'{name} takes {counted(wanted, "argument")}, and is given {given}',
                                                   'One argument is given for each parameter.', f'give {counted(wanted, "argument")}',
                                                   str(wanted), str(given)),
    'bare name': lambda: Words('an array is wanted here', 'An array parameter is given the bare name of an array.',
                               'write the name of an array without parentheses', 'the bare name of an array', 'an expression'),
    'cells': lambda name, found, wanted: Words(
        f'{name} has cells of {found} bits, and cells of {wanted} are wanted',
        'An array parameter is given an array with cells of the same width.', f'give an array of cells of {wanted} bits',
        f'Array<<{wanted}>>', f'Array<<{found}>>'),
    'memop width': lambda name, found, array, wanted: Words(
        f'{name} is of {found} bits, and the cells of {array} have {wanted}',
        'A memop argument is the name of a memop of the cells\' width.', f'declare a memop of {wanted} bits',
        f'a memop of {wanted} bits', f'a memop of {found} bits'),
    'behind return': lambda: Words('a statement behind one that returns', 'What returns on some path is the last statement of its block.',
                                   'put it before the statement that returns, or into an `else`'),
    'return': wrong_return,
    'no return': lambda name, found: Words(f'{"no" if found == "never" else "not every"} path of {name} returns a value',
                                           'A function with a value returns one of its type on every path.',
                                           'end each path with a `return`', 'always', found),
    'two cases': lambda n: Words(f'two cases of {n}', 'No two cases of a match have one number.', 'remove one of them'),
    'holes': lambda holes, given: Words(f'the text has {holes} `%d`, and {counted(given, "argument")} after it',
                                        'A `printf` has as many further arguments as its text has `%d`.',
                                        f'give {counted(holes, "argument")}', counted(holes, 'argument'), str(given)),
    'second': lambda word: Words(f'a second {word}', 'An event has at most one delay and at most one locate.', f'remove one {word}'),
    'array size': lambda size: Words(f'an array of {size} cells', 'An array has 1 to 65,536 cells.', 'write a size from 1 to 65536',
                                     '1 to 65536', str(size)),
    'member': lambda n: Words(f'{n} is no member that the group may have here', 'A group has 1 to 8 switch numbers below 64, none twice.',
                              'remove this member'),
    'two handlers': lambda name: Words(f'{name} has a handler already', 'An event has at most one handler.', 'join the two handlers'),
    'handler widths': lambda wanted, found: Words(f'expected the parameters {several(wanted)}, found {several(found)}',
                                                  'A handler repeats its event\'s parameter widths.', 'write the widths of the event',
                                                  several(wanted), several(found)),
    'memop parameters': lambda wanted, found: Words(f'expected `{shown(wanted)}`, found `{shown(found)}`',
                                                    'A memop\'s two parameters have one width.', f'write {shown(wanted)}',
                                                    shown(wanted), shown(found)),
    'shape': lambda problem: Words(problem, SHAPE, REMEDIES.get(problem, 'leave this to the handler')),
    'limit': limit,
    'cycle': cycle,
    # layouts and placements
    'ops': too_many('operations'),
    'size': too_many('statements and calls'),
    'bits': bits,
    'arms': arms,
    'node': node,
    'range': lambda made, i, pair: Words(
        f'node {i} is in stage {pair[0]}, table {pair[1]}, and `stages` is {made.limits.stages}, `tables` {made.limits.tables}',
        'A node stands in a stage below `stages` and in a table below `tables`.', 'move it, or allow more'),
    'early': lambda made, i, pair, j, stage: Words(
        f'node {i} is in stage {pair[0]}, and reads what node {j} in stage {stage} writes',
        'A node stands in a stage behind all nodes that write what it reads.', f'move node {i} behind stage {stage}'),
    'rows': lambda made, i, pair, rows: Words(
        f'table {pair[1]} of stage {pair[0]} has {rows} rows with node {i}, and `rows` is {made.limits.rows}',
        'A table, and each product on the way to it, has no more rows than `rows`.', f'move node {i} to another table'),
    'stage arrays': lambda made, i, pair, count: Words(
        f'stage {pair[0]} holds {count} arrays, and `arrays` is {made.limits.arrays}',
        'A stage holds no more arrays than `arrays`.', 'move the last of its array nodes to another stage'),
    # JSON files; `found` is the text of the value
    'not JSON': lambda problem: Words(problem, 'The file is one JSON value in UTF-8.', 'mend the JSON here'),
    'other key': lambda keys, found='': Words(f'the key {found}', 'The file has no other keys than ' + ', '.join(keys) + '.',
                                              'remove or rename this key', 'one of the keys ' + ', '.join(keys), found),
    'value': lambda wanted, found='', file='', key='': Words(
        f'expected {wanted}, found {found}', KEYS.get(key if file == 'scenario' else file, KEYS['scenario']),
        VALUES.get(wanted, f'write {wanted}'), wanted, found)}


def words_of(rule: str, values: Tuple[Any, ...], **more: Any) -> Words:
    """The words of a fault."""
    return WORDS[rule](*values, **more)
