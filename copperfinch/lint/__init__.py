"""Warnings of what a program is accepted with and is probably wrong.

`lint(words, read_file)` takes the words of a call that is accepted, as `explain` does, and returns its warnings in the order of their
places. With limits and a scenario it also says what no event of that scenario can reach. A warning is silent where a comment
`// lint: allow NAME` stands on its line or on the line before; before the first declaration it is silent everywhere. tools/LINT.md has a
section for each name.
"""
from __future__ import annotations

import re
from dataclasses import dataclass, field
from typing import Any, Callable, Dict, Iterator, List, Optional, Sequence, Set, Tuple

from ..explain.places import Edit, Place, Sources
from ..model import core, tree
from ..model.answers import Answer, ReadFile, Word, judge
from ..model.core import ArrayName
from ..model.json_files import read_limits, read_scene
from ..model.lexer import Token, end_of, scan
from ..model.parser import Parser
from ..model.refusals import Refused
from ..model.values import COMPARE

from .ranges import Ranges, Weak

PAGE = 'tools/LINT.md'
TEST_OF_A_MATCH = 'the test of the match'
ALLOW = re.compile(r'//\s*lint:\s*allow\s+([a-z-]+(?:\s*,\s*[a-z-]+)*)')


@dataclass
class Warning:
    """What is probably wrong: the name of its rule, its place, its words, and the remedy, with edits where that is known to the byte."""

    name: str
    place: Place
    text: str
    remedy: str
    edits: List[Edit] = field(default_factory=list)

    @property
    def page(self) -> str:
        """The section that explains the rule."""
        return f'{PAGE}#{self.name}'

    def lines(self) -> List[str]:
        """The warning as lines."""
        head = f'{self.place.head()}: warning: {self.text} [{self.name}]'
        return [head, *self.place.shown(), f'remedy: {self.remedy}', f'page: {self.page}']

    def data(self) -> Dict[str, Any]:
        """The warning as JSON."""
        return {'name': self.name, 'place': self.place.data(), 'text': self.text, 'remedy': self.remedy, 'page': self.page,
                'edits': [edit.data() for edit in self.edits]}


Found = Tuple[str, int, str, str]  # a name, a place of the expanded text, the text and the remedy
Edited = Dict[Tuple[str, int], List[Edit]]


def lint(words: Sequence[Word], read: ReadFile) -> List[Warning]:
    """Returns the warnings of a call of `lucid`; of a program that is refused there are none."""
    answer = judge(list(words), read, runs=False)
    return lint_answer(answer)


def lint_answer(answer: Answer) -> List[Warning]:
    """Returns the warnings of a call that was judged."""
    program = answer.program
    if program is None or program.core is None:
        return []
    linter = Linter(program.expanded.text, program.core, scene_of(answer))
    sources = Sources(answer)
    silent = Allowed(program.text)
    made: Dict[Tuple[str, int], Warning] = {}
    for name, at, text, remedy in linter.all():
        place = sources.place('program', at)
        if not silent.allows(name, place.line):
            made.setdefault((name, place.at), Warning(name, place, text, remedy))
    return sorted(made.values(), key=lambda one: (one.place.at, one.name))


def scene_of(answer: Answer) -> Any:
    """Returns the scenario of a call; None if it has none that can be read."""
    try:
        read_limits(answer.files.get('limits', b'{}'))
        return read_scene(answer.files['scenario'], answer.program.core) if 'scenario' in answer.files else None
    except Refused:
        return None


class Allowed:
    """The names that comments of a program allow, by the lines for which they do; line 0 stands for the whole program."""

    def __init__(self, text: str) -> None:
        first = next(iter(scan(text)[0]), None)
        head = text.count('\n', 0, first.at) if first is not None else 0
        self.names: Dict[int, Set[str]] = {}
        for line, words in enumerate(text.split('\n'), 1):
            found = ALLOW.search(words)
            if found:
                names = {name.strip() for name in found.group(1).split(',')}
                for number in (0,) if line <= head else (line, line + 1):
                    self.names.setdefault(number, set()).update(names)

    def allows(self, name: str, line: int) -> bool:
        """Whether a warning of a line is silent."""
        return any(name in self.names.get(number, ()) for number in (0, line))


def tree_of(text: str) -> List[tree.Decl]:
    """Returns the declarations of an accepted text."""
    tokens: List[Token] = scan(text)[0]
    return Parser(tokens + [end_of(text, tokens)]).program(text)


class Linter:
    """The rules, each a method that yields what it finds."""

    def __init__(self, text: str, program: core.Core, scene: Any) -> None:
        self.program, self.scene = program, scene
        self.decls = tree_of(text)
        self.bodies = program.funs + program.handlers
        self.declared = {d.at: d for d in self.decls}
        self.ranges = {id(body): Ranges(body) for body in self.bodies}
        self.means = self.given()

    def all(self) -> Iterator[Found]:
        """Yields all warnings."""
        rules: List[Callable[[], Iterator[Found]]] = [
            self.hash_bits, self.index_range, self.always, self.always_in_memops, self.unread, self.arrays, self.no_handler, self.no_sender,
            self.dead_branch, self.cast_loss, self.endless, self.unlinked]
        for rule in rules:
            yield from rule()

    def of_kind(self, kind: Any) -> Iterator[Tuple[core.Body, Any]]:
        """Yields the nodes of a form, each with its body."""
        for body in self.bodies:
            for x in core.walk(body.body):
                if isinstance(x, kind):
                    yield body, x

    def given(self) -> Dict[Tuple[int, int], Set[ArrayName]]:
        """Returns the declared arrays that each array parameter of each function may be."""
        found: Dict[Tuple[int, int], Set[ArrayName]] = {}
        numbers = {id(body): number for number, body in enumerate(self.program.funs)}
        for body in reversed(self.bodies):
            for x in core.walk(body.body):
                if isinstance(x, core.Fun):
                    for number, array in enumerate(x.arrays):
                        means = found.get((numbers.get(id(body), -1), array.number), set()) if array.is_param else {array}
                        found.setdefault((x.number, number), set()).update(means)
        return found

    def arrays_of(self, body: core.Body, array: ArrayName) -> List[core.ArrayDef]:
        """Returns the declared arrays that a call of a body may mean."""
        number = next((n for n, fun in enumerate(self.program.funs) if fun is body), -1)
        means = self.means.get((number, array.number), set()) if array.is_param else {array}
        return [self.program.arrays[one.number] for one in sorted(means)]

    def hash_bits(self) -> Iterator[Found]:
        """The low bits of a hash choose a cell."""
        weak = Weak(self.program)
        for body, x in self.of_kind(core.Touch):
            for array in self.arrays_of(body, x.array):
                for at in sorted(weak.of(body, x.index)) if array.size > 1 else []:
                    bits = max(1, (array.size - 1).bit_length())
                    yield ('hash-bits', at, f'the low bits of this hash choose a cell of {array.name}, and similar inputs share them',
                           f'take the high bits, as hash<<32>>(..) >> {32 - bits}')

    def index_range(self) -> Iterator[Found]:
        """An index passes the cells of its array: one that is computed, since nothing is known of the value of a parameter."""
        for body, x in self.of_kind(core.Touch):
            lo, hi = self.ranges[id(body)].of(x.index)
            if not self.is_computed(body, x.index):
                continue
            for array in self.arrays_of(body, x.array):
                if hi >= array.size:
                    yield ('index-range', x.index.at, f'this index goes up to {hi}, and {array.name} has {array.size} cells',
                           f'use {array.size} cells or more as there are numbers, or fewer bits')

    def is_computed(self, body: core.Body, e: core.Expr) -> bool:
        """Whether the range of an index is that of a number, a hash, a mask or a shift."""
        if isinstance(e, core.Local):
            values = self.ranges[id(body)].assigned.get(e.number, [])
            return e.number >= body.params and bool(values) and all(self.is_computed(body, value) for value in values if value is not e)
        if isinstance(e, core.Cast):
            return self.is_computed(body, e.arg)
        return isinstance(e, (core.Fixed, core.Hash)) or isinstance(e, core.Un) and e.op == '>>' or isinstance(e, core.Bin) and e.op == '&'

    def always(self) -> Iterator[Found]:
        """A comparison has one answer for all values of its width."""
        for body, x in self.of_kind(core.Bin):
            answer = self.ranges[id(body)].decided(x) if x.op in COMPARE else None
            if answer is not None and is_case(body, x):
                yield 'dead-branch', x.at, f'no value of this match is {x.right.value}', 'leave the case out, or match more bits'
            elif answer is not None:
                yield ('always', x.at, f'this comparison is always {str(answer).lower()}, by the widths and numbers of its operands',
                       'compare with a number within the range, or leave it out')

    def always_in_memops(self) -> Iterator[Found]:
        """The condition of a memop has one answer for all values."""
        for d in self.decls:
            test = d.body[0].test if d.kind == 'memop' and isinstance(d.body[0], tree.Cond) else None
            while isinstance(test, tree.Paren):
                test = test.inner
            if test is None or not isinstance(test.right, tree.Number) and not isinstance(test.left, tree.Number):
                continue
            width = 32 if d.params[0].type.width is None else d.params[0].type.width
            sides = [core.Fixed(width, e.value, e.at) if isinstance(e, tree.Number) else core.Local(0, width, e.at) for e in (test.left, test.right)]
            answer = Ranges(core.Body('', 0, 0, 0, params=1)).decided(core.Bin(test.sign, *sides, width, test.sign_at))
            if answer is not None:
                yield ('always', test.sign_at, f'this comparison is always {str(answer).lower()}, by the width of its operands',
                       'compare with a number within the range, or leave it out')

    def unread(self) -> Iterator[Found]:
        """A local is never read, or a parameter of a function."""
        for body in self.bodies:
            read = {x.number for x in core.walk(body.body) if isinstance(x, core.Local)}
            seen: Set[int] = set()
            for x in core.walk(body.body):
                if isinstance(x, core.Assign) and x.local >= body.params and x.local not in read | seen and body.names[x.local] != TEST_OF_A_MATCH:
                    seen.add(x.local)
                    yield 'unread', x.at, f'{body.names[x.local]} is never read', 'leave it out, or use it'
            d = self.declared.get(body.at)
            if d is None or d.kind != 'fun':
                continue
            values = [p for p in d.params if p.type is not None]
            for number, p in enumerate(values):
                if number not in read and not p.name.startswith('_'):
                    yield 'unread', p.at, f'the parameter {p.name} is never read', 'leave it out, or use it'
            used = {x.array.number for x in core.walk(body.body) if isinstance(x, core.Touch) and x.array.is_param}
            used |= {a.number for x in core.walk(body.body) if isinstance(x, core.Fun) for a in x.arrays if a.is_param}
            for number, p in enumerate(p for p in d.params if p.type is None):
                if number not in used:
                    yield 'unread', p.at, f'the array parameter {p.name} is never called', 'leave it out, or use it'

    def arrays(self) -> Iterator[Found]:
        """An array is only written, or only read, or neither."""
        read: Set[int] = set()
        written: Set[int] = set()
        for body, x in self.of_kind(core.Touch):
            numbers = {a.at for a in self.arrays_of(body, x.array)}
            stores = x.set.yes != ('stored',) or x.set.no != ('stored',)
            dropped = self.drops(body)
            read |= numbers if x.answers and x.at not in dropped else set()
            written |= numbers if stores else set()
        for a in self.program.arrays:
            if a.at not in read and a.at not in written:
                yield 'array-unused', a.at, f'{a.name} is never called', 'leave it out'
            elif a.at not in written:
                yield 'array-unwritten', a.at, f'{a.name} is only read, so that each answer is of a cell that is 0', 'store into it'
            elif a.at not in read:
                yield 'array-unread', a.at, f'{a.name} is only written', 'read it, or leave it out'

    def drops(self, body: core.Body) -> Set[int]:
        """Returns the places of calls whose answer is dropped."""
        return {x.value.at for x in core.walk(body.body) if isinstance(x, core.Drop)}

    def no_handler(self) -> Iterator[Found]:
        """An event without a handler is sent."""
        sent = {x.event for _, x in self.of_kind(core.Gen)}
        places = [d for d in self.decls if d.kind == 'event']
        for number, event in enumerate(self.program.events):
            if event.handler is None and number in sent:
                yield ('no-handler', places[number].at, f'{event.name} is sent and has no handler: it changes no cell, and takes a tick of its switch',
                       'declare a handler, or send nothing')

    def no_sender(self) -> Iterator[Found]:
        """No event of the scenario and of the program leads to a handler."""
        if self.scene is None:
            return
        entered = {e.event for e in self.scene.events}
        while True:
            more = {x.event for body in self.reached(entered) for x in core.walk(body.body) if isinstance(x, core.Gen)} - entered
            if not more:
                break
            entered |= more
        for body in self.program.handlers:
            if body.event not in entered:
                yield ('no-sender', body.at, f'nothing leads to {body.name}: no event of the scenario is one, or sends one',
                       'enter it, send it, or leave the handler out')

    def reached(self, entered: Set[int]) -> List[core.Body]:
        """Returns the handlers of events, and the functions that these call."""
        found = [h for h in self.program.handlers if h.event in entered]
        for body in found:
            for x in core.walk(body.body):
                if isinstance(x, core.Fun) and not any(self.program.funs[x.number] is one for one in found):
                    found.append(self.program.funs[x.number])
        return found

    def dead_branch(self) -> Iterator[Found]:
        """A branch can never be taken: by a condition that is a number, by a case out of range, or by a condition that came before."""
        for body in self.bodies:
            yield from self.dead_in(body, body.body, [])

    def dead_in(self, body: core.Body, stmts: List[core.Stmt], refused: List[core.Expr]) -> Iterator[Found]:
        """Finds dead branches in statements; `refused` are the conditions that were false before on this path, without effects between."""
        for s in stmts:
            if not isinstance(s, core.If):
                refused = []
                continue
            test = s.test
            if isinstance(test, core.Fixed) and (s.yes if test.value == 0 else s.no):
                yield 'dead-branch', s.at, f'the condition is always {str(test.value == 1).lower()}', 'leave out the branch that is never taken'
            if any(same(test, before) for before in refused):
                yield 'dead-branch', s.at, 'this condition was false before on this path', 'leave out this branch'
            yield from self.dead_in(body, s.yes, [])
            yield from self.dead_in(body, s.no, refused + [test] if is_pure(test) else [])
            refused = []

    def cast_loss(self) -> Iterator[Found]:
        """A cast drops bits that may be 1, and that no shift of the same number takes."""
        for body, x in self.of_kind(core.Cast):
            _, hi = self.ranges[id(body)].of(x.arg)
            hi = min(hi, 2 ** width_of(self.program, body, x.arg) - 1)
            kept = [y for y in core.walk(body.body) if isinstance(y, core.Un) and y.op == '>>' and 0 < y.amount <= x.width and same(y.arg, x.arg)]
            if hi >= 2 ** x.width and not kept and not isinstance(x.arg, core.Hash):
                yield ('cast-loss', x.at, f'this cast to {x.width} bits loses the higher bits of a number that may be up to {hi}',
                       'mask or shift the bits that are meant, or keep the width')

    def endless(self) -> Iterator[Found]:
        """A handler sends its own event at once to its own switch, on each path."""
        for body in self.program.handlers:
            for at in self.sends_itself(body.body, body.event):
                yield ('endless', at, f'each {body.name} sends another at once, so that its switch has one at each tick until `stop`',
                       'send it with a delay, or on a condition')

    def sends_itself(self, stmts: List[core.Stmt], event: int) -> List[int]:
        """Returns the places of events that are sent on each path through statements; a branch that does not send ends the search."""
        found: List[int] = []
        for s in stmts:
            if isinstance(s, core.Gen) and s.event == event and s.members is None and 'to' not in s.extras:
                delay = s.args[-1] if 'delay' in s.extras else None
                if delay is None or isinstance(delay, core.Fixed) and delay.value == 0:
                    found.append(s.at)
            elif isinstance(s, core.If):
                yes, no = self.sends_itself(s.yes, event), self.sends_itself(s.no, event)
                found += yes + no if yes and no else []
        return found

    def unlinked(self) -> Iterator[Found]:
        """A group has a member that the scenario lacks, or that no link joins to a switch."""
        if self.scene is None:
            return
        linked = {switch for pair in self.scene.links for switch in pair[:2]}
        for d in self.decls:
            for m in d.members or []:
                if m.value >= self.scene.switches:
                    yield 'unlinked', m.at, f'the scenario has no switch {m.value}', 'name switches of the scenario'
                elif m.value not in linked and self.scene.switches > 1:
                    yield 'unlinked', m.at, f'no link of the scenario joins switch {m.value} to another', 'link it, or leave it out'


def is_case(body: core.Body, x: Any) -> bool:
    """Whether a comparison is that of a case of a match."""
    return x.op == '==' and isinstance(x.left, core.Local) and body.names[x.left.number] == TEST_OF_A_MATCH


def same(a: Any, b: Any) -> bool:
    """Whether two expressions are written alike."""
    if type(a) is not type(b):
        return False
    if isinstance(a, list):
        return len(a) == len(b) and all(same(x, y) for x, y in zip(a, b))
    if not hasattr(a, '__dict__'):
        return bool(a == b)
    return all(same(value, vars(b)[key]) for key, value in vars(a).items() if key != 'at')


def is_pure(e: core.Expr) -> bool:
    """Whether an expression calls no array and no function."""
    return not any(isinstance(x, (core.Touch, core.Fun)) for x in core.walk([e]))


def width_of(program: core.Core, body: core.Body, e: core.Expr) -> int:
    """Returns the width of an expression."""
    if isinstance(e, core.Input):
        return 32
    if isinstance(e, core.Fun):
        return program.funs[e.number].answer or 1
    if isinstance(e, core.Touch):
        return int(e.get.width)
    return 1 if isinstance(e, core.Bin) and e.op in COMPARE else int(e.width)
