"""The typing rules of statements and blocks (docs/LANGUAGE.md, Statements)."""
from typing import ChainMap, Dict, List, Optional, Tuple

from . import core, tree
from .refusals import Fault
from .types import BOOL, Entry, Expressions, Type, bits, number, value_type

NEVER, SOME, ALWAYS = 'never', 'on some paths', 'always'
MOST_CASES = 32
Steps = Tuple[List[core.Stmt], str]  # statements, and on which paths they return


class Statements(Expressions):
    """The rules of the statements of one body, with its locals so far and the texts of the program so far."""

    def __init__(self, names: ChainMap[str, Entry], made: core.Body, forms: List[str], answer: Optional[Type]) -> None:
        super().__init__(names)
        self.made, self.forms, self.answer = made, forms, answer

    def new_local(self, t: Type, name: str) -> int:
        """Numbers one more local."""
        self.made.locals.append(bits(t))
        self.made.names.append(name)
        return len(self.made.locals) - 1

    def block(self, stmts: List[tree.Stmt], begin: int = 0) -> Steps:
        """If: a statement that returns on some path is the last of its block; `if (c) {A} rest` means `if (c) {A} else {rest}` if A
        returns on every path. Names: a declaration is visible to the end of its block."""
        outer, self.names = self.names, self.names.new_child()
        found: List[core.Stmt] = []
        ending, has_rest = NEVER, False
        for i in range(begin, len(stmts)):
            s = stmts[i]
            if ending != NEVER:
                raise Fault('behind return', s.at, notes=[(stmts[i - 1].at, 'this returns ' + ending)])
            if isinstance(s, tree.Cond):
                test, (yes, first) = self.value(BOOL, s.test), self.block(s.yes)
                has_rest = s.no is None and first == ALWAYS
                no, second = self.block(stmts, i + 1) if has_rest else self.block(s.no or [])
                ending = first if first == second else SOME
                found.append(core.If(test, yes, no, ending, s.at))
            else:
                more, ending = self.statement(s)
                found += more
            if has_rest:
                break
        self.names = outer
        return found, ending

    def statement(self, s: tree.Stmt) -> Steps:
        """Locals and assignments, Calls of arrays, Generate, Return: types a statement that is no `if`."""
        if isinstance(s, tree.Match):
            return self.match(s)
        if isinstance(s, tree.Return):
            if (s.value is None) != (self.answer is None):
                raise Fault('return', s.at, self.answer)
            return [core.Return(None if s.value is None else self.value(self.answer, s.value), s.at)], ALWAYS
        if isinstance(s, tree.Declare):
            t = value_type(s.type)
            value, local = self.value(t, s.value), self.new_local(t, s.name)
            self.names[s.name] = Entry('local', t, local)
            return [core.Assign(local, value, s.at)], NEVER
        if isinstance(s, tree.Assign):
            entry = self.entry(s.name, s.at, 'local')
            return [core.Assign(entry.number, self.value(entry.type, s.value), s.at)], NEVER
        if isinstance(s, tree.Do):
            return [core.Drop(self.call(s.call) if isinstance(s.call, tree.Call) else self.access(s.call), s.at)], NEVER
        return [self.printf(s) if isinstance(s, tree.Printf) else self.sends(s.sent, s.at)], NEVER

    def match(self, s: tree.Match) -> Steps:
        """Match: the value is evaluated once, into a local of its own; each case is an `if` in the `else` of the one before."""
        if len(s.cases) > MOST_CASES:
            self.made.long_matches.append(s.at)
        width = self.free_width(s.test)
        test = self.value(width, s.test)
        local = self.new_local(width, 'the test of the match')
        seen: Dict[int, int] = {}
        arms: List[Tuple[core.Expr, Steps]] = []
        for case, body in s.cases:
            fixed = number(width, case)
            if case.value in seen:
                raise Fault('two cases', case.at, case.value, notes=[(seen[case.value], 'the first of them')])
            seen[case.value] = case.at
            arms.append((core.Bin('==', core.Local(local, width, case.at), fixed, width, case.at), self.block(body)))
        found, ending = self.block(s.last)
        for equal, (body, first) in reversed(arms):
            ending = first if first == ending else SOME
            found = [core.If(equal, body, found, ending, equal.at)]
        return [core.Assign(local, test, s.at)] + found, ending

    def printf(self, s: tree.Printf) -> core.Say:
        """Printf: it has as many further arguments as its text has `%d`."""
        args = [self.free(x) for x in s.args]
        if s.text.count('%d') != len(args):
            raise Fault('holes', s.at, s.text.count('%d'), len(args))
        if s.text not in self.forms:
            self.forms.append(s.text)
        return core.Say(self.forms.index(s.text), args, s.at)

    def sends(self, v: tree.Sent, at: int) -> core.Gen:
        """Generate: a call of a visible event, in at most one delay and one locate; a target may be the bare name of a group."""
        if isinstance(v, tree.SentCall):
            entry = self.entry(v.name, v.at, 'event')
            return core.Gen(entry.number, self.given(v, entry)[1], [], None, at)
        made = self.sends(v.inner, at)
        group = self.names.get(v.more.name) if v.word == 'to' and isinstance(v.more, tree.Name) else None
        if v.word in made.extras or v.word == 'to' and made.members is not None:
            raise Fault('second', v.at, 'delay' if v.word == 'delay' else 'locate')
        if group is not None and group.kind == 'group':
            made.members = group.members
        else:
            made.args.append(self.free(v.more))
            made.extras.append(v.word)
        return made
