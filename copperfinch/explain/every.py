"""Explains all that is wrong with the files of a call, and not only what is refused first."""
from __future__ import annotations

from bisect import bisect_right
from copy import copy
from dataclasses import dataclass, replace
from typing import Any, List, Optional, Sequence, Set, Tuple

from ..model.answers import Answer, Program, ReadFile, Word, judge
from ..model.audit import audit
from ..model.core import Core
from ..model.json_files import Limits, read_limits, read_scene
from ..model.layout import Layout
from ..model.nodes import Code, Node
from ..model.passes import PASSES, Passes, compose
from ..model.refusals import Fault, Refused

from . import Explanation, explanation_of
from .places import Edit, Sources, apart
from .published import PUBLISHED
from .recover import all_wrong

MOST = 100
ROUNDS = 4
NOWHERE = (-1, -1)


class Leaving(Layout):
    """A first fit that leaves out nodes without a place, and all that read what these write."""

    def __init__(self, code: Code, limits: Limits) -> None:
        super().__init__(code, limits)
        self.missing: Set[int] = set()  # what left out nodes write

    def place(self, n: Node) -> bool:
        """Gives a node a place or leaves it out; says False if it has none although all that it reads has one."""
        follows = bool(self.missing & set(n.reads))
        if not follows and super().place(n):
            return True
        self.missing |= set(n.writes)
        self.pairs.append(NOWHERE)
        return follows

    def before(self) -> 'Leaving':
        """Returns the layout as it is now, without the node that was tried last."""
        made = copy(self)
        made.pairs, made.stages, made.missing = self.pairs[:-1], [list(tables) for tables in self.stages], set(self.missing)
        return made

    def all_refused(self) -> List[Refused]:
        """Returns the refusal of the bits, of each array with too many calls, and of each node that has no place."""
        code, limits, found = self.code, self.limits, []
        if code.bits() > limits.bits:
            found.append(Refused(7, f'nofit: bits {code.bits()}', Fault('bits', None, code, limits)))
        for array, a in enumerate(code.core.arrays):
            if len(code.calls(array)) > limits.arms:
                found.append(Refused(7, f'nofit: arms {a.name}', Fault('arms', a.at, code, array, limits)))
        for number, n in enumerate(self.nodes):
            if not self.place(n):
                found.append(Refused(7, f'nofit: node {number}', Fault('node', code.ops[n.ops[0]].at, self.before())))
        return found


def later_files(answer: Answer, core: Optional[Core], passes: Passes) -> List[Refused]:
    """Returns a refusal of each file behind the program, and of the layout, as far as each can be judged."""
    found: List[Refused] = []
    files, limits, code = answer.files, None, None
    for file in ('limits', 'layout', 'scenario', 'placement'):
        try:
            if file == 'limits' and file in files:
                limits = read_limits(files[file])
            elif core is None:
                continue
            elif file == 'layout' and limits is not None and answer.call.command != 'run whole':
                code = compose(core, passes)
                found += Leaving(code, limits).all_refused() if 'placement' not in files else []
            elif file == 'scenario' and file in files:
                read_scene(files[file], core)
            elif file == 'placement' and file in files and code is not None and limits is not None:
                audit(Layout(code, limits), files[file])
        except Refused as refused:
            found.append(refused)
    return found


@dataclass
class Edited:
    """A text after changes, and for each piece of it where it begins, where it comes from, and whether it was written by a change."""

    data: bytes
    pieces: List[Tuple[int, int, bool]]

    def back(self, at: int) -> Tuple[int, bool]:
        """Returns the byte of the text before the changes, and whether it was changed."""
        begin, source, is_new = self.pieces[bisect_right(self.pieces, (at, len(self.data) * 2, True)) - 1]
        return (source, True) if is_new else (source + at - begin, False)


def edited(data: bytes, edits: Sequence[Edit]) -> Edited:
    """Makes changes of a text."""
    made, pieces, size, begin = [], [], 0, 0
    for edit in apart(edits):
        for text, source, is_new in ((data[begin:edit.start], begin, False), (edit.text.encode('latin-1', 'replace'), edit.start, True)):
            pieces.append((size, source, is_new))
            made.append(text)
            size += len(text)
        begin = edit.end
    return Edited(b''.join(made) + data[begin:], pieces + [(size, begin, False)])


class Rounds:
    """All that is wrong in a program: each round mends what has an edit, and shows what was hidden behind it."""

    def __init__(self, answer: Answer, most: int, rounds: int) -> None:
        self.call, self.most = answer.call, most
        self.data = answer.files['program']
        self.plain = Sources(Answer(call=answer.call, files=answer.files, program=Program(answer.program.text)))
        self.before: List[Edited] = []
        self.found: List[Explanation] = []
        self.seen: Set[int] = set()
        self.problems: Set[str] = set()
        for _ in range(rounds):
            made = one_round(self.call, self.data, most)
            edits = [edit for one in made if one.status == 4 or is_unknown(one) for edit in one.edits]
            for one in made:
                self.keep(one)
            if not edits or len(self.found) >= most:
                break
            self.before.append(edited(self.data, edits))
            self.data = self.before[-1].data
        self.found.sort(key=lambda one: one.place.at if one.place else 0)

    def back(self, at: int) -> Tuple[int, bool]:
        """Returns the byte of the program as it was given, and whether a round changed it."""
        is_changed = False
        for step in reversed(self.before):
            at, is_new = step.back(at)
            is_changed = is_changed or is_new
        return at, is_changed

    def keep(self, one: Explanation) -> None:
        """Keeps an explanation of a place that has none yet, with the places of the program as it was given."""
        at, is_changed = self.back(one.place.at) if one.place else (0, False)
        if self.before and (is_changed or at in self.seen or one.words.problem in self.problems and PUBLISHED not in one.words.problem):
            return
        self.seen.add(at)
        self.problems.add(one.words.problem)
        if self.before:
            one.place = self.plain.place('program', at)
            one.notes = [(self.plain.place('program', self.back(place.at)[0]), text) for place, text in one.notes]
            spans = [(self.back(edit.start), self.back(edit.end)) for edit in one.edits]
            one.edits = [replace(edit, start=a, end=b) for edit, ((a, new), (b, newer)) in zip(one.edits, spans)
                         if not new and not newer and b - a == edit.end - edit.start]
        self.found.append(one)


def is_unknown(one: Explanation) -> bool:
    """Whether a refusal is of a name of the published language that is not declared here."""
    return one.words.found == 'an unknown name' and PUBLISHED in one.words.problem


def one_round(call: Any, data: bytes, most: int) -> List[Explanation]:
    """Returns what is wrong in a program as it stands, in the order of places."""
    text = data.decode('latin-1')
    wrong = all_wrong(text)
    files = {'program': data}
    in_file = Sources(Answer(call=call, files=files, program=Program(text)))
    in_text = Sources(Answer(call=call, files=files, program=Program(wrong.repaired.text, expanded=wrong.repaired.expanded)))
    found = [(in_file if of_file(one) else in_text, one) for one in wrong.refusals]
    found.sort(key=lambda pair: place_of(*pair))
    return [explanation_of(where, one) for where, one in found[:most]]


def explain_all(words: Sequence[Word], read: ReadFile, most: int = MOST, rounds: int = ROUNDS, passes: Passes = PASSES) -> List[Explanation]:
    """Explains all that is wrong with a call of `lucid`, at most so many; the first is the program's own refusal.

    `words` are those of the call and `read` gives the bytes of a file, or raises OSError. An accepted call gives no explanation. Nothing is
    reported that follows from a refused declaration. The others are in the order of their places in the program, and then of the files.
    Each round mends what has an edit, and finds what was hidden behind it: one round is quicker.
    """
    answer = judge(list(words), read, runs=False, passes=passes)
    own, sources = answer.refused, Sources(answer)
    if own is None:
        return []
    first = explanation_of(sources, own)
    if answer.program is None:
        return [first]
    found: List[Explanation] = []
    if answer.program.core is None and (own.fault is None or own.fault.rule != 'nesting'):
        found = Rounds(answer, most, rounds).found
    found += [explanation_of(sources, one) for one in later_files(answer, answer.program.core, passes)]
    return [first] + [one for one in found if not same(one, first)][:most - 1]


def same(a: Explanation, b: Explanation) -> bool:
    """Whether two explanations are of one fault."""
    places = [one.place and (one.place.file, one.place.at) for one in (a, b)]
    return a.refusal == b.refusal and places[0] == places[1]


def of_file(refused: Refused) -> bool:
    """Whether the place of a refusal is one of the file as it was given."""
    return refused.fault is not None and refused.fault.rule in ('no token', 'template', 'two templates', 'too long')


def place_of(sources: Sources, refused: Refused) -> int:
    """Returns the byte of the file at which a refusal is."""
    return sources.source_of(refused.fault.at) if refused.fault is not None and isinstance(refused.fault.at, int) else 0
