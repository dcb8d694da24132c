"""Explanations of refusals and of layouts, on the second implementation in copperfinch.model (not verified).

`explain(words, read_file)` explains the call of `lucid` with these words, and `every.explain_all(words, read_file)` all that is wrong with
it; tools/explain is their command line. The modules are `words` for the text of each refusal, `places` for lines and columns, `nodes` for
the nodes of a program, `published` for forms of the published language, `remedies` for what depends on the text round a fault, `recover` for what is wrong behind a refusal, and `where` for the
line of a refusal.
"""
from __future__ import annotations

from dataclasses import dataclass, field
from typing import Any, Dict, List, Optional, Sequence, Tuple

from ..model.answers import Answer, ReadFile, Word, judge
from ..model.json_files import Limits, read_limits
from ..model.layout import Layout
from ..model.passes import PASSES, Passes, compose
from ..model.refusals import Fault, Refused

from . import chains
from .nodes import Described
from .places import Edit, Place, Sources
from .published import name_form
from .remedies import mend, of_size
from .words import Words, words_of

GREATEST = Limits(stages=32, tables=64, rows=1024, arrays=64, arms=64, bits=1048576)


@dataclass
class Explanation:
    """A refusal that is explained: its line, its words, its place where it has one, what else is to be said, and the nodes.

    `edits` are the remedy where that is known to the byte: of the file of the place.
    """

    refusal: str
    status: int
    words: Words
    place: Optional[Place] = None
    notes: List[Tuple[Place, str]] = field(default_factory=list)
    details: List[str] = field(default_factory=list)
    table: List[str] = field(default_factory=list)
    edits: List[Edit] = field(default_factory=list)

    def lines(self, begins: bool = True) -> List[str]:
        """The explanation, without the refusal's own line; `begins` says whether the place is named where its declaration begins."""
        head = self.place.head() + ': ' if self.place else ''
        lines = [f'{head}error: {self.words.problem}'] + (self.place.shown() if self.place else [])
        lines += [f'rule: {self.words.rule}', f'remedy: {self.words.remedy}']
        for place, text in self.notes if begins else [note for note in self.notes if not note[1].endswith('begins here')]:
            lines += [f'{place.head()}: note: {text}'] + place.shown()
        return lines + self.details + self.table

    def data(self) -> Dict[str, Any]:
        """The explanation as JSON."""
        words = self.words
        return {'refusal': self.refusal, 'status': self.status, 'place': self.place.data() if self.place else None,
                'problem': words.problem, 'expected': words.expected, 'found': words.found, 'rule': words.rule, 'remedy': words.remedy,
                'notes': [{**place.data(), 'text': text} for place, text in self.notes], 'details': self.details,
                'edits': [edit.data() for edit in self.edits]}


def remedies(text: str, fault: Fault, words: Words) -> List[Edit]:
    """Writes what the text round a fault of a program says of it: a form of the published language, or a remedy; returns its edits."""
    if not isinstance(fault.at, int) or fault.rule in ('no token', 'no tree') and of_size(text, fault.at, words):
        return []
    edits = name_form(text, fault, words)
    return mend(text, fault, words) if edits is None else edits


def explanation_of(sources: Sources, refused: Refused) -> Explanation:
    """Explains a refusal of the files of a call."""
    fault = refused.fault
    assert fault is not None  # every refusal has one
    at, more = fault.at, {}
    if isinstance(at, tuple):
        key = str(at[0]) if at else ''
        at, found = sources.span(refused.file, at, fault.rule == 'other key')
        more = {'value': {'found': found, 'file': refused.file, 'key': key}, 'other key': {'found': found}}.get(fault.rule, {})
    if fault.rule == 'no token':
        more = {'at': at}
    words = words_of(fault.rule, fault.values, **more)
    edits: List[Edit] = []
    if refused.file == 'program':
        text = sources.text(fault.rule)
        edits = sources.edits(remedies(text, fault, words))
    notes = list(words.notes) + fault.notes
    if at is None and notes:
        at = notes[0][0]
    made = Explanation(refused.line, refused.status, words, notes=[(sources.place('program', place), text) for place, text in notes],
                       edits=edits)
    if at is not None:
        made.place = sources.place(refused.file, at)
        made.details = sources.copies(at) if refused.file == 'program' else []
    if fault.values and isinstance(fault.values[0], Layout):
        described = Described(fault.values[0].code, sources)
        if refused.status == 7:
            words.problem = described.problem(fault.values[0])
            made.details += described.why(fault.values[0])
    return made


def fill_explanation(report: 'Report', answer: Answer, refused: Refused) -> None:
    """Explains the refusal of an answer."""
    sources, values = Sources(answer), refused.fault.values if refused.fault else ()
    report.explanation = explanation_of(sources, refused)
    if values and isinstance(values[0], Layout):
        report.part = 'the nodes of the program'
        fit = values[0]
        report.explanation.table = Described(fit.code, sources).table(fit if refused.status == 7 else Layout(fit.code, fit.limits))


@dataclass
class Report:
    """What is said of a call: of a refusal why, and of a program that is accepted its nodes and its layout. `part` is being computed."""

    answer: Optional[Answer] = None
    explanation: Optional[Explanation] = None
    part: str = 'the explanation'
    nodes: List[Dict[str, Any]] = field(default_factory=list)
    table: List[str] = field(default_factory=list)
    tables: List[Dict[str, Any]] = field(default_factory=list)
    placement: Optional[Dict[str, Any]] = None
    chain: List[str] = field(default_factory=list)
    counts: Dict[str, Any] = field(default_factory=dict)

    def data(self) -> Dict[str, Any]:
        """The report as JSON."""
        return {'refused': self.explanation.data() if self.explanation else None, 'counts': self.counts or None, 'nodes': self.nodes,
                'tables': self.tables, 'placement': self.placement, 'chain': self.chain}


def tables_of(made: Layout) -> List[Dict[str, Any]]:
    """The tables of a first fit, each with its nodes, its rows and its arrays."""
    found: List[Dict[str, Any]] = []
    for k, tables in enumerate(made.stages):
        for t, table in enumerate(tables):
            nodes = [i for i, pair in enumerate(made.pairs) if pair == (k, t)]
            called = [number for number in (made.nodes[i].array for i in nodes) if number is not None]
            arrays = [made.code.core.arrays[number].name for number in called]
            found.append({'stage': k, 'table': t, 'rows': len(table), 'nodes': nodes, 'arrays': arrays})
    return found


def explain(words: Sequence[Word], read: ReadFile, with_nodes: bool = True, passes: Passes = PASSES) -> Report:
    """Explains a call of the program with these passes; also lists the nodes of the program, unless that is not wanted. No network runs."""
    report = Report()
    fill(report, words, read, with_nodes, passes)
    return report


def fill(report: Report, words: Sequence[Word], read: ReadFile, with_nodes: bool, passes: Passes = PASSES) -> None:
    """Explains a call, part by part: the answer, the explanation, and the nodes."""
    answer = judge(list(words), read, runs=False, passes=passes)
    report.answer = answer
    if answer.refused is not None:
        fill_explanation(report, answer, answer.refused)
    program = answer.program
    if program is None or program.core is None or not with_nodes:
        return
    report.part = 'the nodes and the tables of the program'
    try:
        limits = read_limits(answer.files['limits']) if 'limits' in answer.files else GREATEST
        code = compose(program.core, passes)
    except Refused:
        return
    made = Layout(code, limits)
    try:
        made.fit()
        report.placement = {'nodes': [list(pair) for pair in made.pairs]}
    except Refused:
        pass
    described = Described(code, Sources(answer))
    report.nodes = [described.data(i, made) for i in range(len(made.nodes))]
    report.table = described.table(made)
    report.chain = chains.shown(made, described) if report.placement is not None else []
    report.tables = tables_of(made)
    report.counts = {'ops': len(code.ops), 'bits': code.bits(), 'nodes': len(made.nodes), 'removed': [count for _, count in code.gone], 'limits': vars(limits)}
