"""Each pass of the second implementation keeps the law of passes on drawn valid code, also such that no program gives.

Draws code (tests/drawn/codes.py) and applies each pass alone: the result is valid, its nodes follow their writers, it has no more operations,
and it has the same cells and outs for drawn cells and inputs. Then each line of MUTANTS leaves a condition of a pass out. A mutant must be
noticed on one of the same codes.

Fails on a pass without one of its conditions (the mutants). It cannot see passes of the program; `drawn` compares those.
"""
from __future__ import annotations

import random
from dataclasses import replace
from typing import Any, Callable, Dict, List, Optional, Tuple

from harness import TOP, Group
from copperfinch.model.more_passes import MORE
from copperfinch.model.nodes import Code, Op
from drawn.codes import difference, draw_code, fault_of

CODES, RUNS = 500, 10
Pass = Callable[[Code], List[Op]]
# What the mutant does, its module, its pass, and the text that another replaces.
MUTANTS: List[Tuple[str, str, str, str, str]] = [
    ("copies a source of any width", "passes", "copies", "source.is_field and code.widths[source.value] <= code.widths[field]", "source.is_field"),
    ("copies without the guard of the move", "passes", "copies", "or not set(writer.guard) <= set(reader.guard)", ""),
    ("folds the whole number", "passes", "fold", "low(source.value, code.widths[field])", "source.value"),
    ("folds without the guard of the move", "passes", "fold", "or not set(writer.guard) <= set(reader.guard)", ""),
    ("removes calls of arrays", "passes", "dead", "('touch', 'gen', 'say')", "('gen', 'say')"),
    ("removes what only guards read", "passes", "dead", "read.update(op.reads())", "read.update(x.value for x in op.operands if x.is_field)"),
    ("tests outside the guard of the comparison", "passes", "direct", "if found is not None and all(set(code.ops[i].guard) <= guard for guard in guards.get(field, []))", "if found is not None"),
    ("tests at another width", "passes", "direct", "or op.width != code.widths[left.value]", ""),
    ("tests with a number that does not fit", "passes", "direct", "or right.value >= 2 ** op.width", ""),
    ("hashes what a cast reads", "more_passes", "casts", "replace(op, kind='move') if op.kind == 'cast'", "replace(op, kind='hash') if op.kind == 'cast'"),
    ("tests a source of another width", "more_passes", "sources", "source.is_field and code.widths[source.value] == code.widths[op.to]", "source.is_field"),
    ("tests a source outside the guard of its writer", "more_passes", "sources", "has_source(code, writer) and all(set(writer.guard) <= guard for guard in guards[field])", "has_source(code, writer)"),
    ("tests a source by a comparison of another width", "more_passes", "sources", "and op.width == code.widths[source.value] and", "and"),
    ("tests a source with a number that does not fit", "more_passes", "sources", "and number.value < 2 ** op.width", ""),
    ("merges over a reader", "more_passes", "merge", "or len(readers[field]) != 1", "or not readers[field]"),
    ("merges under another guard", "more_passes", "merge", "set(writer.guard) == set(move.guard)", "set(writer.guard) <= set(move.guard)"),
    ("merges into a field of another width", "more_passes", "merge", "and code.widths[field] == code.widths[move.to or 0]", ""),
    ("lifts from literals that readers lack", "more_passes", "lift", "return set(op.reads()) | ({op.to} if op.to is not None else set())", "return {op.to} if op.to is not None else set()"),
    ("lifts from literals that other writers lack", "more_passes", "lift", "*users[op.to]", "*(users[op.to][1:] or users[op.to])"),
    ("lifts an operation with an effect", "more_passes", "lift", "if op.kind not in PURE or op.to is None:", "if op.to is None:"),
    ("lifts from a guard that contradicts itself", "more_passes", "lift", "set() if contradicts_itself(op.guard) else set(op.guard)", "set(op.guard)"),
]


def run(group: Group) -> None:
    codes = {seed: draw_code(seed) for seed in range(CODES)}
    invalid = [(seed, fault_of(code)) for seed, code in codes.items() if fault_of(code) is not None]
    group.check("drawn codes are valid", not invalid, invalid[:1])
    changed: Dict[str, int] = {}
    for name, one in dict(MORE).items():
        made = {seed: replace(code, ops=one(code)) for seed, code in codes.items()}
        faults = ((seed, difference(codes[seed], new, random.Random(seed), RUNS)) for seed, new in made.items())
        wrong = next((fault for fault in faults if fault[1] is not None), None)
        group.check(f"{name} keeps the law", wrong is None, wrong)
        changed[name] = sum(new.ops != codes[seed].ops for seed, new in made.items())
        group.check(f"{name} changes many codes", changed[name] * 20 > len(codes), changed[name])
    for what, module, name, old, new_text in MUTANTS:
        group.check(f"a mutant that {what} is noticed", noticed(mutant(module, name, old, new_text), codes) is not None)
    group.note(f"{len(codes)} codes, changed by " + ", ".join(f"{name} {count}" for name, count in changed.items()))


def mutant(module: str, name: str, old: str, new: str) -> Pass:
    """Returns a pass of a copy of its module in which one text is another."""
    text = (TOP / f"copperfinch/model/{module}.py").read_text()
    assert text.count(old) == 1, (module, old, text.count(old))
    names: Dict[str, Any] = {"__name__": f"copperfinch.model.{module}", "__package__": "copperfinch.model"}
    exec(compile(text.replace(old, new), f"mutant of {module}", "exec"), names)
    return names[name]


def noticed(one: Pass, codes: Dict[int, Code]) -> Optional[int]:
    """Returns the seed of the first code on which a pass breaks the law, if there is one."""
    for seed, code in codes.items():
        if difference(code, replace(code, ops=one(code)), random.Random(seed), RUNS) is not None:
            return seed
    return None
