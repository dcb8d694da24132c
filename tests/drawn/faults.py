#!/usr/bin/env python3
"""How many drawn cases it takes to see a wrong meaning: faults of one line in copies of the second implementation.

    tests/drawn/faults.py [--runs N] [--seed S] [--only WORD]

Each fault of FAULTS changes one text in a file of copperfinch/model, on a copy. The cases that `tests/run drawn` draws from the seed are
answered by the copy, one after another, until its answer is another than that of the unchanged implementation. The output is a table
with the number of that case, counted from 1. The status is 1 if a fault is not found, or if its text is not in its file exactly once.

It measures the generator, and needs no built program: each case with another answer is one at which a program with that fault fails.
"""
from __future__ import annotations

import argparse
import os
import pickle
import shutil
import subprocess
import sys
import tempfile
from concurrent.futures import ThreadPoolExecutor
from dataclasses import dataclass
from pathlib import Path
from typing import List, Optional, Tuple

TOP = Path(__file__).resolve().parents[2]
sys.dont_write_bytecode = True
sys.path[:0] = [str(TOP / 'tests'), os.environ.get('LUCID_MODEL', str(TOP))]
import copperfinch.model  # noqa: E402, F401; before the cases, which look for it in the checkout
from drawn.cases import Case, draw_case  # noqa: E402
from copperfinch.bounded import deeply  # noqa: E402

Given = Tuple[int, bytes, bytes]  # an exit code and both streams
STEP = 200


@dataclass(frozen=True)
class Fault:
    """A fault: what it does, its file, and the text that another replaces."""

    name: str
    file: str
    old: str
    new: str


FAULTS = [
    Fault('a comparison without its equal case', 'values.py', "'<=': lambda a, b: a <= b", "'<=': lambda a, b: a < b"),
    Fault('a saturated sum one too large', 'values.py', 'min(a + b, 2 ** w - 1)', 'min(a + b, 2 ** w)'),
    Fault('a left shift that keeps all bits', 'values.py', 'low(value << amount, width)', 'value << amount'),
    Fault('branches of a memop swapped', 'values.py', 'not COMPARE[self.test[0]]', 'COMPARE[self.test[0]]'),
    Fault('bytes of a hash in the other order', 'values.py', "'little'", "'big'"),
    Fault('a free place of 32 bits if its first leaf is a number', 'types.py',
          'self.leaf_width(e.right) if left is None else left', 'left'),
    Fault('no else for the rest after an if that returns', 'statements.py', 's.no is None and first == ALWAYS', 'False'),
    Fault('outs of both branches added', 'declarations.py', 'max(most_outs(x.yes, funs), most_outs(x.no, funs))',
          'most_outs(x.yes, funs) + most_outs(x.no, funs)'),
    Fault('calls of arrays in a first branch forgotten', 'order.py', '{**first, **self.found.ends}', 'self.found.ends'),
    Fault('instances by falling width', 'expand.py', 'enumerate(sorted(t.used))', 'enumerate(sorted(t.used, reverse=True))'),
    Fault('an index beyond the array is its last cell', 'interpret.py', 'i = parts[0] % len(cells)',
          'i = min(parts[0], len(cells) - 1)'),
    Fault('a group of which one member gets the event', 'interpret.py', 's.members or [to]', '(s.members or [to])[:1]'),
    Fault('no moves before the events of a group', 'normal.py', 'if is_group else', 'if False else'),
    Fault('outs behind an if in the slots of its branches', 'normal.py', 'max(end[2] for end in ends)', 'slot'),
    Fault('calls behind an if before those in its branches', 'normal.py', 'max(end[1] for end in ends)', 'place'),
    Fault('no join of an answer that both branches hold by the same', 'normal.py', 'if yes == no and not always:', 'if yes == no:'),
    Fault('guards that do not keep what they read', 'passes.py', 'read.update(op.reads())',
          'read.update(x.value for x in op.operands if x.is_field)'),
    Fault('a test of another width made direct', 'passes.py', 'op.width != code.widths[left.value] or ', ''),
    Fault('a call of an array before what is at its level', 'nodes.py', '2 * self.number + 1 if', '2 * self.number if'),
    Fault('a table with one row too many', 'layout.py', 'if len(table) <= self.limits.rows', 'if len(table) <= self.limits.rows + 1'),
    Fault('a stage with one array too many', 'layout.py', 'len(self.arrays(k)) >= self.limits.arrays',
          'len(self.arrays(k)) > self.limits.arrays'),
    Fault('a node beside what it reads', 'layout.py', 'max((s + 1 for', 'max((s for'),
    Fault('rows that never decide are kept', 'layout.py', ' and not any(row.pattern <= pattern for row in kept)', ''),
    Fault('a placed node beside what it reads', 'audit.py', 'made.pairs[j][0] < made.pairs[i][0]', 'made.pairs[j][0] <= made.pairs[i][0]'),
    Fault('later rows that match act, too', 'drive.py', 'break', 'pass'),
    Fault('a window one tick too long', 'network.py', 'start <= departs < until', 'start <= departs <= until'),
    Fault('events that became ready at one tick by switch, then tick', 'network.py', 'True, tick, me, index,', 'True, me, tick, index,'),
    Fault('sent events before those of the file', 'network.py', '(e.at, False, 0, 0, i,', '(e.at, True, LAST, 0, i,'),
    Fault('a way back that takes no time', 'network.py', 'self.limits.stages + self.limits.recirc', 'self.limits.stages'),
    Fault('a snapshot one step late', 'drive.py', 'scene.steps[:snap_after]', 'scene.steps[:snap_after and snap_after + 1]')]


def answered(case: Case) -> Given:
    """The answer of the second implementation that is imported here; one that ends by an exception has the exit code -1."""
    try:
        made = case.model()
        return made.status, made.out, made.err
    except Exception as e:  # a fault may break anything
        return -1, b'', repr(e).encode()


def first_difference() -> None:
    """Reads cases and answers from standard input, and prints the number of the first case with another answer, if there is one."""
    pairs: List[Tuple[Case, Given]] = pickle.load(sys.stdin.buffer)
    for number, (case, given) in enumerate(pairs):
        if answered(case) != given:
            print(number)
            return


def search(fault: Fault, data: bytes) -> Optional[int]:
    """Returns the number of the first case with another answer, if there is one. A fault whose text is not there once is none."""
    with tempfile.TemporaryDirectory(prefix='fault') as folder:
        shutil.copytree(TOP / 'copperfinch', Path(folder, 'copperfinch'))
        path = Path(folder, 'copperfinch/model', fault.file)
        text = path.read_text()
        if text.count(fault.old) != 1:
            return None
        path.write_text(text.replace(fault.old, fault.new))
        done = subprocess.run([sys.executable, __file__, '--answer'], input=data, capture_output=True,
                              env={**os.environ, 'LUCID_MODEL': folder})
    return int(done.stdout) if done.stdout else None


def main() -> int:
    """Searches all faults of the command line, some cases at a time."""
    parser = argparse.ArgumentParser(description=__doc__, formatter_class=argparse.RawDescriptionHelpFormatter)
    parser.add_argument('--runs', type=int, default=3000, help='the most cases for a fault')
    parser.add_argument('--seed', type=int, default=0)
    parser.add_argument('--only', default='', help='faults with this text in their name')
    parser.add_argument('--jobs', type=int, default=min(4, os.cpu_count() or 1))
    parser.add_argument('--answer', action='store_true', help=argparse.SUPPRESS)
    a = parser.parse_args()
    if a.answer:
        deeply(first_difference)
        return 0
    waiting = [fault for fault in FAULTS if a.only in fault.name]
    print('| Fault | File | Drawn cases | Call |\n|---|---|---|---|')
    for first in range(0, a.runs, STEP):
        cases: List[Case] = deeply(lambda: [draw_case(a.seed, number) for number in range(first, min(a.runs, first + STEP))])
        data = pickle.dumps(deeply(lambda: [(case, answered(case)) for case in cases]))
        with ThreadPoolExecutor(a.jobs) as pool:
            found = dict(zip(waiting, pool.map(lambda fault: search(fault, data), waiting)))
        for fault, number in found.items():
            if number is not None:
                print(f'| {fault.name} | `{fault.file}` | {first + number + 1} | `{cases[number].command}` |', flush=True)
        waiting = [fault for fault, number in found.items() if number is None]
    for fault in waiting:
        print(f'| {fault.name} | `{fault.file}` | not found in {a.runs} | |')
    return int(len(waiting) > 0)


if __name__ == '__main__':
    sys.exit(main())
