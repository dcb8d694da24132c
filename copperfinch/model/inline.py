"""The two counts that are asked before calls are inlined: operations, and statements with calls (docs/ERRORS.md, 7 nofit)."""
from typing import List, Tuple

from . import core
from .normal import Frame, Held, Translation, number
from .refusals import Fault, Refused

MOST_OPS, MOST_SIZE, LAST = 4096, 262144, 2 ** 64 - 1


class Counter(Translation):
    """Translates each body alone. A call is not inlined: it has the operations, statements and calls of its function."""

    def __init__(self, c: core.Core) -> None:
        super().__init__(c)
        self.funs: List[Tuple[int, int]] = []
        for body in c.funs:
            self.funs.append(self.counts(body))

    def counts(self, body: core.Body) -> Tuple[int, int]:
        """Counts the operations of a body, and its statements and calls; both counts stop at 2^64 - 1."""
        self.ops, self.size, self.code.ops = 0, 0, []
        arrays = [core.ArrayName(False, 0)] * len(body.arrays)
        self.block(body.body, Frame(arrays, {i: number(0, body.locals[i]) for i in range(body.params)}))
        return min(LAST, self.ops + len(self.code.ops)), min(LAST, self.size)

    def block(self, stmts: List[core.Stmt], f: Frame) -> None:
        """Counts each statement; an event of a group is one for each argument, for the delay and for each member."""
        for s in stmts:
            self.size += len(s.args) + len(s.members) if isinstance(s, core.Gen) and s.members is not None else 1
        super().block(stmts, f)

    def call(self, x: core.Fun, args: List[Held], f: Frame) -> Held:
        """Counts a call and what its function has; any value may stand for its answer."""
        ops, size = self.funs[x.number]
        self.ops, self.size = self.ops + ops, self.size + 1 + size
        return number(0, 1)


def check_counts(c: core.Core) -> None:
    """Refuses a program whose handlers have too many operations, or else too many statements and calls."""
    counter = Counter(c)
    counts = [counter.counts(h) for h in c.handlers]
    for k, (name, most) in enumerate((('ops', MOST_OPS), ('size', MOST_SIZE))):
        total = min(LAST, sum(count[k] for count in counts))
        if total > most:
            h, largest = max(zip(c.handlers, (count[k] for count in counts)), key=lambda pair: pair[1])
            raise Refused(7, f'nofit: {name} {total}', Fault(
                name, h.at, total, most, notes=[(h.at, f'the handler of {h.name} alone has {largest}')]))
