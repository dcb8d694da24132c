"""How many stages a program needs: a longest chain of nodes that wait for one another, and a number of stages that no pass goes below."""
from __future__ import annotations

from collections import defaultdict
from dataclasses import dataclass, replace
from typing import DefaultDict, Dict, List, Optional, Sequence, Tuple

from ..model import passes
from ..model.layout import Layout
from ..model.nodes import Code, Op
from ..model.values import COMPARE

from .nodes import Described

PURE = ('un', 'bin', 'cast', 'hash', 'move')
# Signs of one bit that guards can take the place of.
LOGIC = ('&', '|', '^', '==', '!=')
TURNED = {'<': '>', '>': '<', '<=': '>=', '>=': '<='}
# Times that an array's stage is computed anew; each adds a stage at most, and there are 32.
ROUNDS = 70


@dataclass(frozen=True)
class Link:
    """A node of a chain, and the operation of it that waits for the node before, by a guard or by an operand; None of the first node."""

    node: int
    waiting: Optional[int] = None
    by_guard: bool = False


def longest(made: Layout) -> List[Link]:
    """Returns the nodes of a chain that ends in the last stage, the first node first. It begins behind stage 0 only if a stage before is full."""
    if not made.pairs:
        return []
    links: List[Link] = []
    at = max(range(len(made.pairs)), key=lambda i: made.pairs[i][0])
    while True:
        node, stage = made.nodes[at], made.pairs[at][0]
        before = next((i for i, other in enumerate(made.nodes) if made.pairs[i][0] == stage - 1 and other.writes & node.reads), None)
        if before is None:
            return [*links, Link(at)][::-1]
        written = made.nodes[before].writes
        waiting = next(number for number in node.ops if written & set(made.code.ops[number].reads()))
        guards = {literal.field for literal in made.code.ops[waiting].guard}
        links.append(Link(at, waiting, bool(written & guards)))
        at = before


def shown(made: Layout, described: Described) -> List[str]:
    """Returns a line for each node of that chain: its stage, its place, what it is, its handlers, and how it waits."""
    links = longest(made)
    lines: List[str] = []
    for link, after in zip(links, [*links[1:], None]):
        handlers = ", ".join(described.handlers(made.nodes[link.node])) or "all events"
        head = f"stage {made.pairs[link.node][0]}: {described.where(link.node)} {described.what(link.node)}, of {handlers}"
        lines.append(head + waits(made, described, link) + hands_on(made, described, link, after))
    return lines


def waits(made: Layout, described: Described, link: Link) -> str:
    """Says how a node waits for the one before it; of several calls of an array, which one waits."""
    if link.waiting is None:
        return "" if made.pairs[link.node][0] == 0 else ": no earlier stage has room for it"
    how = "a guard waits" if link.by_guard else "an operand waits"
    if len(made.nodes[link.node].ops) == 1:
        return f": {how}"
    op = made.code.ops[link.waiting]
    return f": {how}, of the call at {described.at(op.at)}{in_handler(described, op)}"


def hands_on(made: Layout, described: Described, link: Link, after: Optional[Link]) -> str:
    """Says that the calls of an array, which stand in one stage, have the chain go on in another handler."""
    if link.waiting is None or after is None or after.waiting is None:
        return ""
    read = set(made.code.ops[after.waiting].reads())
    writers = [made.code.ops[number] for number in made.nodes[link.node].ops if made.code.ops[number].to in read]
    waiting = made.code.ops[link.waiting]
    if not writers or any(events(op) == events(waiting) for op in writers):
        return ""
    return f"; the chain goes on behind the call at {described.at(writers[0].at)}{in_handler(described, writers[0])}"


def events(op: Op) -> List[int]:
    """Returns the events that an operation names in its guard."""
    return [literal.value for literal in op.guard if literal.field == 0 and literal.equal]


def in_handler(described: Described, op: Op) -> str:
    """Returns the handler of an operation, in words."""
    names = described.code.core.events
    return "".join(f" in {names[number].name}" for number in events(op)[:1] if number < len(names))


def stages_of(made: Layout) -> int:
    """Returns how many stages a first fit takes."""
    return max((stage + 1 for stage, _ in made.pairs), default=0)


def least(normal: Code) -> int:
    """Returns a number of stages that no pass goes below: of the normal form of a program.

    Only calls of arrays and outs count, and one stage for all that is computed between two of them. Moves, tests by equality with a number,
    and, or, not count nothing. A field of several writers waits for their guards; what is computed otherwise does not wait for its own, and
    neither does a call that only reads. Each operand is taken as needed. All calls of an array stand in one stage.
    """
    code = normal
    for one in (passes.fold, passes.copies, passes.dead):
        code = replace(code, ops=one(code))
    top = greatest(code)
    counts: DefaultDict[int, int] = defaultdict(int)
    for op in code.ops:
        if op.to is not None:
            counts[op.to] += 1
    stages: Dict[int, int] = {}
    last = 0
    for _ in range(ROUNDS):
        before = dict(stages)
        last = walk(code, top, counts, stages)
        if before == stages:
            break
    return last + 1


def walk(code: Code, top: Sequence[int], counts: Dict[int, int], stages: Dict[int, int]) -> int:
    """Finds by one walk the last stage that is needed; `stages` has the stage of each array, and is raised."""
    # Of each field, the stages behind calls that it needs, and the stage from which it can be read.
    there: Dict[int, Tuple[int, int]] = {}
    last = 0

    def latest(fields: Sequence[int]) -> Tuple[int, int]:
        found = [there.get(it, (0, 0)) for it in fields]
        return max((it for it, _ in found), default=0), max((it for _, it in found), default=0)

    for op in code.ops:
        operands, guards = [x.value for x in op.operands if x.is_field], [x.field for x in op.guard]
        if op.kind in PURE and op.to is not None:
            behind, ready = latest(operands)
            if is_work(code, op, top):
                ready = max(ready, behind + 1)
            if counts[op.to] > 1:
                more, others = latest(guards), there.get(op.to, (0, 0))
                behind, ready = max(behind, more[0], others[0]), max(ready, more[1], others[1])
            there[op.to] = (behind, ready)
            continue
        stage = latest(operands if only_reads(op) else operands + guards)[1]
        if op.kind == 'touch':
            stage = stages[op.number] = max(stages.get(op.number, 0), stage)
            if op.to is not None:
                others = there.get(op.to, (0, 0))
                there[op.to] = (max(others[0], stage + 1), max(others[1], stage + 1))
        last = max(last, stage)
    return last


def only_reads(op: Op) -> bool:
    """Whether a call stores what it found."""
    return op.kind == 'touch' and op.to is not None and op.set.test is None and bool(op.set.yes == ('stored',))


def is_work(code: Code, op: Op, top: Sequence[int]) -> bool:
    """Whether an operation needs a stage of its own, unless all that it reads is computed in the same: no move and no test that a guard can be."""
    if op.kind == 'un':
        return op.width != 1
    if op.kind in ('move', 'cast'):
        x = op.operands[0]
        return x.is_field and op.to is not None and code.widths[x.value] > code.widths[op.to] and top[x.value] >= 2 ** code.widths[op.to]
    if op.kind == 'bin':
        return not (op.width == 1 and op.sign in LOGIC or op.sign in COMPARE and is_literal(op, top))
    return True


def is_literal(op: Op, top: Sequence[int]) -> bool:
    """Whether a comparison is a test of a field by equality with a number, or always has one result."""
    (left, right), sign = op.operands, op.sign
    if not left.is_field and right.is_field:
        left, right, sign = right, left, TURNED.get(sign, sign)
    if not left.is_field or right.is_field or top[left.value] >= 2 ** op.width:
        return not left.is_field and not right.is_field
    number: int = right.value % 2 ** op.width
    most = top[left.value]
    if sign in ('==', '!='):
        return True
    if sign in ('<', '>='):
        number -= 1  # as `<=` and `>` of one less
    return number <= 0 or number >= most - 1


def greatest(code: Code) -> List[int]:
    """Returns the greatest value that each field may have, by one walk along the operations."""
    top = [2 ** width - 1 for width in code.widths]
    made: Dict[int, int] = {}
    for op in code.ops:
        if op.to is None:
            continue
        most, values = 2 ** code.widths[op.to] - 1, [top[x.value] if x.is_field else x.value for x in op.operands]
        if op.kind in ('move', 'cast'):
            most = min(most, values[0])
        elif op.kind == 'un' and op.sign == '>>':
            most = min(values[0], 2 ** op.width - 1) >> op.amount
        elif op.kind == 'bin' and op.sign == '&':
            most = min(most, *values)
        elif op.kind == 'bin' and op.sign in ('|', '^'):
            most = min(most, 2 ** max(value.bit_length() for value in values) - 1)
        elif op.kind == 'bin' and op.sign == '+' and sum(values) < 2 ** op.width:
            most = min(most, sum(values))
        made[op.to] = max(made.get(op.to, 0), most)
        top[op.to] = made[op.to]
    return top
