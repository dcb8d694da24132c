"""The nodes of a program in words, and why first fit finds no stage for one of them."""
from dataclasses import replace
from typing import Any, Dict, List, Optional

from ..model.nodes import Code, Literal, Node, Op, Operand, nodes_of
from ..model.json_files import Limits
from ..model.layout import Layout, product
from ..model.refusals import Refused
from ..model.values import COMPARE

from .places import Sources


class Described:
    """The nodes of code, in words."""

    def __init__(self, code: Code, sources: Sources) -> None:
        self.code, self.sources = code, sources
        self.nodes = nodes_of(code)
        self.writer = {k: i for i, n in enumerate(self.nodes) for k in n.writes}

    def field(self, k: int, op: Op) -> str:
        """A field in words: an input, a parameter, or what a node writes."""
        if k in self.writer:
            return f'node {self.writer[k]}'
        core = self.code.core
        handler = next((h for h in core.handlers for x in op.guard if x.field == 0 and x.equal and x.value == h.event), None)
        if k >= 3 and handler is not None and k - 3 < handler.params:
            return handler.names[k - 3]
        return ['the event', 'Sys.time()', 'SELF'][k] if k < 3 else f'argument {k - 3}' if k < self.code.inputs else '0'

    def operand(self, x: Operand, op: Op) -> str:
        """An operand in words."""
        return self.field(x.value, op) if x.is_field else str(x.value)

    def what(self, i: int) -> str:
        """What a node is."""
        n = self.nodes[i]
        op = self.code.ops[n.ops[0]]
        if n.array is not None:
            return f'{len(n.ops)} call{"s" if len(n.ops) > 1 else ""} of {self.code.core.arrays[n.array].name}'
        parts = [self.operand(x, op) for x in op.operands]
        if op.kind == 'gen':
            return f'generate {self.code.core.events[op.number].name}'
        if op.kind == 'say':
            return f'printf "{self.code.core.forms[op.number]}"'
        if op.kind == 'bin':
            return f'{"compare " if op.sign in COMPARE else ""}{parts[0]} {op.sign} {parts[1]}'
        if op.kind == 'un':
            return f'{op.sign}({parts[0]})' if op.sign in '-~' else f'{parts[0]} {op.sign} {op.amount}'
        if op.kind == 'move':
            text = self.sources.expanded.text
            word = 'join behind an if:' if text.startswith('if', op.at) or text[op.at:op.at + 1].isdigit() else 'assign'
            return f'{word} {parts[0]}'
        width = self.code.widths[op.to]
        return f'cast {parts[0]} to {width} bits' if op.kind == 'cast' else f'hash<<{width}>>({", ".join(parts)})'

    def literal(self, x: Literal, op: Op) -> str:
        """A literal of a guard in words."""
        return f'{self.field(x.field, op)} {"==" if x.equal else "!="} {x.value}'

    def handlers(self, n: Node) -> List[str]:
        """The events whose handlers a node is part of."""
        events = {x.value for i in n.ops for x in self.code.ops[i].guard if x.field == 0 and x.equal}
        return [self.code.core.events[k].name for k in sorted(events) if k < len(self.code.core.events)]

    def at(self, at: int) -> str:
        """`line:column` of a place of the program."""
        place = self.sources.place('program', at)
        return f'{place.line}:{place.column}'

    def where(self, i: int) -> str:
        """The place of a node, and the calls through which it comes from there."""
        ops = [self.code.ops[k] for k in self.nodes[i].ops]
        return self.at(ops[0].at) + ''.join(' in ' + self.at(at) for at in reversed(ops[0].via if len(ops) == 1 else ()))

    def data(self, i: int, made: Optional[Layout]) -> Dict[str, Any]:
        """A node as JSON; `made` is a first fit that got so far."""
        n = self.nodes[i]
        ops = [self.code.ops[k] for k in n.ops]
        place = self.sources.place('program', ops[0].at)
        table, most = (made or Layout(self.code, Limits())).merged(n)
        pair = made.pairs[i] if made is not None and i < len(made.pairs) else None
        reads = sorted({self.writer[k] for k in n.reads if k in self.writer})
        return {'node': i, 'line': place.line, 'column': place.column, 'what': self.what(i), 'handlers': self.handlers(n),
                'reads': reads, 'inputs': sorted({self.field(k, op) for op in ops for k in op.reads() if k not in self.writer and k > 0}),
                'guard': [self.literal(x, ops[0]) for x in ops[0].guard if x.field != 0] if len(ops) == 1 else None,
                'array': self.code.core.arrays[n.array].name if n.array is not None else None,
                'bits': sum(self.code.widths[k] for k in n.writes), 'rows': max(len(table), most), 'calls': len(ops),
                'via': [self.at(at) for at in ops[0].via] if len(ops) == 1 else [],
                'earliest': made.earliest(n) if made is not None and i <= len(made.pairs) else None,
                'stage': pair[0] if pair else None, 'table': pair[1] if pair else None}

    def table(self, made: Layout) -> List[str]:
        """All nodes, one a line."""
        rows = [['node', 'place', 'what it is', 'reads', 'array', 'earliest', 'stage', 'table', 'rows', 'bits']]
        for i in range(len(self.nodes)):
            d = self.data(i, made)
            reads = ', '.join([f'node {k}' for k in d['reads']] + d['inputs']) or '-'
            places = ['-' if d[key] is None else str(d[key]) for key in ('array', 'earliest', 'stage', 'table')]
            rows.append([str(i), self.where(i), d['what'], reads, *places, str(d['rows']), str(d['bits'])])
        widths = [min(46, max(len(row[k]) for row in rows)) for k in range(len(rows[0]))]
        return ['  '.join(cell.ljust(width) for cell, width in zip(row, widths)).rstrip() for row in rows]

    def refusing(self, made: Layout, n: Node, k: int) -> str:
        """Says why a stage has no room for a node."""
        tables, arrays, limits = made.stages[k], len(made.arrays(k)), made.limits
        if n.array is not None and arrays >= limits.arrays:
            return f'stage {k} holds {arrays} arrays, and `arrays` is {limits.arrays}'
        more, _ = made.merged(n)
        rows = [len(product(table, more)) for table in tables]
        full = ', '.join(f'table {t} would have {count}' for t, count in enumerate(rows))
        if len(tables) < limits.tables:
            return f'a new table of stage {k} would have {len(product((), more))} rows, and `rows` is {limits.rows}'
        return f'stage {k} has {len(tables)} tables, `tables` is {limits.tables}, and `rows` is {limits.rows}: {full} rows'

    def until(self, made: Layout, i: int) -> Layout:
        """First fit as it stood before a node."""
        again = type(made)(self.code, made.limits)
        for n in again.nodes[:i]:
            again.place(n)
        return again

    def chain(self, made: Layout, i: int) -> List[str]:
        """The nodes that push a node on, each with why it stands no earlier."""
        lines: List[str] = []
        n = self.nodes[i]
        while True:
            behind = [(s, j) for j, (s, _) in enumerate(made.pairs) if j != i and self.nodes[j].writes & n.reads]
            earliest = max(behind)[0] + 1 if behind else 0
            stage = made.pairs[i][0] if i < len(made.pairs) else None
            if stage is not None and stage > earliest:
                reasons = '; '.join(self.refusing(self.until(made, i), n, k) for k in range(earliest, stage))
                lines.append(f'node {i} could stand in stage {earliest}, but {reasons}')
            if not behind:
                return lines
            s, j = max(behind)
            lines.append(f'node {i} reads node {j} ({self.where(j)}, {self.what(j)}), which stands in stage {s}')
            i, n = j, self.nodes[j]

    def needed(self, limits: Limits) -> str:
        """How many stages are enough, if the other limits stay as they are."""
        again = Layout(self.code, replace(limits, stages=32))
        try:
            again.fit()
        except Refused:
            return '32 stages are not enough, if the other limits stay as they are'
        return f'{1 + max(k for k, _ in again.pairs)} stages are enough, if the other limits stay as they are'

    def problem(self, made: Layout) -> str:
        """Why first fit stops, in one line: the operation and the reason."""
        i, limits = len(made.pairs), made.limits
        earliest, (_, most) = made.earliest(self.nodes[i]), made.merged(self.nodes[i])
        reason = f'it can stand in stage {earliest} at the earliest, and no stage from there on has room'
        if most > limits.rows:
            reason = f'the tables of its calls have {most} rows together, and `rows` is {limits.rows}'
        elif earliest >= limits.stages:
            reason = f'it can stand in stage {earliest} at the earliest, and the last is stage {limits.stages - 1}'
        return f'node {i} ({self.what(i)}) finds no stage: {reason}'

    def why(self, made: Layout) -> List[str]:
        """The chain that pushes the node beyond the last stage, or the stages that are full, and how many stages are enough."""
        i, limits = len(made.pairs), made.limits
        n = self.nodes[i]
        if made.merged(n)[1] > limits.rows:
            return []
        full = [self.refusing(made, n, k) for k in range(made.earliest(n), limits.stages)]
        return full + self.chain(made, i) + [self.needed(limits)]
