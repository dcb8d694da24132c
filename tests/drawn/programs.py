"""Draws programs: mostly accepted ones, with each form of the language, and slips now and then.

`Program(random).text()` is a program; its arrays and events are kept, so that scenarios can be drawn for it. Operations under impossible
branches never act; each program with an integer parameter begins one of its handlers with such a branch.
"""
from __future__ import annotations

from typing import List, Tuple

from .expressions import COMPARISONS, WIDTHS, Array, Body, Expressions, Fun, type_text


class Program(Expressions):
    """A program while it is drawn: its statements and its declarations."""

    def block(self, b: Body, indent: str, returns: bool = False) -> List[str]:
        """Statements, the last a return where one is wanted."""
        kept = {w: list(names) for w, names in b.locals.items()}
        b.depth += 1
        lines: List[str] = []
        for _ in range(self.r.choice([0, 1, 1, 1, 2]) if b.depth > 1 else self.r.randrange(1, 5)):
            lines += self.stmt(b, indent)
        if returns and b.depth < 4 and self.chance(0.2):
            test = self.truth(b, 1)
            yes, no = self.branches(b, [lambda: self.block(b, indent + '  ', True), lambda: self.block(b, indent + '  ', True)])
            if b.answer > 0 and yes[-1].lstrip().startswith('return') and no[-1].lstrip().startswith('return') and self.chance(0.3):
                yes[-1] = no[-1] = f'{indent}  return {self.leaf(b, b.answer)};'
            lines += [f'{indent}if ({test}) {{'] + yes + [f'{indent}}} else {{'] + no + [f'{indent}}}']
        elif returns:
            lines.append(f'{indent}return;' if b.answer < 0 else f'{indent}return {self.expr(b, b.answer)};')
        b.depth -= 1
        b.locals = kept
        return lines

    def stmt(self, b: Body, indent: str) -> List[str]:
        """One statement, by a number."""
        kind = self.r.randrange(20)
        if kind < 3:
            width = self.r.choice(WIDTHS + [0])
            name, value = self.fresh('v'), self.expr(b, width)
            b.locals.setdefault(width, []).append(name)
            return [f'{indent}{type_text(width)} {name} = {value};']
        if kind < 6:
            names = [(name, w) for w, found in b.locals.items() for name in found]
            if names:
                name, width = self.r.choice(names)
                return [f'{indent}{name} = {self.expr(b, width)};']
        if kind < 10:
            call = self.access(b, None, 2, False) if kind < 9 else self.call(b, self.r.choice([-1, -1, 32]), 1)
            return [f'{indent}{call};'] if call else []
        if kind < 14 and b.depth < 5:
            return self.choice(b, indent)
        if kind == 14 and b.depth < 4:
            return self.match(b, indent)
        if b.outs >= 8 and not self.chance(0.02):
            return []
        b.outs += 1
        if kind < 18 and self.events:
            return [f'{indent}generate {self.sent(b)};']
        args = [self.free(b, self.r.choice(WIDTHS), 1) for _ in range(self.r.choice([0, 1, 1, 2]))]
        args += [f'{self.told(b, 32)} + 0'] if self.chance(0.1) else []
        holes = ' %d' * (len(args) + self.chance(0.01))
        return [f'{indent}printf({", ".join([chr(34) + self.r.choice(["a", "50%", "b%d"[:1]]) + holes + chr(34)] + args)});']

    def branches(self, b: Body, draws: List) -> List[List[str]]:
        """Branches that all begin where the condition ends; behind them the body stands where the furthest of them ends."""
        place, outs = b.place, b.outs
        ends: List[Tuple[int, int]] = []
        found: List[List[str]] = []
        for draw in draws:
            b.place, b.outs = place, outs
            found.append(draw())
            ends.append((b.place, b.outs))
        b.place, b.outs = max(e[0] for e in ends), max(e[1] for e in ends)
        return found

    def choice(self, b: Body, indent: str, alone: bool = True) -> List[str]:
        """An if, with or without an else; or one that returns, before the rest; or one that never comes about."""
        test = self.truth(b, 2)
        more = indent + '  '
        never = self.impossible(b, indent) if alone and b.depth < 4 and self.chance(0.3) else []
        if never:
            return never
        if alone and self.chance(0.2 if b.depth == 1 else 0.004):
            kept = b.place, b.outs
            inner = self.block(b, more, True)
            b.place, b.outs = kept if self.chance(0.9) else (b.place, b.outs)
            return [f'{indent}if ({test}) {{'] + inner + [f'{indent}}}']
        if self.chance(0.35):
            (yes,) = self.branches(b, [lambda: self.block(b, more)])
            return [f'{indent}if ({test}) {{'] + yes + [f'{indent}}}']
        if self.chance(0.3) and b.depth < 4:
            yes, no = self.branches(b, [lambda: self.block(b, more), lambda: self.choice(b, indent, False)])
            return [f'{indent}if ({test}) {{'] + yes + [f'{indent}}} else {no[0].strip()}'] + no[1:]
        yes, no = self.branches(b, [lambda: self.block(b, more), lambda: self.block(b, more)])
        return [f'{indent}if ({test}) {{'] + yes + [f'{indent}}} else {{'] + no + [f'{indent}}}']

    def impossible(self, b: Body, indent: str) -> List[str]:
        """An if within which a parameter is two numbers at once, so that its statements never act; no line without such a parameter."""
        some = [name for w, names in b.locals.items() if w > 1 for name in names if name[0] == 'x']
        if not some:
            return []
        name, more = self.r.choice(some), indent + '  '
        inner, other = self.branches(b, [lambda: self.touching(b, more + '  '), lambda: self.block(b, more)])
        inner = [f'{more}if ({name} == 2) {{'] + inner + [f'{more}}}']
        return [f'{indent}if ({name} == 1) {{'] + inner + [f'{indent}}} else {{'] + other + [f'{indent}}}']

    def touching(self, b: Body, indent: str) -> List[str]:
        """A block that mostly begins with a call of an array."""
        call = self.access(b, None, 1, False) if self.chance(0.7) else None
        return ([f'{indent}{call};'] if call else []) + self.block(b, indent)

    def match(self, b: Body, indent: str) -> List[str]:
        """A match with few cases, and a last arm or none."""
        width = self.r.choice([8, 32, 32])
        test = self.leaf(b, width) if b.names(width) else f'({type_text(width)}) {self.leaf(b, 32)}'
        cases = self.r.sample(range(4), self.r.randrange(1, 4))
        if self.chance(0.01):
            cases.append(cases[0])
        arms = [f'| {n} -> {{' for n in cases] + (['| _ -> {'] if self.chance(0.5) else [])
        bodies = self.branches(b, [lambda: self.block(b, indent + '  ')] * len(arms))
        lines = [f'{indent}match {test} with']
        for arm, body in zip(arms, bodies):
            lines += [indent + arm] + body + [indent + '}']
        return lines

    def sent(self, b: Body) -> str:
        """An event with a delay, a target, both in either order, a group, or none."""
        name, widths = self.r.choice(self.events)
        sent = f'{name}({", ".join(self.told(b, w) if w and self.chance(0.2) else self.expr(b, w, 1) for w in widths)})'
        delay = str(self.r.choice([0, 1, 3, 9])) if self.chance(0.7) else self.free(b, self.r.choice([8, 32, 64, 64]), 1)
        target = self.r.choice(['0', '1', '2', 'SELF', 'SELF + 1', '9']) if self.chance(0.8) else self.free(b, self.r.choice(WIDTHS), 1)
        if self.groups and self.chance(0.25):
            target, members = self.r.choice(self.groups)
            b.outs += members - 1
        for kind in self.r.choice([[], [], ['delay'], ['locate'], ['locate'], ['delay', 'locate'], ['locate', 'delay']]):
            sent = f'Event.{kind}({sent}, {delay if kind == "delay" else target})'
        return f'({sent})' if self.chance(0.05) else sent

    # ---- declarations

    def declare(self) -> None:
        """Draws all declarations, events before functions and handlers."""
        for _ in range(self.r.choice([0, 0, 1, 2])):
            width = self.r.choice(WIDTHS)
            name = self.fresh('c')
            self.lines.append(f'const {type_text(width)} {name} = {self.number(width)};')
            self.consts.append((name, width))
        for k in range(self.r.choice([0, 1, 2, 2, 3, 4])):
            width = self.r.choice([8, 16, 32, 32, 32])
            size = str(self.r.choice([1, 2, 4, 7, 64]))
            named = [c for c, w in self.consts if w == 5]
            self.arrays.append(Array(f'g{k}', width, k))
            size = self.r.choice(named) if named and self.chance(0.1) else size
            self.lines.append(f'global Array{self.r.choice(["", ".t"])}<<{width}>> g{k} = Array.create({size});')
        for width in sorted({a.width for a in self.arrays}):
            for _ in range(self.r.choice([1, 1, 2])):
                self.memop(width)
        columns = [self.r.choice(WIDTHS) for _ in range(3)]
        for _ in range(self.r.randrange(1, 5)):
            name = self.fresh('e')
            widths = [columns[k] if self.chance(0.8) else self.r.choice(WIDTHS) for k in range(self.r.choice([0, 1, 1, 2, 3]))]
            self.lines.append(f'event {name}({", ".join(f"{type_text(w)} x{i}" for i, w in enumerate(widths))});')
            self.events.append((name, widths))
        if self.chance(0.25):
            members = self.r.sample(range(4), self.r.randrange(1, 4))
            name = self.fresh('all')
            self.lines.append(f'group {name} = {{ {", ".join(map(str, members))} }};')
            self.groups.append((name, len(members)))
        if self.chance(0.3):
            self.template()
        if self.chance(0.4):
            self.teller()
        for _ in range(self.r.choice([0, 0, 1, 2, 3])):
            self.fun()
        for name, widths in self.events:
            if self.chance(0.85):
                self.handler(name, widths)

    def memop(self, width: int) -> None:
        """A memop of a width: one return, or an if with two."""
        name = self.fresh('m')
        side = lambda: self.r.choice(['stored', 'x', self.number(width), f'stored {self.r.choice("+-&|^")} x',
                                      f'x {self.r.choice("+-&|^")} {self.number(width)}', f'(stored {self.r.choice("+-")} 1)'])
        test = f'stored {self.r.choice(COMPARISONS)} {self.r.choice(["x", self.number(width)])}'
        body = self.r.choice([f'return {side()};', f'return {side()};', f'if ({test}) {{ return {side()}; }} else {{ return {side()}; }}',
                              f'if ({test}) {{ return {side()}; }} return {side()};'])
        self.lines.append(f'memop {name}({type_text(width)} stored, {type_text(width)} x) {{ {body} }}')
        self.memops.append((name, width))

    def template(self) -> None:
        """A function over a width; sometimes a second one that uses it."""
        name = self.fresh('t')
        more = self.r.choice(['1', 'x'])
        self.lines.append(f'fun <<w>> int<<w>> {name}(int<<w>> x) {{ if (x == 1) {{ return x; }} return x + {more}; }}')
        self.templates.append(name)
        if self.chance(0.4):
            other = self.fresh('t')
            self.lines.append(f'fun <<n>> int<<n>> {other}(int<<n>> y) {{ return {name}<<n>>(y) ^ (int<<n>>) {name}<<8>>((int<<8>>) y); }}')
            self.templates.append(other)

    def teller(self) -> None:
        """A function that prints what it is given, so that the order of evaluation and the count of outs show."""
        name, width, count = self.fresh('f'), self.r.choice([8, 32, 32, 64]), self.r.choice([1, 1, 1, 4, 8])
        prints = ' '.join(['printf("%d", x0 + 0);'] * count)
        self.lines.append(f'fun {type_text(width)} {name}({type_text(width)} x0) {{ {prints} return x0; }}')
        self.funs.append(Fun(name, [width], [], width, [], count))

    def fun(self) -> None:
        """A function over values, and over declared arrays or array parameters."""
        name = self.fresh('f')
        params = [self.r.choice(WIDTHS + [0]) for _ in range(self.r.choice([0, 1, 1, 2]))]
        answer = self.r.choice([-1, -1, 32, 32, 8, 0])
        arrays = [self.r.choice([8, 32, 32]) for _ in range(self.r.choice([0, 0, 1, 2]))]
        seen = [Array(f'p{k}', w, k) for k, w in enumerate(arrays)] if arrays else list(self.arrays) if self.chance(0.5) else []
        b = Body({}, seen, answer)
        for i, w in enumerate(params):
            b.locals.setdefault(w, []).append(f'x{i}')
        shown = [f'{type_text(w)} x{i}' for i, w in enumerate(params)] + [f'Array.t<<{w}>> p{k}' for k, w in enumerate(arrays)]
        body = self.block(b, '  ', answer >= 0 or self.chance(0.1))
        self.lines += [f'fun {"void" if answer < 0 else type_text(answer)} {name}({", ".join(shown)}) {{'] + body + ['}']
        self.funs.append(Fun(name, params, arrays, answer, [] if arrays else sorted(set(b.touched)), b.outs))

    def handler(self, name: str, widths: List[int]) -> None:
        """A handler over the declared arrays; the first one that can have it begins with an impossible branch."""
        b = Body({}, list(self.arrays))
        for i, w in enumerate(widths):
            b.locals.setdefault(w, []).append(f'x{i}')
        params = ', '.join(f'{type_text(w)} x{i}' for i, w in enumerate(widths))
        b.depth = 1
        never = self.impossible(b, '  ') if not self.has_impossible else []
        self.has_impossible, b.depth = self.has_impossible or bool(never), 0
        self.lines += [f'handle {name}({params}) {{'] + never + self.block(b, '  ') + ['}']

    def text(self) -> str:
        """Draws the program, and returns its text."""
        self.declare()
        if self.chance(0.1):
            self.lines.insert(self.r.randrange(len(self.lines) + 1), self.r.choice(['// a comment', '/* two\nlines */', '']))
        return '\n'.join(self.lines) + '\n'
