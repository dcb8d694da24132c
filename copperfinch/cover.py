"""What scenarios reach of a program: branches, cases, sides of memops, sends and cells. The second implementation (copperfinch.model) runs the
scenarios with marks in the handlers, and its logs must be those of the program."""
import bisect
from dataclasses import dataclass, field
from typing import Any, Callable, Dict, List, Set, Tuple

from .bounded import deeply
from .errors import Error
from .model import core, tree
from .model.answers import Program as Model
from .model.declarations import Elaboration
from .model.interpret import Out
from .model.json_files import Limits, read_limits, read_scene
from .model.lexer import lex
from .model.network import Network
from .model.parser import parse
from .model.refusals import Refused
from .model.values import COMPARE, MemAlu, low
from .streams import Source

# A text of `printf` that marks a place: no program has it, since it has a quote.
MARK = '"'


@dataclass
class Goal:
    """Something to reach: its line and column, from 1, what it is, and how often it was reached."""

    line: int
    column: int
    what: str
    count: int = 0

    def __str__(self) -> str:
        return f"{self.line}:{self.column} {self.what}"


@dataclass
class Row:
    """The cells of an array that were reached, over all switches and scenarios."""

    name: str
    line: int
    size: int
    reached: Set[int] = field(default_factory=set)


@dataclass
class Cover:
    """What was reached. `lines` are those of the program, with its templates expanded."""

    lines: List[str]
    goals: List[Goal]
    rows: List[Row]

    @property
    def missed(self) -> List[Goal]:
        """What was not reached."""
        return [goal for goal in self.goals if not goal.count]


class Watched(MemAlu):
    """A memop that counts its sides."""

    def watch(self, yes: Goal, no: Goal) -> None:
        self.goals = yes, no

    def apply(self, stored: int, arg: int) -> int:
        value = {"stored": stored, "arg": arg}
        if self.test:
            one, two = (low(value[it] if isinstance(it, str) else it, self.width) for it in self.test[1:])
            self.goals[not COMPARE[self.test[0]](one, two)].count += 1
        return super().apply(stored, arg)


class Touched(List[int]):
    """The cells of an array, which note those that are read."""

    def __init__(self, cells: List[int], reached: Set[int]) -> None:
        super().__init__(cells)
        self.reached = reached

    def __getitem__(self, index: Any) -> Any:
        self.reached.add(index)
        return super().__getitem__(index)

    def __iter__(self) -> Any:
        return super().__iter__()


class Marked(Network):
    """A network that counts the marks of its handlers, and leaves them out of its log."""

    goals: Dict[int, Goal] = {}

    def leave(self, tick: int, me: int, event: int, args: List[int], outs: List[Out]) -> None:
        """Counts and drops the marks."""
        marks = [out for out in outs if out.delay is None and out.number in self.goals]
        for out in marks:
            self.goals[out.number].count += 1
        super().leave(tick, me, event, args, [out for out in outs if out not in marks])


class Marker:
    """Puts marks into a program."""

    def __init__(self, source: Source) -> None:
        model = Model(source.data.decode("latin-1"))
        try:
            text = model.expand()
            decls = parse(text, lex(text))
            made = Elaboration()
            for number, it in enumerate(decls):
                made.declare(number + 1, it)
        except Refused as refused:
            raise Error(f"{source.name}: {refused.line}") from None
        self.core, self.text, self.decls, self.names = made.core, text, decls, made.names
        self.begins = [0] + [at + 1 for at, letter in enumerate(text) if letter == "\n"]
        self.goals: List[Goal] = []
        self.marks: Dict[int, Goal] = {}
        self.rows = [Row(it.name, self.place(it.at)[0], it.size) for it in self.core.arrays]
        self.memops()
        for body in [*self.core.handlers, *self.core.funs]:
            body.body = self.block(body.body)
            if body in self.core.handlers:
                body.body.insert(0, self.mark(body.at, f"the handler of {body.name}"))
        self.goals.sort(key=lambda goal: (goal.line, goal.column))

    def place(self, at: int) -> Tuple[int, int]:
        """The line and column of a byte."""
        line = bisect.bisect_right(self.begins, at)
        return line, at - self.begins[line - 1] + 1

    def goal(self, at: int, what: str) -> Goal:
        """Adds something to reach."""
        self.goals.append(Goal(*self.place(at), what))
        return self.goals[-1]

    def mark(self, at: int, what: str) -> core.Stmt:
        """A statement that says that it was reached."""
        self.core.forms.append(f"{MARK}{len(self.goals)}")
        self.marks[len(self.core.forms) - 1] = self.goal(at, what)
        return core.Say(len(self.core.forms) - 1, [], at)

    def block(self, stmts: List[core.Stmt]) -> List[core.Stmt]:
        """Statements with marks: in front of what is sent, and in both branches. A `match` is a chain of branches; its cases begin at numbers."""
        found: List[core.Stmt] = []
        for it in stmts:
            if isinstance(it, core.Gen):
                found.append(self.mark(it.at, "what is sent"))
            elif isinstance(it, core.If):
                is_case = not self.text.startswith("if", it.at)
                is_last = not (is_case and len(it.no) == 1 and isinstance(it.no[0], core.If) and not self.text.startswith("if", it.no[0].at))
                it.yes = [self.mark(it.at, "the case" if is_case else "the condition, true"), *self.block(it.yes)]
                it.no = self.block(it.no)
                if is_last:
                    it.no.insert(0, self.mark(it.at, "the other cases" if is_case else "the condition, false"))
            found.append(it)
        return found

    def memops(self) -> None:
        """Watches the memops that have two sides."""
        watched: Dict[int, Watched] = {}
        for it in self.decls:
            if it.kind == "memop":
                alu = self.names[it.name.text].alu
                if alu.test and isinstance(it.body[0], tree.Cond):
                    made = watched[id(alu)] = Watched(alu.width, alu.test, alu.yes, alu.no)
                    made.watch(*(self.goal(it.body[0].at, f"the condition of {it.name.text}, {side}") for side in ("true", "false")))
        for body in [*self.core.handlers, *self.core.funs]:
            for node in core.walk(body.body):
                if isinstance(node, core.Touch):
                    node.get, node.set = (watched.get(id(alu), alu) for alu in (node.get, node.set))

    def run(self, limits: Limits, scenario: Source) -> str:
        """Runs a scenario and returns its log."""
        network = Marked(self.core, limits, read_scene(scenario.data, self.core), None)
        network.goals = self.marks
        network.cells = [[Touched(cells, row.reached) for cells, row in zip(own, self.rows)] for own in network.cells]
        return network.run()


def cover(program: Source, limits: Source, scenarios: List[Source], answer: Callable[[Source], bytes]) -> Cover:
    """Returns what scenarios reach. `answer` makes the log of a scenario by the program. Raises Error if that is another one."""
    def work() -> Cover:
        marker = Marker(program)
        for scenario in scenarios:
            try:
                log = marker.run(read_limits(limits.data), scenario)
            except Refused as refused:
                raise Error(f"{scenario.name}: {refused.line}") from None
            if log.encode("latin-1") != answer(scenario):
                raise Error(f"{scenario.name}: the second implementation makes another log than the program")
        return Cover(marker.text.split("\n"), marker.goals, marker.rows)
    return deeply(work)
