"""Inputs within every limit that cost the most time and memory, at a smaller and at full size.

Prints a line of a table for each: bytes, processor seconds at both sizes, growth for each doubling, peak memory and bounds; docs/SPEED.md
shows that table. Fails on a signal, on a status other than the expected one, on memory beyond the bound, and with `--whole` on seconds, and on
time that grows faster than the bound allows: instructions, counted by valgrind, if it is there and the smaller size takes less than 0.2 s,
and else seconds. The gate makes only inputs that take less than two seconds, at full size, and bounds their memory alone: a busy machine
changes seconds, so the group `instructions` bounds what they cost, and a call that takes four times its bound is killed. `--only NAME`
measures one. Sees no shapes that are not below. Names that collide in a hash table are in the group `collisions`; `names` and `keys` are the hardest for ordered maps.

Seen to fail: statements of a block that are each kept in a list with room for four (238 MB for 1 MiB of assignments); contested literals
that are compared with all literals of the other row (a growth of 2.8 for 8 matches of 2 behind 480 tests); guards that are copied to each
operation (187 MB for 1,100 additions behind 1,700 early returns); 16 cases in place of 14, whose rows double to 2.3 times as many.
"""
from __future__ import annotations

import re
import shutil
import tempfile
from dataclasses import dataclass
from pathlib import Path
from typing import Callable, List, Optional, Tuple, Union

from harness import Group, Spent, call, compile_c, instructions, measure, table
from rowfile import spelled_out

BIG = '{"stages":32,"tables":64,"rows":1024,"bits":1048576,"arrays":64,"arms":64}'
LETTERS = "abcdefgh"
PARAMS = ",".join(f"int {letter}" for letter in LETTERS)
ARRAYS = ",".join(f"Array<<8>> {letter}" for letter in LETTERS)
GIVEN = ",".join(LETTERS)
# Texts in the form of tests/rows: `@` is the size, and `«COUNT:PART»` copies of a part with `#` as their number. Eight matches of this many
# arms, one on each parameter:
MATCHES = "".join(f"match {letter} with «@:|#->{{generate out(#);}}»" for letter in LETTERS)
FLAT = f"event out(int n);event g({PARAMS});handle g({PARAMS}){{{MATCHES}}}"
EVENTS = f"event out(int n);«@:event g#({PARAMS});handle g#({PARAMS}){{{MATCHES.replace('@', '16')}}}»"
TESTED = "".join(f"if({letter}==0){{generate out({number});}}" for number, letter in enumerate(LETTERS))
TESTED_SENDS = f"event out(int n);«@:event g#({PARAMS});handle g#({PARAMS}){{{TESTED}}}»"
ELSE_SENDS = """event out(int n);«@:fun void s#(int a,int b){if(a==#){}else{if(b==#){generate out(#);}}}event g#(int a,int b);handle g#(int a,int b){s#(a,b);}»"""
ASSIGNMENTS = "event e();handle e(){int a=0;«@:a=1;»}"
DROPPED = "fun void v(){}event e();handle e(){«@:v();»}"
# All additions have one guard, with a literal for each return before them.
SUMS = "event out(int n);event e(int z);handle e(int z){int s=0;«1700:if(z==1){return;}»«@:s=s+z;»generate out(s);}"
EARLY = "event e(int z);handle e(int z){«@:if(z==1){return;}»}"
CHAIN = "fun void f0(){}«@:fun void f##(){f#();}»event e();handle e(){f@();}"
NAMES = "«@:event «200:n»#();»"
# 2 to the power of the size additions.
TOWER = """fun int t0(int x){return x+1;}«@:fun int t##(int x){return t#(x)+t#(x);}»event out(int n);event go(int i);handle go(int i){generate out(t@(i));}"""
# Two switches whose handlers send eight events each, so that most of them wait, for this many ticks.
SENDERS = "event e(int n);handle e(int n){«8:generate Event.locate(e(n),SELF ^ 1);»}"
TICKS = """{"switches":2,"stop":@,"links":[[0,1,1]],"events":[{"at":0,"switch":0,"name":"e","args":[0]},{"at":0,"switch":1,"name":"e","args":[0]}]}"""
# The same with windows of one tick each, in which their link is down.
WINDOWS = TICKS.replace('"events"', '"version":2,"down":[«1023:[0,1,##00,##01],»[0,1,7,8]],"events"')
# Lists 124 deep in one another, and an object whose keys have a long beginning in common, and are given twice.
LISTS = '{"stop":1,"events":[«@:«124:[»«124:]»,»1]}'
KEYS = '{«@:"«200:k»#":[#],»«@:"«200:k»#":[#],»"stop":1}'


def guarded(tests: int, cases: int) -> str:
    """Eight matches behind this many comparisons with ==; blocks nest at most 62 deep, so each 60 comparisons are in a function of their own."""
    functions, name, left = [f"event out(int n);fun void m0({PARAMS}){{{MATCHES.replace('@', str(cases))}}}"], "m0", tests
    while left > 0:
        count = min(left, 60)
        hashes = "".join(f"int<<8>> h{k}=hash<<8>>({left - count + k},a);" for k in range(count))
        body = f"{hashes}«{count}:if(h#==0){{»{name}({GIVEN});«{count}:}}»"
        name, left = f"m{len(functions)}", left - count
        functions.append(f"fun void {name}({PARAMS}){{{body}}}")
    return f"{''.join(functions)}event g({PARAMS});handle g({PARAMS}){{{name}({GIVEN});}}"


def arrays(count: int, tests: int = 0) -> str:
    """Arrays, each called in the 32 arms of a match, behind this many comparisons with ==."""
    calls = "".join(f"match h{k} with «32:|#->{{Array.set(x{k},#,a);}}»" for k in range(count))
    asked, ifs = f"«{tests}:int<<8>> t#=hash<<8>>(#,a);»", f"«{tests}:if(t#==0){{»"
    hashes = f"«{count}:int h#=hash<<32>>(#,a);»"
    return f"«{count}:global Array.t<<32>> x#=Array.create(4);»event g(int a);handle g(int a){{{asked}{hashes}{ifs}{calls}«{tests}:}}»}}"


def all_arrays() -> str:
    """64 arrays and a function over 8 more that asks 2,628 pairs of the order."""
    names = [*LETTERS, *(f"g{k:02}" for k in range(64))]
    declared = "".join(f"global Array.t<<8>> {name}=Array.create(1);" for name in names[8:])
    return f"{declared}fun void F({ARRAYS}){{" + "".join(f"if(SELF==0){{Array.set({name},0,0);}}" for name in names) + "}"


def wide_calls(instances: int) -> str:
    """This many instances of a function that makes 5,000 such calls."""
    uses = "".join(f"k<<{w}>>({GIVEN},0);" for w in range(1, instances + 1))
    return f"{all_arrays()}fun <<w>> void k({ARRAYS},int<<w>> z){{«5000:F({GIVEN});»}}fun void m({ARRAYS}){{{uses}}}"


def ordered_calls(instances: int) -> str:
    """This many instances of a function that makes 1,700 such calls, each on a path of its own, so that they are accepted."""
    body = f"«53:match z with «32:|#->{{F({GIVEN});}}»|_->{{»«53:}}»"
    uses = "".join(f"match 0 with |0->{{k<<{width}>>({GIVEN},0,0);}}|_->{{" for width in range(1, instances + 1)) + "}" * instances
    return f"{all_arrays()}fun <<w>> void k({ARRAYS},int<<w>> q,int z){{{body}}}fun void m({ARRAYS}){{{uses}}}"


CHECK, LAYOUT, ONCE, RUN = ["check", "p"], ["layout", "p", "l"], ["once", "p", "go", "1"], ["run", "whole", "p", "l", "s"]


@dataclass(frozen=True)
class Shape:
    """An input: its program, by a text or a function of its size, its call and its full size; the bounds on seconds and MB at that size;
    whether the gate tries it; the status of its call; how much its time grows at most for each doubling of the size; how often the smaller
    size doubles to the full one; its files. One doubling of cases tells little (see FEW_CASES)."""

    program: Union[str, Callable[[int], str]]
    words: List[str]
    size: int
    seconds: float
    megabytes: int
    gate: bool = False
    status: int = 0
    growth: float = 5.0
    doublings: int = 1
    limits: str = BIG
    scenario: str = ""

    def smaller(self) -> int:
        """The smaller size."""
        return self.size >> self.doublings

    def growth_from(self, smaller: float, whole: float) -> float:
        """The growth for each doubling, from what the call takes at the smaller size and at full size."""
        return (whole / smaller) ** (1 / self.doublings) if smaller else 0.0

    def files(self, size: int) -> List[Tuple[str, str]]:
        """The files at a size."""
        texts = {"p": self.program(size) if callable(self.program) else self.program, "l": self.limits, "s": self.scenario}
        return [(name, spelled_out(texts[name].replace("@", str(size)))) for name in texts if name in self.words]


# How often a call beyond its bound is made.
TURNS = 12
# How many matches share a table depends on their cases. From these cases to twice as many the rows of a layout grow by more than the bound on
# the time for each doubling. So two doublings are measured at once.
FEW_CASES = 14
# The bounds on a processor, about twice the seconds and the memory that were measured. Lower them as the program gets quicker.
SHAPES = {
    "8 matches of 4 behind 20 tests": Shape(lambda n: guarded(n, 4), LAYOUT, 20, 0.5, 20, True, growth=2.3),
    "8 matches of 2 behind 60 tests": Shape(lambda n: guarded(n, 2), LAYOUT, 60, 0.5, 20, True, growth=2.3),
    "8 matches of 2 behind 240 tests": Shape(lambda n: guarded(n, 2), LAYOUT, 240, 1, 40, growth=2.3),
    "8 matches of 2 behind 480 tests": Shape(lambda n: guarded(n, 2), LAYOUT, 480, 1, 60, growth=2.3),
    "8 matches of 16": Shape(FLAT, LAYOUT, 16, 1, 20, True, growth=2.3, doublings=2),
    "8 matches of 32": Shape(FLAT, LAYOUT, 32, 1, 20, growth=2.3, doublings=2),
    "4 events of 8 matches of 16": Shape(EVENTS, LAYOUT, 4, 3, 20),
    "15 arrays in 32 arms each": Shape(arrays, LAYOUT, 15, 0.5, 20, True, growth=2.3),
    "15 arrays in 32 arms each behind 40 tests": Shape(lambda n: arrays(n, 40), LAYOUT, 15, 1, 20, True, growth=2.3),
    "60 arrays in 32 arms each": Shape(arrays, LAYOUT, 60, 1, 40, growth=2.3),
    "64 instances of 5,000 calls": Shape(wide_calls, CHECK, 64, 5, 600, status=6),
    "32 instances of 1,700 calls in order": Shape(ordered_calls, CHECK, 32, 1.5, 300),
    "4 instances of 1,700 calls in order": Shape(ordered_calls, CHECK, 4, 0.5, 100, True),
    "8 matches of 16 behind 60 tests": Shape(lambda n: guarded(60, n), LAYOUT, 16, 2, 20, growth=2.3, doublings=2),
    "128 sends behind an else": Shape(ELSE_SENDS, LAYOUT, 128, 0.5, 20, True, growth=2.3),
    "512 sends behind an else": Shape(ELSE_SENDS, LAYOUT, 512, 1, 40, growth=2.3),
    "512 sends behind tests of 8 parameters": Shape(TESTED_SENDS, LAYOUT, 64, 1, 20, growth=2.5),
    "2,048 sends behind tests of 8 parameters": Shape(TESTED_SENDS, LAYOUT, 256, 3, 60, growth=2.5),
    "10,000 early returns": Shape(EARLY, CHECK, 10000, 1, 100, True),
    "1 MiB of assignments": Shape(ASSIGNMENTS, CHECK, 262130, 1, 120, True),
    "1 MiB of calls": Shape(DROPPED, CHECK, 262130, 1, 120, True),
    "1,100 additions behind 1,700 early returns": Shape(SUMS, LAYOUT, 1100, 1, 90, True, 7),
    "a chain of 1,000 functions": Shape(CHAIN, LAYOUT, 1000, 1, 60, True, limits="{}"),
    "4,900 names with one beginning": Shape(NAMES, CHECK, 4900, 2, 100, True),
    "a tower of 20 functions": Shape(TOWER, ONCE, 19, 1, 30, True, growth=float("inf")),
    "a tower of 24 functions": Shape(TOWER, ONCE, 23, 5, 30, growth=float("inf")),
    "65,536 ticks of 8 sends": Shape(SENDERS, RUN, 65536, 2, 350, True, limits="{}", scenario=TICKS),
    "65,536 ticks of 8 sends with 1,024 windows": Shape(SENDERS, RUN, 65536, 2, 350, True, growth=2.3, limits="{}", scenario=WINDOWS),
    "8 MiB of deep lists": Shape("event e();", RUN, 33688, 3.5, 700, True, 9, limits="{}", scenario=LISTS),
    "8 MiB of keys": Shape("event e();", RUN, 17788, 2, 300, True, 9, limits="{}", scenario=KEYS),
}


def run(group: Group) -> None:
    spent = compile_c(group, "spent.c")
    shapes = {name: shape for name, shape in SHAPES.items() if shape.gate or group.options.whole}
    if group.options.only:
        shapes = {name: SHAPES[name] for name in group.options.only}
    rows = [line_of(group, spent, name, shape) for name, shape in shapes.items()]
    few, many = count_rows(group, FEW_CASES), count_rows(group, 2 * FEW_CASES)
    group.check("a doubling of cases has more than 2.9 times the rows", 0 < 2.9 * few < many, (few, many))
    titles = ["Input", "Call", "Bytes", "Smaller, s", "Whole, s", "Growth", "MB", "Bound, s", "Bound, MB"]
    table(group, titles, rows)


def count_rows(group: Group, cases: int) -> int:
    """The rows of all tables of 8 matches of this many cases."""
    shape = SHAPES["8 matches of 32"]
    for name, text in shape.files(cases):
        group.file(name, text)
    ended = call([group.options.program, *shape.words], cwd=group.room)
    return sum(int(found) for found in re.findall(rb" rows (\d+)", ended.out))


def spend(group: Group, spent: Path, shape: Shape, size: int, seconds: int) -> Tuple[Spent, int]:
    """Writes the files of a shape at a size, and measures its call; also returns the bytes."""
    files = shape.files(size)
    for name, text in files:
        group.file(name, text)
    return measure(spent, [group.options.program, *shape.words], group.room, seconds), sum(len(text) for _, text in files)


def spend_often(group: Group, spent: Path, shape: Shape, seconds: int, with_smaller: bool) -> Tuple[Optional[Spent], Spent, int]:
    """The quickest calls of a shape at the smaller and at full size, and the bytes at full size.

    A machine may be slow for some seconds, so the calls are made in turn, and quick ones more often. As long as one is beyond a bound there
    are more turns, up to twelve.
    """
    smallers: List[Spent] = []
    wholes: List[Spent] = []
    while True:
        if with_smaller:
            smallers.append(spend(group, spent, shape, shape.smaller(), seconds)[0])
        took, size = spend(group, spent, shape, shape.size, seconds)
        if not with_smaller:
            return None, took, size
        wholes.append(took)
        smaller = min(smallers, key=lambda it: it.seconds) if smallers else None
        whole = min(wholes, key=lambda it: it.seconds)
        is_beyond = whole.seconds > shape.seconds or (smaller is not None and shape.growth_from(smaller.seconds, whole.seconds) > shape.growth)
        enough = TURNS if is_beyond else 1 + min(8, int(2 / max(whole.seconds, 0.01)))
        if len(wholes) >= enough or whole.seconds >= seconds:
            return smaller, whole, size


def count_instructions(group: Group, shape: Shape, size: int) -> int:
    """The instructions of the call of a shape at a size; 0 if nothing can count them."""
    room = Path(tempfile.mkdtemp(dir=group.room))
    for name, text in shape.files(size):
        (room / name).write_text(text)
    return instructions([group.options.program, *shape.words], room)


def find_growth(group: Group, shape: Shape, smaller: Spent, whole: Spent) -> float:
    """How much the time of a call grows for each doubling; 0 if it is too short for its seconds to tell, and nothing counts instructions."""
    if smaller.seconds < 0.2 and shutil.which("valgrind"):
        return shape.growth_from(*(count_instructions(group, shape, size) for size in (shape.smaller(), shape.size)))
    return shape.growth_from(smaller.seconds, whole.seconds) if smaller.seconds >= 0.05 else 0.0


def line_of(group: Group, spent: Path, name: str, shape: Shape) -> List[object]:
    limit = int(4 * shape.seconds) + 10
    is_measured = bool(group.options.whole or group.options.only)
    smaller, whole, size = spend_often(group, spent, shape, limit, is_measured)
    growth = 0.0
    group.check(f"{name}: ends with {shape.status}", whole.ended.status == shape.status, whole.ended)
    if is_measured:
        group.check(f"{name}: at most {shape.seconds} s", whole.seconds <= shape.seconds, whole.seconds)
    group.check(f"{name}: at most {shape.megabytes} MB", whole.megabytes <= shape.megabytes, whole.megabytes)
    if smaller and shape.growth < float("inf"):
        growth = find_growth(group, shape, smaller, whole)
        group.check(f"{name}: grows at most by {shape.growth} for each doubling", growth <= shape.growth, growth)
    took = f"{smaller.seconds:.2f}" if smaller else ""
    shown = f"{growth:.1f}" if growth else ""
    call_shown = f"`{shape.words[0]}{' ' + shape.words[1] if shape.words[0] == 'run' else ''}`"
    return [name, call_shown, size, took, f"{whole.seconds:.2f}", shown, whole.megabytes, shape.seconds, shape.megabytes]
