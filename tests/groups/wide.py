"""Texts of functions over a width whose expansion is nearly 8 MiB, and halves and quarters of them: seconds and memory of four commands.

Prints a line of a table for each shape. Fails on a shape whose time grows by more than 2.7 when its text doubles, or that ends by a signal.
`--only SHAPE` takes this shape. Sees no growth below a tenth of a second.
"""
from __future__ import annotations

from pathlib import Path
from typing import Dict, List

from harness import Group, Spent, best, compile_c, table
from rowfile import spelled_out

MOST = 1048576
GROWTH = 2.7
TURNS = 3


def uses(last: int, name: str = "f", first: int = 1) -> str:
    """An event whose handler calls the function at each width from one to another."""
    calls = " else ".join(f"if (w == {w}) {{ {name}<<{w}>>(1); }}" for w in range(first, last + 1))
    return f"event go(int w);\nhandle go(int w) {{ {calls} }}\n"


def used(body: str, last: int = 8, first: int = 1) -> str:
    """A function over a width with this body, and its uses."""
    return f"fun <<w>> int<<w>> f(int<<w>> x) {{ {body}return x; }}\n" + uses(last, first=first)


NO_HANDLER = "event go(int w);\nhandle go(int w) { }\n"
ADDS = "(int<<w>> x) { return x + 1; }\n"
G = f"fun <<w>> int<<w>> g{ADDS}"
# The parameters and the arguments of functions with 8 arrays, with the width of the cells to be put in.
ARRAYS = "".join(f"Array.t<<W>> {letter}, " for letter in "pqrstuvx") + "int i"
GIVEN = "p, q, r, s, t, u, v, x, i"
SETS = "".join(f" if (i == 0) {{ Array.set({letter}, i, 1); }}" for letter in "pqrstuvx") + "«64: if (i == 0) { Array.set(a##, i, 1); }»"
# Texts in the form of tests/rows; `@` is the number of their parts.
SHAPES: Dict[str, str] = {
    "assignments": used("«@:x = x + 1; »"),
    "many widths": used("«@:x = x + 1; »", 64),
    "ifs": used("«@:«60:if (x == 1) { »x = x + 1; «60:} »»"),
    "locals": used("«@:int<<w>> local## = x; »"),
    "hidden locals": used("«@:int<<w>> y = x; »"),
    "long names": used("«@:int<<w>> «20:long_name_»## = x; »"),
    "underscores": f"event «@:_»();\nfun <<w>> int<<w>> f{ADDS}" + uses(64),
    "comments": used("«@:/* none */ »"),
    "returns": used("«@:if (x == 1) { return x; } »"),
    "prints": used('«@:if (x == 1) { printf("port %d", x); return x; } »'),
    "cases": used("match x with «@:| ## -> { } »", 64, first=57),
    "calls": G + used("«@:x = g<<w>>(x); »", 16),
    "nested calls": G + used("«@:x = «30:g<<w>>(»x«30:)»; »", 16),
    "conditions": G + used("«@:if (g<<w>>(x) < x) { x = g<<w>>(x); } »", 16),
    "matches": G + used("«@:match g<<w>>(x) with | 0 -> { x = 1; } | 1 -> { x = 0; } | _ -> { x = g<<w>>(x); } »", 16),
    "functions": f"«@:fun <<w>> int<<w>> f##{ADDS}»" + used("«@:f##<<w>>(x); »", 16),
    "chain": f"fun <<w>> int<<w>> f0{ADDS}«@:fun <<w>> int<<w>> f##(int<<w>> x) {{ return f#<<w>>(x); }}\n»" + uses(16, "f@"),
    "declarations": """«64:global Array.t<<##>> array## = Array.create(##);
»«@:const int constant## = ##;
event event##(int n);
handle event##(int n) { generate event##(n); }
»""" + used("«@:x = x + 1; »", 64),
    # A chain of functions with 8 arrays, of which the first calls these and all that are declared: each asks 2,628 pairs.
    "arrays": f"""«64:global Array.t<<##>> a## = Array.create(4);
»fun <<w>> void f0({ARRAYS.replace('W', 'w')}) {{{SETS} }}
«@:fun <<w>> void f##({ARRAYS.replace('W', 'w')}) {{ f#<<w>>({GIVEN}); }}
»«64:fun void at##({ARRAYS.replace('W', '##')}) {{ f@<<##>>({GIVEN}); }}
»""" + NO_HANDLER,
    "unused": "«@:fun <<w>> int f##() { return 0; }\n»" + NO_HANDLER,
    "small functions": """fun <<w>> int f0() { return 0; }
«49:fun <<w>> int f##() { return f#<<w>>(); }
»event go(int w);
handle go(int w) {«@: f49<<##>>();» }
""",
    "too long": used("«@:x = x + 1; »", 64),
    "plain": "«@:event event##(int n, int m);\nhandle event##(int n, int m) { if (n < m) { generate event##(m, n + 1); } }\n»" + NO_HANDLER,
}


def text_of(shape: str, count: int) -> str:
    """The text of a shape with this many parts."""
    return spelled_out(SHAPES[shape].replace("@", str(count)))


CALLS = {"expand": ["expand", "p"], "check": ["check", "p"], "once": ["once", "p", "go", "7"], "run whole": ["run", "whole", "p", "l", "s"]}


def is_short(group: Group, shape: str, count: int) -> bool:
    """Whether the text of so many parts may be read and expanded, except the one shape that is too long."""
    text = text_of(shape, count)
    group.file("p", text)
    return len(text) <= MOST and (shape == "too long" or group.call("expand", "p", cwd=group.room).status == 0)


def most_parts(group: Group, shape: str) -> int:
    low, high = 1, 1
    while is_short(group, shape, high):
        low, high = high, high * 4
    while high - low > 1:
        middle = (low + high) // 2
        low, high = (middle, high) if is_short(group, shape, middle) else (low, middle)
    return low


def growth(spent: Dict[int, Spent]) -> float:
    """By what factor the time grows at most if the text doubles, where it is a tenth of a second or more."""
    times = [(spent[part].seconds, spent[2 * part].seconds) for part in (1, 2)]
    return max([whole / half for whole, half in times if whole >= 0.1 and half > 0], default=0)


def run(group: Group) -> None:
    program = compile_c(group, "spent.c")
    group.file("l", '{"stages": 2}')
    group.file("s", '{"stop": 100, "events": [{"at": 0, "switch": 0, "name": "go", "args": [7]}]}')
    rows = [line_of(group, program, shape) for shape in group.options.only or SHAPES]
    table(group, ["Text", "Bytes", "Expanded", *(f"`{name}`" for name in CALLS), "`check` of a half", "of a quarter", "Doubling"], rows)


def line_of(group: Group, program: Path, shape: str) -> List[object]:
    count = most_parts(group, shape)
    spent: Dict[str, Dict[int, Spent]] = {name: {} for name in CALLS}
    sizes: List[int] = []
    for part in 1, 2, 4:
        text = text_of(shape, count // part)
        group.file("p", text)
        sizes += [len(text), len(group.call("expand", "p", cwd=group.room).out)] if part == 1 else []
        for name, words in CALLS.items():
            spent[name][part] = best(program, [group.options.program, *words], TURNS, group.room)
            group.check(f"{shape}: {name} ends by no signal", spent[name][part].ended.status >= 0, spent[name][part].ended)
    most = max(growth(spent[name]) for name in CALLS)
    group.check(f"{shape}: time grows by at most {GROWTH} if the text doubles", most <= GROWTH, most)
    whole = [cell(spent[name][1]) for name in CALLS]
    return [shape, *sizes, *whole, cell(spent["check"][2]), cell(spent["check"][4]), f"{most:.2f}" if most else ""]


def cell(it: Spent) -> str:
    return f"{it.seconds:.2f} s, {it.megabytes} MB" + (f" (ends with {it.ended.status})" if it.ended.status else "")
