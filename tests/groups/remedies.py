"""Remedies that are right: each is of a refused program, and is applied by hand in an accepted one.

For each rule of copperfinch.explain.words there is a call that is refused by it, the words of its remedy, and the call with that remedy. Where
an explanation has an edit, the program with the edit is accepted, too. A placement file is not written of a program that does not fit.

Fails on a rule without a remedy here, on other words, and on a remedy that leaves the call refused. Seen to fail: the remedy of one rule
exchanged with that of another; an edit that is one byte off; a refusal that is written as a placement. Sees nothing of a remedy that is right
for its program here and wrong for another one.
"""
from __future__ import annotations

from dataclasses import dataclass
from typing import Dict, List, Tuple

from harness import Group
from copperfinch.bounded import deeply
from copperfinch.explain import explain
from copperfinch.explain.places import applied
from copperfinch.explain.words import WORDS

# Rules of words and of whole files, of which tests/rows has calls.
OTHERS = {"usage", "read fault", "long file", "too long", "ops", "size"}
BODY = "event e(int n);\nhandle e(int n) { BODY }\n"
ARRAY = "global Array.t<<32>> a = Array.create(4);\nmemop plus(int s, int x) { return s + x; }\n"
MEMOP = "memop m(int<<8>> s, int<<8>> x) { BODY }\n"
ASKS = "global Array.t<<32>> x = Array.create(4);\nevent seen(int n);\nevent ask();\nhandle ask() { generate seen(Array.get(x, 0)); }\n"
TWICE = ARRAY + "event e(int n);\nevent f(int n);\nhandle e(int n) { Array.setm(a, n, plus, 1); }\n"
ONCE = ARRAY.split("\n")[0] + "\nevent e(int n);\n"
SCENE = '"stop": 9, "switches": 2, "links": [[0, 1, 1]]'
FIT = '{"nodes": [[0, 0], [1, 0]]}'


@dataclass
class Remedy:
    """A rule, a refused program, words of the remedy, and the accepted program. Other files are pairs of the refused and the accepted one."""

    rule: str
    wrong: str
    words: str
    right: str
    limits: Tuple[str, str] = ("", "")
    scene: Tuple[str, str] = ("", "")
    placement: Tuple[str, str] = ("", "")


def body(rule: str, wrong: str, words: str, right: str, around: str = BODY, before: str = "") -> Remedy:
    """A remedy within a body."""
    return Remedy(rule, before + around.replace("BODY", wrong), words, before + around.replace("BODY", right))


REMEDIES: List[Remedy] = [
    # The refusals whose explanations misled.
    Remedy("shape", "memop refill(int s, int x) { if (s + x > 100) { return 100; } return s + x; }\n", "compare the stored number with the limit less the step",
           "memop refill(int s, int x) { if (s > 90) { return 100; } return s + x; }\n"),
    Remedy("shape", ARRAY + "memop refill(int s, int x) { if (s + x > 100) { return 100; } return s + x; }\nevent e(int n);\n"
           "handle e(int n) { Array.setm(a, n, refill, 10); }\n", "two memops in one `Array.update`",
           ARRAY + "memop keep(int s, int x) { if (s > x) { return 0; } return s; }\nevent e(int n);\n"
           'handle e(int n) { int s = Array.update(a, n, plus, 10, keep, 90); printf("%d", s |+| 1); }\n'),
    Remedy("no tree", "fun int<<w>> f(int<<w>> n) { return n; }\n", "the width goes before the type", "fun <<w>> int<<w>> f(int<<w>> n) { return n; }\n"),
    body("name", "generate Event.locate(e(n), (g));", "write g without parentheses", "generate Event.locate(e(n), g);", before="group g = { 1 };\n"),
    body("name", "n = g;", "name it as the target of an `Event.locate`", "generate Event.locate(e(n), g);", before="group g = { 1 };\n"),
    Remedy("no token", "const int size = 16;\nglobal Array.t<<32>> a = Array.create(size * 2);\n", "declare a constant with it",
           "const int size = 32;\nglobal Array.t<<32>> a = Array.create(size);\n"),
    Remedy("no tree", "const int size = 16;\nglobal Array.t<<32>> a = Array.create(size << 1);\n", "sums and shifts are refused here, too",
           "global Array.t<<32>> a = Array.create(32);\n"),
    body("no tree", "for (int i = 0; i < 2; i = i + 1) { n = n + i; }", "there is no loop. Write the copies", "n = n + 0; n = n + 1;"),
    Remedy("value", ONCE, 'add `"version": 2`', ONCE, ("{}", "{}"), (f'{{{SCENE}, "down": [[0, 1, 2, 3]]}}', f'{{"version": 2, {SCENE}, "down": [[0, 1, 2, 3]]}}')),
    Remedy("arms", TWICE + "handle f(int n) { Array.setm(a, 0, plus, n); }\n", "let the handlers send an event whose handler makes the call",
           TWICE + "handle f(int n) { generate e(n); }\n", ('{"arms": 1}', '{"arms": 1}')),
    Remedy("arms", ARRAY + BODY.replace("BODY", "if (n == 1) { Array.setm(a, 2, plus, 1); } else { Array.setm(a, 3, plus, 1); }"), "make one call, with the cell chosen before it",
           ARRAY + BODY.replace("BODY", "int i = 3; if (n == 1) { i = 2; } Array.setm(a, i, plus, 1);"), ('{"arms": 1}', '{"arms": 1}')),
    # Texts.
    Remedy("no token", "event e(); /* a", "close the comment with */", "event e(); /* a */"),
    body("no token", 'printf("a);', "close the text", 'printf("a");'),
    body("no token", "n = 18446744073709551616;", "write a smaller number", "n = 1844674407;"),
    Remedy("no token", "# a\nevent e();\n", "write // before a comment", "// a\nevent e();\n"),
    body("no token", "a[n] = 1;", "call an array by Array.get and Array.set", "Array.set(a, n, 1);", before=ARRAY),
    Remedy("no token", "event e(); $\n", "remove this byte", "event e(); \n"),
    body("nesting", "n = " + "(" * 65 + "n" + ")" * 65 + ";", "use locals for parts of an expression", "int m = n; n = m;"),
    Remedy("no tree", "event e(int n)\nhandle e(int n) { }\n", "write `;` here", "event e(int n);\nhandle e(int n) { }\n"),
    body("no tree", "int group = 1;", "choose another name", "int set = 1;"),
    Remedy("template", "fun <<w>> int<<w>> f(int<<w>> n) { return n;\n", "close its braces", "fun <<w>> int<<w>> f(int<<w>> n) { return n; }\n"),
    Remedy("two templates", "fun <<w>> void f() { } fun <<w>> void f() { }\n", "rename one of them", "fun <<w>> void f() { } fun <<w>> void g() { }\n"),
    # Types.
    Remedy("width", "event e(int<<65>> n);\n", "write a width from 1 to 64", "event e(int<<64>> n);\n"),
    Remedy("number", "const int<<8>> a = 256;\n", "write a number below 256, or a wider place", "const int<<9>> a = 256;\n"),
    Remedy("int", "const bool a = 1;\n", "write an int", "const int a = 1;\n"),
    Remedy("name", BODY.replace("BODY", "generate f(n);"), "declare f before this place", "event f(int n);\n" + BODY.replace("BODY", "generate f(n);")),
    body("name", "n = seem;", "or write seen", "n = seen;", before="const int seen = 1;\n"),
    body("name", "n = e;", "name a local or a constant", "n = n;"),
    body("type", "int<<8>> m = n;", "cast it, as (int<<8>>) (..)", "int<<8>> m = (int<<8>>) (n);"),
    body("type", "if (n & 2) { n = 1; }", "compare it with a number, as (..) != 0", "if ((n & 2) != 0) { n = 1; }"),
    body("type", "n = n == 1;", "assign a number by an `if`", "if (n == 1) { n = 1; } else { n = 0; }"),
    body("type", "n = Array.set(a, 0, 1);", "call it as a statement", "Array.set(a, 0, 1);", before=ARRAY),
    body("free type", 'printf("%d", n == 1);', "write an int here", 'printf("%d", n);'),
    body("arguments", "generate e();", "give 1 argument", "generate e(1);"),
    body("bare name", "f((a));", "write the name of an array without parentheses", "f(a);", before=ARRAY + "fun void f(Array.t<<32>> b) { Array.set(b, 0, 1); }\n"),
    body("cells", "f(a);", "give an array of cells of 8 bits", "f(b);",
         before=ARRAY + "global Array.t<<8>> b = Array.create(2);\nfun void f(Array.t<<8>> c) { Array.set(c, 0, 1); }\n"),
    body("memop width", "Array.setm(a, 0, m, 1);", "declare a memop of 32 bits", "Array.setm(a, 0, plus, 1);", before=ARRAY + MEMOP.replace("BODY", "return s;")),
    body("behind return", "if (n == 1) { return; } else { n = 2; } n = 3;", "or into an `else`", "if (n == 1) { return; } else { n = 2; n = 3; }"),
    body("return", "return 1;", "return no value", "return;"),
    Remedy("return", "fun int f() { return; }\n", "return a value of type `int`", "fun int f() { return 1; }\n"),
    Remedy("no return", "fun int f(int a) { if (a == 1) { return 1; } }\n", "end each path with a `return`", "fun int f(int a) { if (a == 1) { return 1; } return 2; }\n"),
    body("two cases", "match n with | 1 -> { } | 1 -> { n = 2; }", "remove one of them", "match n with | 1 -> { n = 2; }"),
    body("holes", 'printf("%d");', "give 1 argument", 'printf("%d", n);'),
    body("second", "generate Event.delay(Event.delay(e(n), 1), 2);", "remove one delay", "generate Event.delay(e(n), 3);"),
    Remedy("array size", "global Array.t<<8>> a = Array.create(0);\n", "write a size from 1 to 65536", "global Array.t<<8>> a = Array.create(1);\n"),
    Remedy("member", "group g = { 1, 64 };\n", "remove this member", "group g = { 1 };\n"),
    Remedy("two handlers", "event e();\nhandle e() { }\nhandle e() { printf(\"a\"); }\n", "join the two handlers", "event e();\nhandle e() { printf(\"a\"); }\n"),
    Remedy("handler widths", "event e(int n);\nhandle e(int<<8>> n) { }\n", "write the widths of the event", "event e(int n);\nhandle e(int n) { }\n"),
    Remedy("memop parameters", "memop m(int s, int<<8>> x) { return s; }\n", "write int", "memop m(int s, int x) { return s; }\n"),
    body("shape", "if (s == 1 && x == 2) { return s; } return x;", "compare two operands by one of", "if (s == 1) { return s; } return x;", MEMOP),
    body("shape", "s = 1; return s;", "write `return ..;`", "return 1;", MEMOP),
    body("shape", "if (s == 1) { } return x;", "write `return ..;`", "if (s == 1) { return 1; } return x;", MEMOP),
    body("shape", "return s |+| x;", "leave this to the handler", "return s + x;", MEMOP),
    body("limit", 'printf("a"); ' * 9, "use fewer of them", 'printf("a"); ' * 8),
    body("cycle", "Array.set(a, 0, Array.get(a, 1));", "make both calls one `Array.update`", "int m = Array.update(a, 1, plus, 0, plus, 1); n = m;", before=ARRAY),
    body("cycle", "Array.set(b, 0, 1); Array.set(a, 0, 1);", "swap the calls or the declarations", "Array.set(a, 0, 1); Array.set(b, 0, 1);",
         before=ARRAY + "global Array.t<<8>> b = Array.create(2);\n"),
    # Layouts, placements and JSON.
    Remedy("bits", "event a(int<<64>> n);\n", "use smaller widths", "event a(int n);\n", ('{"bits": 130}', '{"bits": 130}')),
    Remedy("node", ASKS, "allow more", ASKS, ('{"stages": 1}', '{"stages": 2}')),
    Remedy("range", ASKS, "move it, or allow more", ASKS, ("{}", "{}"), placement=('{"nodes": [[0, 0], [12, 0]]}', FIT)),
    Remedy("early", ASKS, "move node 1 behind stage 0", ASKS, ("{}", "{}"), placement=('{"nodes": [[0, 0], [0, 1]]}', FIT)),
    Remedy("rows", ASKS + "handle seen(int n) { if (n == 1) { printf(\"a\"); } }\n", "move node 1 to another table", ASKS + "handle seen(int n) { if (n == 1) { printf(\"a\"); } }\n",
           ('{"rows": 1}', '{"rows": 1}'), placement=('{"nodes": [[0, 0], [0, 0], [1, 0]]}', '{"nodes": [[0, 1], [0, 0], [1, 0]]}')),
    Remedy("stage arrays", ARRAY + "global Array.t<<8>> b = Array.create(2);\n" + BODY.replace("BODY", "Array.set(a, 0, 1); Array.set(b, 0, 1);"),
           "move the last of its array nodes to another stage", ARRAY + "global Array.t<<8>> b = Array.create(2);\n" + BODY.replace("BODY", "Array.set(a, 0, 1); Array.set(b, 0, 1);"),
           ('{"arrays": 1}', '{"arrays": 1}'), placement=('{"nodes": [[0, 0], [0, 1]]}', FIT)),
    Remedy("not JSON", ONCE, "mend the JSON here", ONCE, ("{", "{}")),
    Remedy("other key", ONCE, "remove or rename this key", ONCE, ('{"stage": 3}', '{"stages": 3}')),
    Remedy("value", ONCE, "write a number from 1 to 32", ONCE, ('{"stages": 33}', '{"stages": 32}')),
]


def call_of(remedy: Remedy, number: int) -> Tuple[List[str], Dict[str, str]]:
    """The words of the refused or the accepted call, and its files."""
    files = {"p": (remedy.wrong, remedy.right)[number], "l": remedy.limits[number], "t": remedy.scene[number], "q": remedy.placement[number]}
    command = ["audit"] if files["q"] else ["run", "pipe"] if files["t"] else ["layout"] if files["l"] else ["check"]
    return [*command, *(name for name, text in files.items() if text)], files


def check_remedy(group: Group, remedy: Remedy) -> None:
    name = f"{remedy.rule}: {remedy.words}"
    words, files = call_of(remedy, 0)
    report = explain(words, lambda it: files[it.decode()].encode(), with_nodes=False)
    made, answer = report.explanation, report.answer
    if not group.check(f"{name}: is refused by its rule", made is not None and answer.refused.fault.rule == remedy.rule, answer.err):
        return
    group.check(f"{name}: the remedy", remedy.words in made.words.remedy, made.words.remedy)
    right, mended = call_of(remedy, 1)
    for file, text in mended.items():
        group.file(file, text)
    group.check(f"{name}: accepted with it", group.call(*right, cwd=group.room).status == 0, (right, mended["p"]))
    if made.edits:
        group.file("p", applied(files["p"].encode(), made.edits))
        ended = group.call("check", "p", cwd=group.room)
        group.check(f"{name}: accepted with its edit", ended.status == 0, (ended, made.edits))


def check_placement(group: Group) -> None:
    program, limits = group.file("n.luc", ASKS), group.file("n.json", '{"stages": 1}')
    done = group.tool("explain", program, limits, "--placement")
    group.check("no placement of a program that does not fit", done.status == 7 and done.out == b"" and b"nofit: node 1\n" in done.err, done)
    done = group.tool("explain", program, group.file("m.json", "{}"), "--placement")
    group.check("a placement of one that does", done.status == 0 and done.out == FIT.encode() + b"\n" and done.err == b"", done)


def work(group: Group) -> None:
    for remedy in REMEDIES:
        check_remedy(group, remedy)
    missing = set(WORDS) - OTHERS - {remedy.rule for remedy in REMEDIES}
    group.check("each rule has a remedy here", not missing, sorted(missing))
    check_placement(group)


def run(group: Group) -> None:
    deeply(lambda: work(group))
