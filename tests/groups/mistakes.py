"""All mistakes of a program at once: `explain --all`, whose function is copperfinch.explain.every.explain_all.

Its first explanation is the program's own refusal, for each refused row; on accepted programs it finds nothing. Programs with several
mistakes give each at its place, and none that follows from another. Where one token of an example is left out, at most three places are
named, and more than one in few cases. Long texts with many mistakes end within the seconds of `explain`.

Fails on a name that is reported where it is used although its declaration was refused; on an end of a block that is missed; on a node that
is reported because the node that it reads has no place. Seen to fail: without the names of a broken declaration, without the repair of a
sign that is no token, with nodes that follow. Sees nothing of a mistake that all its programs lack.
"""
from __future__ import annotations

import json
import random
import time
from typing import List

from harness import EXAMPLES, TESTS, Group
from copperfinch.bounded import deeply
from copperfinch.explain import Explanation, explain
from copperfinch.explain.every import MOST, explain_all
from copperfinch.explain.recover import all_wrong
from copperfinch.model.lexer import scan
from rowfile import all_rows

# Programs with several mistakes, and the place and the first words of each.
PROGRAMS = {
    """#define N 4
const int size = 1 + 2;
const int<8> m = 3;
entry event a(int x);
global Array.t<<32>> t = Array.create(4);
global Array.t<<32>> u = new Array<<32>>(4);
event b(bool x);
memop plus(int s, int x) { return s * x; }
event c(int<<8>> x) { printf("%d", x) }
handle a(int x) {
  int y = x * 2
  x++;
  auto z = x;
  if (x) { printf("%d", z); }
  for (int i = 0; i < 4; i++) { y = i + zz; }
  if (x == 1) y = 2;
  match (x, y) with | 1, 2 -> { y = foo; } | _ -> { y = bar; }
  int<<8>> q = y;
  Array.set(t, 0, N); Array.set(t, 1, q);
  Array.set(u, 1, q);
  generate Event.locate(c((int<<8>>) y), {1, 2});
}
handle b(int x) { generate b(x); generate d(x);
""": "1:1 2:20 3:10 4:1 6:26 7:9 8:37 9:21 9:39 11:13 12:3 12:4 13:8 14:7 15:8 16:15 17:11 17:37 17:57 18:16 19:23 19:39 21:42 23:43 24:1",
    # Each array is declared behind a mistake, and the cycles are of two handlers.
    """global Array.t<<32>> x = Array.create(4);
global Array.t<<32>> y = Array.create(4);
event e(int n);
event f(int n);
handle e(int n) { Array.set(y, n, 1); Array.set(x, n, 1); n = q; }
handle f(int n) { Array.set(x, n, Array.get(x, 1)); int<<70>> r = 1; n = r; printf("%d"); }
""": "5:39 5:63 6:19 6:53 6:77",
    # Only the first mistake: what is declared wrongly is used in each way.
    """fun int f(int<<65>> n) { return 1; }
memop m(int<<8>> s, int x) { return s; }
global Array.t<<32>> a = Array.create(0);
event e(int n, bool b);
group g = { 64 };
event h(int n);
handle h(int n) {
  int v = f(n, 2) + Array.get(a, n);
  Array.setm(a, v, m, 1);
  generate e(n);
  generate Event.locate(h(v), g);
}
""": "1:11 2:21 3:39 4:16 5:13",
    # Functions over a width: one without an end, and one of a name that is taken.
    "fun <<w>> int<<w>> f(int<<w>> n) { return n; }\nfun <<w>> int<<w>> f(int<<w>> n) { return n; }\nevent e(int n);\n"
    "handle e(int n) { n = f<<32>>(n); n = q; }\n": "2:20 4:39",
}
PIECES = """int<32>|auto x = |x++;|n += 1;|{|}|(|)|;|@a|"|/*|for (|match (a, b) with|[7:0]|?|:|*|'a|fun <<w>> |fun |handle |event |if (|else|generate |<<|^^|5w8|
10us|\xe9|entry |size n = 4;|const group|return|true|65536|-1|0x|SELF|self|Sys.random()|skip;|//|hash<32>(|#define A|Array.update(a, 1, m, 2)""".split("|")
LAYOUT = """global Array.t<<32>> x = Array.create(4);
event seen(int n);
event e(int n);
handle e(int n) {
  int a = Array.get(x, n);
  int b = a + 1;
  generate seen(b);
  generate seen(a);
}
"""


def places(found: List[Explanation]) -> List[str]:
    return [f"{made.place.line}:{made.place.column}" for made in found if made.place]


def check_programs(group: Group) -> None:
    for text, wanted in PROGRAMS.items():
        found = explain_all(["check", "p"], lambda name: text.encode())
        got = sorted(places(found), key=lambda place: [int(word) for word in place.split(":")])
        group.check(f"all mistakes of {text[:30]!r}", got == wanted.split(), " ".join(got))
    nodes = explain_all(["layout", "p", "l"], {b"p": LAYOUT.encode(), b"l": b'{"stages": 1, "bits": 70}'}.__getitem__)
    lines = [made.refusal for made in nodes]
    group.check("bits, and both nodes whose inputs have a place", lines == ["nofit: bits 192", "nofit: node 1", "nofit: node 3"], lines)
    files = {b"p": b"event e();;", b"l": b'{"stages": 0}', b"t": b"{}"}
    lines = [made.refusal for made in explain_all(["run", "pipe", "p", "l", "t"], files.__getitem__)]
    group.check("the limits behind a program that is refused", lines == ["syntax: token 6", "limits: stages"], lines)


def check_tool(group: Group) -> None:
    """`--all` prints the program's line, then each explanation behind an empty line; as JSON it has a list of them."""
    path = group.file("p", "event e(int n);\nhandle e(int n) { n++; int<<8>> m = n; m = k; }\n")
    done = group.tool("explain", path, "--all")
    lines = done.out.decode().split("\n")
    heads = [line.partition(" ")[0] for line in lines if ": error: " in line]
    group.check("--all: its first line and code", (done.status, lines[0]) == (4, "syntax: token 8"), done)
    group.check("--all: the places", heads == [f"{path}:2:{column}:" for column in (20, 37, 44)] and lines[-2] == "3 mistakes", lines)
    data = json.loads(group.tool("explain", path, "--all", "--json").out)
    group.check("--all --json", [made["place"]["end"] for made in data["all"]] == [21, 38, 45], data)
    other = group.tool("explain", EXAMPLES / "nat.luc", "--all")
    group.check("--all of an accepted program", (other.status, other.out) == (0, b"nothing is refused\n"), other)


def check_rows(group: Group) -> None:
    refused = 0
    for row in all_rows():
        if row.status in (10, 11) or row.bytes_read() > 2_000:
            continue
        made, found = explain(row.words, row.read, with_nodes=False).explanation, explain_all(row.words, row.read)
        refused += made is not None
        is_own = bool(found) == (made is not None) and (made is None or (found[0].refusal, found[0].lines()[:4]) == (made.refusal, made.lines()[:4]))
        group.check(f"{row.name}: the first of all is the program's own refusal", is_own, found[:1])
        if made is None and row.words[:1] == ["check"]:
            lines = [one.line for one in all_wrong(row.files["p"].decode("latin-1")).refusals]
            group.check(f"{row.name}: nothing is wrong with an accepted program", lines == [], lines)
    group.check("there are 700 refused rows", refused >= 700, refused)


def check_left_out(group: Group) -> None:
    drawn = random.Random(group.options.seed)
    counts = [0] * 9
    paths = sorted(EXAMPLES.glob("*.luc"))
    for _ in range(group.options.runs or 400):
        text = drawn.choice(paths).read_text()
        token = drawn.choice(scan(text)[0])
        cut = text[: token.at] + " " * len(token.text) + text[token.at + len(token.text) :]
        found = explain_all(["check", "p"], lambda name: cut.encode())
        counts[min(8, len(found))] += 1
        group.check(f"{token.text!r} left out: no mistake that follows", len(found) <= 3, places(found))
    group.check("one mistake gives one explanation", sum(counts[2:]) <= sum(counts) // 10, counts)


def check_drawn(group: Group) -> None:
    """Texts with pieces put in and left out: no fault, the own refusal first, no place twice, and all places and edits within the text."""
    drawn = random.Random(group.options.seed)
    texts = [path.read_text() for folder in (EXAMPLES, EXAMPLES / "recipes", TESTS / "ported") for path in sorted(folder.glob("*.luc"))]
    for number in range(group.options.runs or 300):
        text = drawn.choice(texts)
        for _ in range(drawn.randint(1, 6)):
            at = drawn.randrange(len(text) + 1)
            text = text[:at] + drawn.choice(["", *PIECES]) + text[at + drawn.choice((0, 0, 1, 5)) :]
        data = text.encode("latin-1")
        found, own = explain_all(["check", "p"], lambda _: data), explain(["check", "p"], lambda _: data, with_nodes=False).explanation
        group.check(f"drawn {number}: the own refusal first", [made.refusal for made in found[:1]] == ([own.refusal] if own else []), found[:1])
        keys = [(made.refusal, made.place.at) for made in found if made.place]
        group.check(f"drawn {number}: no mistake twice", len(keys) == len(set(keys)), places(found))
        edits = [edit for made in found for edit in made.edits]
        within = all(0 <= edit.start <= edit.end <= len(data) for edit in edits) and all(made.place.end <= len(data) for made in found if made.place)
        group.check(f"drawn {number}: places and edits within the text", within, edits)


def check_long(group: Group) -> None:
    many = "event e(int n);\nhandle e(int n) {\n" + "n = n * 2; x++;\n" * 30_000 + "}\n"
    signs, broken = "' @ ` $ ?\n" * 6_000, "handle e() { x = ; }\n" * 10_000
    for name, text in (("60,000 mistakes", many), ("30,000 bytes of no token", signs), ("10,000 declarations", broken)):
        started = time.process_time()
        found = explain_all(["check", "p"], lambda _: text.encode())
        spent = time.process_time() - started
        group.check(f"{name}: the first {MOST}", len(found) == MOST and spent < 12, (len(found), spent))


def work(group: Group) -> None:
    check_programs(group)
    check_tool(group)
    check_rows(group)
    check_left_out(group)
    check_drawn(group)
    check_long(group)


def run(group: Group) -> None:
    deeply(lambda: work(group))
