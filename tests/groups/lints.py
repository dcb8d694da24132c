"""Warnings of programs that are accepted and probably wrong: `explain --lint`, whose function is copperfinch.lint.lint.

For each name of tools/LINT.md there is a program that is warned of, at its place, one that is repaired, and one that allows it. The examples
give no warning, and neither do they without the allowance of a name that no comment of theirs names. The numbers that tools/LINT.md and
docs/LANGUAGE.md give of hashes are those of `hash`.

Fails on a name without a program, on a warning of a repaired program, on a comment that silences another name, and on a warning of an
example. Seen to fail: each rule left out; a comment that allows all names; ranges of a mask that are one too large. Sees nothing of wrong
programs of other kinds.
"""
from __future__ import annotations

import json
import re
from typing import Dict, List, Tuple

from harness import EXAMPLES, TOP, Group
from copperfinch.bounded import deeply
from copperfinch.lint import lint
from copperfinch.model.values import hash_of

HEAD = """global Array.t<<32>> a = Array.create(256);
memop plus(int stored, int x) { return stored + x; }
event out(int n);
event e(int<<8>> n, int m);
handle out(int n) { printf("%d", n); }
"""
READS = HEAD + 'handle e(int<<8>> n, int m) { printf("%d", Array.update(a, INDEX, plus, 1, plus, 1)); }\n'
SCENE = '{{"switches": 3, "stop": 9, "links": [[0, 1, 1]], "events": [{{"at": 0, "switch": 0, "name": "{}", "args": [{}]}}]}}'
FUN = "fun int f({}) {{ return n; }}\nevent e(int n);\nhandle e(int n) {{ printf(\"%d\", f({})); }}\n"
# The name of a warning: wrong programs, each with `@` before the place of the warning, and repaired ones.
PROGRAMS: Dict[str, Tuple[List[str], List[str]]] = {
    "hash-bits": (
        [
            READS.replace("INDEX", "@hash<<8>>(1, m)"),
            READS.replace("INDEX", "@hash<<32>>(1, m) >> 4 & 255"),
            HEAD.replace("event out", "fun int cell(int seed, int n) { return @hash<<32>>(seed, n) & 255; }\nevent out")
            + 'handle e(int<<8>> n, int m) { int i = cell(1, m); printf("%d", Array.update(a, i, plus, 1, plus, 1)); }\n',
            HEAD.replace("handle out(int n) { printf", 'handle out(int n) { printf("%d", Array.update(a, n, plus, 1, plus, 1)); printf')
            + "handle e(int<<8>> n, int m) { generate out((int) @hash<<8>>(1, m)); }\n",
        ],
        [READS.replace("INDEX", "hash<<32>>(1, m) >> 24"), READS.replace("INDEX", "(int<<8>>) (hash<<64>>(1, m) >> 56)")],
    ),
    "index-range": (
        [READS.replace("INDEX", "@256"), READS.replace("INDEX", "m @& 511"), READS.replace("INDEX", "@hash<<32>>(1, m) >> 23")],
        [READS.replace("INDEX", "255"), READS.replace("INDEX", "m & 255"), READS.replace("INDEX", "m"), READS.replace("INDEX", "hash<<32>>(1, m) >> 24"), READS.replace("INDEX", "n + 1")],
    ),
    "always": (
        [
            HEAD + 'handle e(int<<8>> n, int m) { if (n @<= 255) { printf("%d", Array.update(a, m, plus, 1, plus, 1)); } }\n',
            HEAD + 'handle e(int<<8>> n, int m) { if ((m & 3) @== 4) { printf("%d", Array.update(a, m, plus, 1, plus, 1)); } }\n',
            "memop m(int<<8>> s, int<<8>> x) { if (s @>= 0) { return x; } return s; }\n",
        ],
        [
            HEAD + 'handle e(int<<8>> n, int m) { if (n < 255) { printf("%d", Array.update(a, m, plus, 1, plus, 1)); } }\n',
            HEAD + 'const int loud = 1;\nhandle e(int<<8>> n, int m) { if (loud == 1) { printf("%d", Array.update(a, m, plus, 1, plus, 1)); } }\n',
            "memop m(int<<8>> s, int<<8>> x) { if (s > 0) { return x; } return s; }\n",
        ],
    ),
    "unread": (
        [
            "event e(int n);\nhandle e(int n) { @int x = n; }\n",
            FUN.format("int n, @int m", "n, 1"),
            "fun int f(int n, @Array.t<<8>> a) { return n; }\nglobal Array.t<<8>> b = Array.create(2);\nevent e(int n);\n"
            'handle e(int n) { printf("%d", f(n, b)); }\n',
        ],
        [FUN.format("int n", "n"), FUN.format("int n, int _m", "n, 1"), "event e(int n);\nhandle e(int n) { }\n"],
    ),
    "array-unread": (
        ["@global Array.t<<8>> a = Array.create(2);\nevent e(int n);\nhandle e(int n) { Array.set(a, n, 1); }\n"],
        ['global Array.t<<8>> a = Array.create(2);\nevent e(int n);\nhandle e(int n) { if (n == 1) { Array.set(a, n, 1); } else { printf("%d", Array.get(a, n)); } }\n'],
    ),
    "array-unwritten": (
        ['@global Array.t<<8>> a = Array.create(2);\nevent e(int n);\nhandle e(int n) { printf("%d", Array.get(a, n)); }\n'],
        [READS.replace("INDEX", "m")],
    ),
    "array-unused": (["@global Array.t<<8>> a = Array.create(2);\nevent e(int n);\nhandle e(int n) { }\n"], [READS.replace("INDEX", "m")]),
    "no-handler": (
        ["@event out(int n);\nevent e(int n);\nhandle e(int n) { generate out(n); }\n"],
        ["event out(int n);\nevent e(int n);\nhandle e(int n) { generate out(n); }\nhandle out(int n) { }\n", "event out();\n"],
    ),
    "no-sender": (
        ["event e();\nevent f();\n@handle e() { }\nhandle f() { }\n" + SCENE.format("f", "")],
        ["event e();\nevent f();\nhandle e() { }\nhandle f() { generate Event.delay(e(), 2); }\n" + SCENE.format("f", "")],
    ),
    "dead-branch": (
        [
            'event e(int n);\nhandle e(int n) { @if (false) { printf("x"); } }\n',
            'event e(int n);\nhandle e(int n) { if (n == 1) { n = 2; } else @if (n == 1) { n = 3; } printf("%d", n); }\n',
            'event e(int n);\nhandle e(int n) { match n & 3 with | 1 -> { printf("a"); } | @4 -> { printf("b"); } }\n',
        ],
        ['event e(int n);\nhandle e(int n) { if (n == 1) { n = 2; } else if (n == 2) { n = 3; } printf("%d", n); }\n'],
    ),
    "cast-loss": (
        ['event e(int n);\nhandle e(int n) { printf("%d", @(int<<8>>) n); }\n'],
        [
            'event e(int n);\nhandle e(int n) { printf("%d", (int<<8>>) (n & 255)); }\n',
            'event e(int n);\nhandle e(int n) { printf("%d %d", (int<<16>>) n, (int<<16>>) (n >> 16)); }\n',
        ],
    ),
    "endless": (
        [
            "event e(int n);\nhandle e(int n) { @generate e(n + 1); }\n",
            "event e(int n);\nhandle e(int n) { @generate Event.delay(e(n + 1), 0); }\n",
        ],
        [
            "event e(int n);\nhandle e(int n) { generate Event.delay(e(n + 1), 10); }\n",
            "event e(int n);\nhandle e(int n) { if (n > 0) { generate e(n - 1); } }\n",
        ],
    ),
    "unlinked": (
        [
            "group g = { 1, @2 };\nevent e();\nhandle e() { generate Event.locate(e(), g); }\n" + SCENE.format("e", ""),
            "group g = { @3 };\nevent e();\nhandle e() { generate Event.locate(e(), g); }\n" + SCENE.format("e", ""),
        ],
        ["group g = { 0, 1 };\nevent e();\nhandle e() { generate Event.locate(e(), g); }\n" + SCENE.format("e", "")],
    ),
}


def warned(text: str) -> List[Tuple[str, int]]:
    """The names and the bytes of the warnings of a program, whose scenario may stand behind it."""
    program, brace, scene = text.partition('{"switches"')
    files = {b"p": program.encode(), b"l": b"{}", b"t": (brace + scene).encode()}
    words = ["run", "pipe", "p", "l", "t"] if scene else ["check", "p"]
    return [(one.name, one.place.at) for one in lint(words, files.__getitem__)]


def check_names(group: Group) -> None:
    page = (TOP / "tools/LINT.md").read_text()
    names = re.findall(r"^## (\S+)$", page, re.M)
    group.check("each section of tools/LINT.md has its programs", names == list(PROGRAMS), set(names) ^ set(PROGRAMS))
    for name, (wrong, right) in PROGRAMS.items():
        for text in wrong:
            at, plain = text.index("@"), text.replace("@", "", 1)
            found = warned(plain)
            group.check(f"{name} is found: {plain[-70:]!r}", (name, at) in found, found)
            others = [one for one in found if one[0] != name]
            line = plain.count("\n", 0, at)
            lines = plain.split("\n")
            for form in (f"// lint: allow {name}: a reason.", f"  //lint:  allow other, {name}"):
                above = "\n".join(lines[:line] + [form] + lines[line:])
                group.check(f"{name} is silent below a comment", [one for one, _ in warned(above)] == [one for one, _ in others], warned(above))
            behind = "\n".join(lines[:line] + [lines[line] + f" // lint: allow {name}"] + lines[line + 1 :])
            group.check(f"{name} is silent before a comment", [one for one, _ in warned(behind)] == [one for one, _ in others], warned(behind))
            other = f"// lint: allow hash-bit, {'always' if name != 'always' else 'unread'}\n" + plain
            group.check(f"{name} is not silenced by another name", name in [one for one, _ in warned(other)], warned(other))
        for text in right:
            group.check(f"{name} is not found: {text[-70:]!r}", name not in [one for one, _ in warned(text)], warned(text))


def check_examples(group: Group) -> None:
    for path in sorted(EXAMPLES.glob("*.luc")):
        scene = path.with_suffix(".scenario.json")
        words = ["check", path.name]
        if scene.is_file():
            words = ["run", "pipe", path.name, path.with_suffix(".limits.json").name, scene.name]
        found = lint(words, lambda name: (EXAMPLES / name.decode()).read_bytes())
        group.check(f"{path.name} has no warning", found == [], [one.lines()[0] for one in found])
        text = path.read_text()
        for line in re.findall(r"^ *// lint: allow .*", text, re.M):
            group.check(f"{path.name}: {line} has a reason", re.search(r"allow [a-z, -]+: [a-z].+\.$", line) is not None)
            without = lint(words, lambda name: (EXAMPLES / name.decode()).read_bytes().replace(line.encode(), b""))
            group.check(f"{path.name}: {line} allows something", without != [], line)


def check_hashes(group: Group) -> None:
    flows = [(16 * a, 16 * b) for a in range(16) for b in range(16)]
    low, high = (len({hash_of(width, [1, *flow]) >> shift for flow in flows}) for width, shift in ((8, 0), (32, 24)))
    for name in ("tools/LINT.md", "docs/LANGUAGE.md"):
        group.check(f"{name}: cells that 256 flows fill", re.search(rf"\b{low} of 256 cells.*\b{high}\b", (TOP / name).read_text()) is not None, (low, high))


def check_tool(group: Group) -> None:
    wrong, right = (group.file(name, text) for name, text in (("w", "event e(int n);\nhandle e(int n) { int x = n; }\n"), ("r", "event e();\n")))
    done = group.tool("explain", wrong, "--lint")
    head = f"{wrong}:2:19: warning: x is never read [unread]\n".encode()
    group.check("--lint", done.status == 0 and done.out.startswith(head) and done.out.endswith(b"page: tools/LINT.md#unread\n\n1 warning\n"), done)
    group.expect("--lint without a warning", group.tool("explain", right, "--lint"), 0, b"0 warnings\n")
    made = json.loads(group.tool("explain", wrong, "--lint", "--json").out)["warnings"][0]
    group.check("--lint --json", (made["name"], made["place"]["line"], made["page"]) == ("unread", 2, "tools/LINT.md#unread"), made)
    refused = group.tool("explain", group.file("x", "event e("), "--lint")
    group.check("--lint of a program that is refused", refused.status == 4 and b"warning" not in refused.out, refused)


def work(group: Group) -> None:
    check_names(group)
    check_examples(group)
    check_hashes(group)
    check_tool(group)


def run(group: Group) -> None:
    deeply(lambda: work(group))
