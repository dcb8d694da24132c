"""The formatter `tools/fmt`: its laws on the examples and on 1,000 drawn programs, and its style on small texts.

    tests/run formatted [--runs N]

The laws: no token and no comment changes, `fmt(fmt(x)) = fmt(x)`, and layout and refusal stay. Each drawn program is also written with other
blanks, line breaks and comments between its tokens. Sees no program that tests/drawn does not draw. Seen to fail: a formatter
that drops a comment behind `{`, one that strips a byte 0xa0 at the end of a comment, one that breaks one block of an `if` and leaves the other,
one that writes a `match` and its first case on one line, lines of 139 characters, a blank behind a prefix, no blank behind a cast, an empty
line more, and `--write` that forgets the mode of the file.
"""
from __future__ import annotations

import re
from random import Random
from typing import List

import pytest
from drawn.programs import Program
from harness import EXAMPLES, Group

from copperfinch.format import COMMENT, formatted
from copperfinch.model import judge
from copperfinch.model.lexer import lex, scan

RUNS, PIECES = 1000, 4
BLANKS = [" ", " ", " ", " ", "  ", "\n", "\n", "\n\n\n", "\t", " \r\n", "// c { \xa0\n", " // d;\t\n\n", "/* e */", "/* f\n   } */", " /* g */\n", "\n/* h */\n\n"]
LIMITS = b'{"stages": 32, "tables": 64, "rows": 1024, "arms": 64}'
# Texts, each with what it becomes.
STYLE = {
    "event e( int<<8 >>a,bool b );": "event e(int<<8>> a, bool b);\n",
    "group g={1,2};": "group g = { 1, 2 };\n",
    "global Array . t<<8>>a=Array . create(4) ;": "global Array.t<<8>> a = Array.create(4);\n",
    "fun<<w>>int<<w>>f(int<<w>>x){return x+-x;}": "fun <<w>> int<<w>> f(int<<w>> x) { return x + -x; }\n",
    "fun int f(int a) { return (int)-f<<8>>((a<<3)>>1)|+|- -1; }": "fun int f(int a) { return (int) -f<<8>>((a << 3) >> 1) |+| --1; }\n",
    "handle e() { if(!a==~b){} }": "handle e() { if (!a == ~b) { } }\n",
    "handle e() {\nif(a){\n}else{generate(e());}}": "handle e() {\n  if (a) { } else {\n    generate (e());\n  }\n}\n",
    "handle e() { match a&1 with|1->{b=1;}|_->{\nb=2;}}": "handle e() {\n  match a & 1 with\n  | 1 -> { b = 1; }\n  | _ -> {\n    b = 2;\n  }\n}\n",
    "event a(); // x \n\n\n\n// y\nevent b();\n\n": "event a();  // x\n\n// y\nevent b();\n",
    "handle a() { // x\n\n b(); /* y */ }": "handle a() {  // x\n  b();  /* y */\n}\n",
    "handle a() { if (x) {\n b(); } // y\n else { } }": "handle a() {\n  if (x) {\n    b();\n  }  // y\n  else { }\n}\n",
    "": "",
}


def rewritten(text: str, r: Random) -> str:
    """A text with the same tokens, and other blanks and comments between them."""
    tokens = lex(text)[:-1]
    made = ""
    for before, token in zip(["", *(one.text for one in tokens)], tokens):
        joins = [one.text for one in scan(before + token.text)[0]] == [before, token.text]
        made += ("" if joins and r.random() < 0.4 else r.choice(BLANKS)) + token.text
    return made + r.choice(BLANKS)


def comments(text: str) -> List[str]:
    """The comments of a text, without the blanks at their ends."""
    gaps = [text[token.before:token.at] for token in lex(text)]
    return [found.rstrip(" \t\r") for gap in gaps for found in COMMENT.findall(gap)]


def broken_law(text: str, once: str) -> str:
    """Which of the laws a text and its formatted text break."""
    if [token.text for token in lex(text)] != [token.text for token in lex(once)]:
        return "tokens"
    if comments(text) != comments(once):
        return "comments"
    if formatted(once) != once:
        return "twice"
    return "blanks at ends" if re.search(r"[ \t\r]\n|\n\n\n|\A\n|\n\n\Z|[^\n]\Z", COMMENT.sub("c", once)) else ""


def test_style(group: Group) -> None:
    """Small texts become what stands beside them, and lines break at 140 characters."""
    for text, wanted in STYLE.items():
        group.check(f"the style of {text}", formatted(text) == wanted, formatted(text))
    long = "event e(" + ", ".join(f"int<<8>> parameter{k}" for k in range(9)) + ");"
    lines = formatted(long).splitlines()
    group.check("a long line breaks", len(lines) == 2 and len(lines[0]) <= 140 and lines[1].startswith("    int<<8>> "), lines)
    block = f"handle e() {{ f({'a' * 121}); }}"
    group.check("a block of 140 characters", formatted(block) == f"{block}\n" and len(block) == 140, len(block))
    group.check("a block of 141 characters", formatted(block.replace("(a", "(aa")).count("\n") == 3)


def test_examples(group: Group) -> None:
    """The examples are in the style, and the laws hold on them with other blanks."""
    for path in sorted(EXAMPLES.rglob("*.luc")):
        text = path.read_bytes().decode("latin-1")
        group.check(f"{path.name} is in the style", formatted(text) == text)
        for seed in range(5):
            noise = rewritten(text, Random(seed))
            broken = broken_law(noise, formatted(noise))
            group.check(f"the laws on {path.name} with blanks {seed}", broken == "", broken)


@pytest.mark.parametrize("piece", range(PIECES))
def test_drawn(group: Group, piece: int) -> None:
    """The laws on drawn programs, and their layouts."""
    for seed in range(piece, group.options.runs or RUNS, PIECES):
        r = Random(f"formatted {seed}")
        text = Program(r).text()
        if scan(text)[1] is not None:
            continue  # a slip of the drawing: no token
        for which in (text, rewritten(text, r)):
            once = formatted(which)
            broken = broken_law(which, once)
            group.check(f"the laws on drawn program {seed}", broken == "", f"{broken}:\n{which}\n--\n{once}")
        answers = [judge(["layout", "p", "l"], lambda name: LIMITS if name == b"l" else it.encode("latin-1")) for it in (text, once)]
        one, two = ((it.status, it.out, re.sub(rb" line \d+| (token|byte) \d+", b"", it.err)) for it in answers)
        group.check(f"the layout of drawn program {seed}", one == two, (one, two))


def test_command(group: Group) -> None:
    """Standard output, --check and --write, and texts that are refused."""
    ugly, fine = "event  a();", "event a();\n"
    path = group.file("a.luc", ugly)
    path.chmod(0o640)
    group.expect("to standard output", group.tool("fmt", "a.luc"), 0, fine.encode())
    group.expect("from standard input", group.tool("fmt", "-", given=b"event a() ;\xff// \xe9".replace(b"\xff", b"")), 0, b"event a();  // \xe9\n")
    group.expect("--check of a file that would change", group.tool("fmt", "--check", "a.luc"), 1, b"a.luc\n")
    group.expect("--write", group.tool("fmt", "--write", "a.luc"), 0)
    group.check("what is written", path.read_text() == fine and path.stat().st_mode & 0o777 == 0o640, path.read_text())
    group.expect("--check of a file in the style", group.tool("fmt", "--check", "a.luc"), 0)
    group.check("nothing else is left", [it.name for it in group.room.iterdir()] == ["a.luc"], list(group.room.iterdir()))
    group.file("b.luc", "event a();\nhandle a() { if }")
    group.expect("a syntax error", group.tool("fmt", "--write", "b.luc"), 1, b"", b"fmt: b.luc:2:17: expected `(`, found `}`\n")
    group.expect("no token", group.tool("fmt", "-", given=b"event a();\n  $"), 1, b"", b"fmt: standard input:2:3: no token begins with $\n")
    group.expect("no file", group.tool("fmt", "none.luc"), 1, b"", b"fmt: none.luc: it can not be read\n")
    group.expect("a text of more than 1 MiB", group.tool("fmt", "-", given=b" " * (2**20 + 1)), 1, b"", b"fmt: too long: standard input\n")
    wide = group.tool("fmt", "-", given=b"event a();" * 100_000)
    group.check("a text of 1 MB", wide.status == 0 and wide.out == b"event a();\n" * 100_000, wide)
