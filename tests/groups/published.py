"""Forms of the published language: the table copperfinch.explain.published, from which docs/PUBLISHED.md is made.

Each form is refused by the program, with the exit code that the page gives, and its explanation names it and our form. What stands in its
place is accepted, and so is the form with its edit applied. The page is what the table gives.

tests/ported has a firewall of 45 lines in the published language, and its text after each round of `explain --all`. A round changes only lines
that an explanation of the text before names, or that use a name which such a line declares; after at most three rounds the program is accepted.

Fails on a form that is accepted or refused otherwise, on an explanation that does not name it, on an edit that is refused, and on a row of the
page that the table lacks. Seen to fail: a pattern that misses its form; an edit with another width; a page with a row left out;
a round that changes a line that nothing names. Sees nothing of
what the published compiler accepts.
"""
from __future__ import annotations

import re
from difflib import SequenceMatcher
from typing import Set

from harness import TOP, Group
from copperfinch.bounded import deeply
from copperfinch.explain import explain
from copperfinch.explain.every import explain_all
from copperfinch.explain.places import applied
from copperfinch.explain.published import FORMS, Form, tables

CODES = {"syntax": 4, "types": 5, "order": 6}


def filled(form: Form, code: str) -> str:
    """The program of a form, with code at its `@`; `@@` in the code is the sign itself."""
    return form.within.replace("@", code.replace("@@", "@"), 1)


def check_form(group: Group, form: Form) -> None:
    wrong, right = filled(form, form.wrong), filled(form, form.right)
    path = group.file("p", wrong)
    status = group.call("check", path).status
    allowed = [code for name, code in CODES.items() if name in form.otherwise]
    group.check(f"{form.published}: refused as the page says", status in allowed, (status, wrong))
    group.check(f"{form.published}: ours is accepted", group.call("check", group.file("r", right)).status == 0, right)
    made = explain(["check", "p"], lambda _: wrong.encode(), with_nodes=False).explanation
    if made is None or not form.pattern:
        return
    name = form.published.replace("\\|", "|")
    group.check(f"{form.published}: named", f"{name} is of the published language" in made.words.problem, made.words.problem)
    ours = form.here.replace("\\|", "|")
    group.check(f"{form.published}: our form is the remedy", made.words.remedy.endswith(ours), made.words.remedy)
    group.check(f"{form.published}: an edit", bool(made.edits) == (form.edit is not None), made.edits)
    if made.edits:
        changed = group.file("c", applied(wrong.encode(), made.edits))
        ended = group.call("check", changed)
        group.check(f"{form.published}: accepted with its edit", ended.status == 0, (ended, changed.read_text()))


def named_lines(text: str) -> Set[int]:
    """The lines that an explanation of a text names: by its places, those that declare the arrays of a cycle, and uses of what they declare."""
    found: Set[int] = set()
    lines = text.split("\n")
    for made in explain_all(["check", "p"], lambda _: text.encode()):
        places = [made.place, *(place for place, _ in made.notes)]
        found |= {place.line for place in places if place is not None}
        arrays = made.refusal.partition(" cycle ")[2].split() if made.status == 6 else []
        found |= {number for number, line in enumerate(lines, 1) if re.search(rf">> ({'|'.join(arrays) or '-'}) =", line)}
    # A memop is named by a line of its body, too.
    declared = {name for number in found for at in (number - 1, number - 2) for name in re.findall(r"^(?:fun|memop)\b.*?\b(\w+)\(", lines[at])}
    return found | {number for number, line in enumerate(lines, 1) for name in declared if re.search(rf"\b{name}\b", line)}


def check_ported(group: Group) -> None:
    texts = [path.read_text() for path in sorted((TOP / "tests/ported").glob("firewall.*.luc"))]
    group.check("a firewall of 45 lines, and at most three rounds", texts[0].count("\n") == 45 and 2 <= len(texts) <= 4, len(texts))
    for number, (before, after) in enumerate(zip(texts, texts[1:])):
        group.check(f"round {number}: refused", group.call("check", group.file("p", before)).status != 0)
        named, lines = named_lines(before), before.split("\n")
        for _, start, end, _, _ in [code for code in SequenceMatcher(None, lines, after.split("\n"), False).get_opcodes() if code[0] != "equal"]:
            unnamed = [lines[at] for at in range(start, end) if at + 1 not in named]
            group.check(f"round {number}: changed lines are named", not unnamed, unnamed)
    group.check("the firewall is accepted", group.call("check", group.file("p", texts[-1])).status == 0)


def work(group: Group) -> None:
    check_ported(group)
    for form in FORMS:
        check_form(group, form)
    page = (TOP / "docs/PUBLISHED.md").read_text()
    group.check("docs/PUBLISHED.md has the tables", tables() in page)
    for text in ("event e(int n);\nhandle e(int n) { n = n + ; }", "event e(int n);\n# a comment\n", "event e(int n);\nhandle e(int n) { if (n) { } }"):
        made = explain(["check", "p"], lambda _: text.encode(), with_nodes=False).explanation
        group.check(f"no published form in {text!r}", made is not None and "published" not in made.words.problem, made)


def run(group: Group) -> None:
    deeply(lambda: work(group))
