"""The wrong bodies of crates/*/must-fail still apply: each `old:` text is in its file exactly once.

Fails on a text whose place was renamed or moved, on a README that names an edit which the gate does not try, and on a table of docs/PROVING.md
that has other edits than the gate tries. Sees nothing of the proofs: `rt must-fail NAME` tries an edit.
"""
from __future__ import annotations

import re
from pathlib import Path
from typing import List, Tuple

from harness import TOP, Group


def read_edit(path: Path) -> Tuple[str, List[Tuple[str, str]]]:
    """The file that an edit changes, and its pairs of an old and a new text."""
    found = re.findall(r"^(file|old|new): (.*)$", path.read_text(), flags=re.M)
    files = [text for key, text in found if key == "file"]
    of = lambda wanted: [text for key, text in found if key == wanted]
    return files[0] if len(files) == 1 else "", list(zip(of("old"), of("new")))


def run(group: Group) -> None:
    for path in sorted(TOP.glob("crates/*/must-fail/*")):
        name = path.relative_to(TOP)
        file, pairs = read_edit(path)
        source = path.parent.parent / file
        there = bool(file) and source.is_file()
        group.check(f"{name} has a file, an old and a new text", there and bool(pairs))
        text = source.read_text() if there else ""
        for old, new in pairs:
            group.check(f"{name}: `{old}` is in {file} once", text.count(old) == 1 and old != new, text.count(old))
    for path in sorted(TOP.glob("crates/*/README.md")):
        named_edits(group, path)
    tried = sorted((path.parent.parent.name, words_of(path)) for path in TOP.glob("crates/*/must-fail/*.edit"))
    listed = sorted(re.findall(r"^\| `(lucid_\w+)` \| ([^|]*) \|", (TOP / "docs/PROVING.md").read_text(), flags=re.M))
    group.check("docs/PROVING.md lists the wrong bodies that the gate tries", listed == tried, sorted(set(listed) ^ set(tried)))


def words_of(path: Path) -> str:
    """The name of an edit as pages have it."""
    return path.stem.replace("_", " ")


def named_edits(group: Group, path: Path) -> None:
    """Each edit that a README names in brackets behind `the gate tries` is a file that the gate tries."""
    edits = {words_of(edit) for edit in path.parent.glob("must-fail/*.edit")}
    for names in re.findall(r"gate tries \(([^)]*)\)", path.read_text()):
        for name in re.split("[;,] ", names):
            group.check(f"{path.relative_to(TOP)}: the gate tries `{name}`", name in edits, sorted(edits))
