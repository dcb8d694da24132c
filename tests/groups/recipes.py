"""The recipes of docs/RECIPES.md: each program of examples/recipes runs as its log says, and its first mistake is explained as the page says.

A recipe is accepted and has no warning, and `run pipe` prints its `.run`. Its wrong program is refused, or warned of, in the words of its row.

Fails on a recipe without a row, on another byte of a log, on a warning, and on other words. Seen to fail: a row with the words of another; a
limit of a counter that is one greater. Sees nothing of whether a recipe is the best way.
"""
from __future__ import annotations

import re
from pathlib import Path
from typing import List

from harness import EXAMPLES, TOP, Group
from copperfinch.bounded import deeply
from copperfinch.explain import explain
from copperfinch.lint import lint

RECIPES = EXAMPLES / "recipes"
ROW = re.compile(r"^\| `(\w+)`: .+? \| .+? \| (.+?) \|$", re.M)


def read(name: bytes) -> bytes:
    return Path(name.decode()).read_bytes()


def files_of(name: str) -> List[str]:
    """The program, the limits and the scenario of a recipe."""
    limits = RECIPES / f"{name}.limits.json"
    return [str(RECIPES / f"{name}.luc"), str(limits if limits.is_file() else RECIPES / "limits.json"), str(RECIPES / f"{name}.scenario.json")]


def check_recipe(group: Group, name: str, words: str) -> None:
    files = files_of(name)
    ended = group.call("run", "pipe", *files)
    path = RECIPES / f"{name}.run"
    if group.options.fill:
        path.write_bytes(ended.out)
    group.expect(f"{name}: its log", ended, 0, path.read_bytes())
    found = lint(["run", "pipe", *files], read)
    group.check(f"{name}: no warning", not found, [one.lines()[0] for one in found])
    wrong = str(RECIPES / f"{name}.wrong.luc")
    call = ["layout", wrong, files[1]]
    made = explain(call, read, with_nodes=False).explanation
    said = [made.words.problem] if made is not None else [one.text for one in lint(call, read)]
    group.check(f"{name}: what is said of its mistake", any(words in text for text in said), said)
    group.check(f"{name}: a wrong program is short", Path(wrong).read_text().count("\n") < 30)


def work(group: Group) -> None:
    page = (TOP / "docs/RECIPES.md").read_text()
    rows = ROW.findall(page)
    names = sorted(path.name[: -len(".wrong.luc")] for path in RECIPES.glob("*.wrong.luc"))
    group.check("each recipe has a row", sorted(name for name, _ in rows) == names, names)
    group.check("twelve recipes", len(rows) == 12, len(rows))
    for name, words in rows:
        check_recipe(group, name, words)


def run(group: Group) -> None:
    deeply(lambda: work(group))
