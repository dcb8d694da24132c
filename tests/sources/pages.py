"""All pages, and parts of pages, that follow from the sources."""
from __future__ import annotations

import re
from pathlib import Path
from typing import Callable, Dict, List, Optional, Tuple

from copperfinch.explain.published import tables

from .below import Repository
from .crates import crates_page, item_table, libraries, wrong_bodies
from .theorems import misquoted
from .trusted import SUMS, Trusted

PART = re.compile(r"(<!-- made by tests/pages: ([\w ]+?) -->\n)(.*?)(<!-- end -->)", re.S)
# A part by its first words, and what the words behind them ask for.
Makes = Dict[str, Callable[[List[str]], str]]


def filled(text: str, makes: Makes) -> str:
    """Returns the text with each made part replaced by what the sources give."""

    def part(found: "re.Match[str]") -> str:
        for name, make in makes.items():
            if found.group(2) == name or found.group(2).startswith(f"{name} "):
                return f"{found.group(1)}\n{make(found.group(2)[len(name):].split())}\n{found.group(4)}"
        return found.group(0)

    return PART.sub(part, text)


def unpromised(top: Path, trusted: Trusted) -> List[str]:
    """Returns the clauses of `lucid` without a row in docs/PROMISES.md, and the names of rows that are no clause."""
    clauses = {root.clause for root in trusted.lucid}
    page = (top / "docs/PROMISES.md").read_text(encoding="utf-8")
    table = page.split("## Each clause")[1].split("\n## ")[0] if "## Each clause" in page else ""
    rows = [[cell.strip() for cell in row.strip("|").split("|")] for row in re.findall(r"^\|.*\|$", table, re.M)]
    column = next((n for row in rows[:1] for n, cell in enumerate(row) if cell == "Clause of `lucid`"), None)
    if column is None:
        return ["docs/PROMISES.md has no table *Each clause* with a column *Clause of `lucid`*"]
    named = {it for row in rows[2:] for it in re.findall(r"`(\w+)`", row[column])}
    missing = [f"docs/PROMISES.md has no row for clause {it} of lucid" for it in sorted(clauses - named)]
    return missing + [f"docs/PROMISES.md names {it}, which is no clause of lucid" for it in sorted(named - clauses)]


def all_pages(top: Path, kit: Optional[Path]) -> Tuple[Dict[str, str], List[str], List[str]]:
    """Returns the pages that the sources give, what is wrong with the sources, and what differs from tests/trusted.sums."""
    repository = Repository(top, kit)
    trusted = Trusted(repository)
    if not trusted.lucid:
        return {}, repository.notes.found, []
    texts = {"docs/TRUSTED.md": trusted.text(), "docs/CRATES.md": crates_page(top), SUMS: trusted.sums_text()}
    makes: Makes = {"libraries": lambda _: libraries(top), "definitions": lambda _: trusted.in_short(), "lines": trusted.lines_of, "published": lambda _: tables()}
    for path in [top / "README.md", *sorted((top / "docs").glob("*.md"))]:
        name, text = str(path.relative_to(top)), path.read_text(encoding="utf-8")
        if name not in texts and PART.search(text):
            texts[name] = filled(text, makes)
    for crate in sorted(repository.crates):
        path = top / "crates" / crate / "README.md"
        text = path.read_text(encoding="utf-8") if path.is_file() else ""
        if PART.search(text):
            texts[str(path.relative_to(top))] = filled(text, {"items": lambda _: item_table(top, crate), "wrong bodies": lambda _: wrong_bodies(top, crate)})
    for name, text in texts.items():
        if name not in ("docs/TRUSTED.md", SUMS):
            for part in re.findall(r"<!-- made by tests/pages: (.*?) -->\n(?!\n)", text):
                repository.notes.add(f"{name} asks for a part that is not known: {part}")
    wrong = repository.notes.found + unpromised(top, trusted) + misquoted(top)
    sums = top / SUMS
    return texts, wrong, trusted.changes(sums.read_text(encoding="utf-8")) if sums.is_file() else []
