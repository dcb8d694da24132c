"""Each line of tests/owed is delivered: the file that it names has the row, test, law, clause, bound or decision that it names.

Fails on a file or a name that is gone; on a law or a clause that is no public one of a crate of crates.txt; on a page that passed its bound;
on an item of an earlier commit that is neither there nor dropped by a line that names a decision; on fewer than LEAST items. Seen to fail:
a title of a row changed by one letter; a clause of `lucid` renamed; a law that lib.rt no longer exports; a page one byte longer than its
bound; an item deleted from the file in a clone. Sees nothing of what a row or a law says.
"""
from __future__ import annotations

import re
import subprocess
from dataclasses import dataclass
from functools import lru_cache
from pathlib import Path
from typing import Callable, Dict, List, Set

from harness import TESTS, TOP, Group
from rowfile import read_rows

OWED = TESTS / "owed"
LEAST = 250
# All pages of docs/ together, in bytes.
PAGES = 200_000


@dataclass(frozen=True)
class Item:
    """What is owed, in words that stay; the kind of the thing that delivers it, its file and its name there."""

    what: str
    kind: str
    file: str
    name: str

    def text(self) -> str:
        """The text of the file; empty if there is none."""
        return text_of(self.file)


@lru_cache(maxsize=None)
def text_of(file: str) -> str:
    path = TOP / file
    return path.read_bytes().decode("utf-8", "replace") if path.is_file() else ""


@lru_cache(maxsize=None)
def rows_of(file: str) -> Set[str]:
    """The calls of a file of rows, each as its title and its words."""
    return {f"{row.title}: {' '.join(row.words)}".strip() for row in read_rows(TOP / file)[0]}


def exported(item: Item, name: str) -> bool:
    """Whether the crate of a source is built, and its lib.rt exports a name."""
    crate = Path(item.file).parts[1]
    text = text_of(f"crates/{crate}/src/lib.rt")
    given = " ".join(re.findall(r"^pub use ([^;]+);", text, re.M))
    built = re.search(rf"^{crate}\b.*:", text_of("crates.txt"), re.M)
    return bool(built) and (re.search(rf"\b{name}\b", given) is not None or item.file.endswith("/lib.rt"))


def contract(item: Item, name: str) -> str:
    """The head of a public function, `NAME` or `TYPE::NAME`, with its clauses; empty if there is none that the crate exports."""
    owner, _, function = name.rpartition("::")
    text = item.text()
    if owner:
        blocks = re.findall(rf"^(?:pub )?(?:impl|trait)\b[^{{\n]*\b{owner}\b[^{{]*\{{\n(.*?)^\}}", text, re.S | re.M)
        text = "\n".join(blocks)
    found = re.search(rf"^( *)((?:pub )?)fn {function}\b.*?(?=^\1(?:\{{|\}}|(?:pub )?fn )|\Z)", text, re.S | re.M)
    if found is None or not (found[2] or f"pub trait {owner}" in item.text()) or not exported(item, owner or function):
        return ""
    return found[0]


def clause(item: Item) -> bool:
    """FUNCTION.CLAUSE, or FUNCTION for a function with any clause."""
    function, _, name = item.name.partition(".")
    wanted = rf"\bensures {name} \{{" if name else r"\bensures\b"
    return re.search(wanted, contract(item, function)) is not None


def bounded(item: Item) -> bool:
    return 0 < len((TOP / item.file).read_bytes()) <= int(item.name)


CHECKS: Dict[str, Callable[[Item], bool]] = {
    "row": lambda it: it.name in rows_of(it.file),
    "clause": clause,
    "law": clause,
    "type": lambda it: re.search(rf"^pub (?:struct|enum|trait) {it.name}\b", it.text(), re.M) is not None and exported(it, it.name),
    "definition": lambda it: re.search(rf"^(?:abbrev |unfoldable )*pub (?:record |data )?{it.name}\b", it.text(), re.M) is not None,
    "test": lambda it: re.search(rf"#\[test\]\s+fn {it.name}\b", it.text()) is not None,
    "proved": lambda it: re.search(rf"^(?:pub(?:\(crate\))? )?fn {it.name}\b", it.text(), re.M) is not None and "ensures" in it.text(),
    "check": lambda it: re.search(rf"^(?:def|class) {it.name}\b", it.text(), re.M) is not None,
    "bound": lambda it: f'"{it.name}"' in it.text(),
    "lie": lambda it: f'"{it.name}"' in it.text(),
    "edit": lambda it: it.file.endswith(".edit") and it.name in it.text() and (TOP / it.file).is_file(),
    "decision": lambda it: f"**{it.name}" in it.text(),
    "text": lambda it: it.name in it.text(),
    "page": bounded,
}


def read(text: str) -> List[Item]:
    """The items of the file: `WHAT | KIND | FILE | NAME`."""
    lines = [line.split(" | ") for line in text.splitlines() if line and not line.startswith("#")]
    return [Item(*map(str.strip, cells)) if len(cells) == 4 else Item(" | ".join(cells), "", "", "") for cells in lines]


def earlier() -> Set[str]:
    """What was owed in any earlier commit."""
    git = ["git", "log", "--format=", "-p", "--reverse", "--", "tests/owed"]
    log = subprocess.run(git, cwd=TOP, stdout=subprocess.PIPE, check=False).stdout.decode("utf-8", "replace")
    return {item.what for item in read("\n".join(line[1:] for line in log.splitlines() if re.match(r"\+[^+]", line))) if item.kind != "dropped"}


def run(group: Group) -> None:
    items = read(OWED.read_text())
    group.check(f"at least {LEAST} items", len(items) >= LEAST, len(items))
    twice = {item.what for item in items if sum(other.what == item.what for other in items) > 1}
    group.check("no item is there twice", not twice, sorted(twice))
    for item in items:
        if item.kind == "dropped":
            group.check(f"{item.what}: its removal is decided", f"**{item.name}" in item.text(), item.name)
        else:
            holds = item.kind in CHECKS and (TOP / item.file).is_file() and CHECKS[item.kind](item)
            group.check(f"{item.what}: {item.kind} {item.name} is in {item.file}", holds)
    lost = earlier() - {item.what for item in items}
    group.check("no item of an earlier commit is lost", not lost, sorted(lost))
    whole = sum(len(path.read_bytes()) for path in (TOP / "docs").glob("*.md"))
    group.check(f"docs/ has at most {PAGES} bytes of pages", whole <= PAGES, whole)
    unbounded = {f"docs/{path.name}" for path in (TOP / "docs").glob("*.md")} - {item.file for item in items if item.kind == "page"}
    group.check("each page has a bound", not unbounded, sorted(unbounded))
