"""The clauses and laws that the pages speak of: those of `lucid`, those of the functions that `main` calls, and the laws of THEOREMS."""
from __future__ import annotations

import re
from pathlib import Path
from typing import Dict, List, Set, Tuple

from .below import Repository, Root
from .rattle import File, Item, body_of_function, used_names

LUCID = ("lucid_top", "lucid")
MAIN = "lucid_main"
# The clauses that a reader meets first: what was written is right, the same where first fit places, and what it is compared with.
FIRST = ("safe", "pipe", "whole")
LAWS = re.compile(r"\b[Ll]aws? ((?:`\w+`(?:, | and |, and )?)+)")
PAGE = "docs/THEOREMS.md"
QUOTED = re.compile(r"^ {4}\S[^\n]*(?:\n {4}[^\n]*)*", re.M)
NAMED = re.compile(r"(?:\w+/)*\w+\.(?:antt|rt)\b")


def clauses_of_lucid(repository: Repository) -> List[Root]:
    """Returns the clauses of the one function `lucid`, those that a reader meets first before the others."""
    found = repository.found(*LUCID, ("fn",))
    if len(found) != 1:
        repository.notes.add(f"crates/{LUCID[0]}: {len(found)} functions {LUCID[1]}")
        return []
    roots = repository.roots(*found[0])
    return [root for name in FIRST for root in roots if root.clause == name] + [root for root in roots if root.clause not in FIRST]


def clauses_of_main(repository: Repository) -> List[Root]:
    """Returns the clauses of the functions that `main` calls, but for `lucid` itself.

    If one of these does no more than call another, its clauses follow.
    """
    mains = repository.found(MAIN, "main", ("fn",))
    if len(mains) != 1:
        repository.notes.add(f"crates/{MAIN}: {len(mains)} functions main")
        return []
    roots = repository.roots(*mains[0])
    waiting = _called(repository, *mains[0])
    seen = set()
    while waiting:
        file, item = waiting.pop(0)
        if (file.crate, item.name) in seen or (file.crate, item.name) == LUCID:
            continue
        seen.add((file.crate, item.name))
        roots += repository.roots(file, item)
        if re.fullmatch(r"\{\s*\w+\([\w\s,&.]*\)\s*\}", body_of_function(item)):
            waiting = _called(repository, file, item) + waiting
    return roots


def _called(repository: Repository, file: File, item: Item) -> List[Tuple[File, Item]]:
    """Returns the functions of this repository that a function calls by name."""
    found: List[Tuple[File, Item]] = []
    for name in dict.fromkeys(re.findall(r"(?<![\w.:!])(\w+)(?:::<[^()]*>)?\(", body_of_function(item))):
        path = file.uses.get(name, ["crate", name])
        crate = file.crate if path[0] in ("crate", "super", "self") else path[0]
        places = repository.found(crate, path[-1], ("fn",)) if crate in repository.crates else []
        if len(places) > 1:
            repository.notes.add(f"crates/{crate}: {len(places)} functions {path[-1]}")
        found += places[:1]
    return found


def exported(repository: Repository, crate: str) -> Set[str]:
    """Returns the names that a crate's lib.rt exports."""
    names: Set[str] = set()
    for file in repository.files(crate):
        if file.module == "":
            for item in file.items:
                if item.kind == "use" and item.public:
                    names.update(used_names(re.sub(r"^pub(?:\([a-z ]+\))? use ", "", item.text).rstrip(";"))[0])
                elif item.public:
                    names.add(item.name)
    return names


def functions(repository: Repository) -> Dict[str, List[str]]:
    """Returns the crates that may define a public function of each name."""
    found: Dict[str, List[str]] = {}
    for path in sorted(repository.top.glob("crates/*/src/**/*.rt")):
        crate = path.relative_to(repository.top / "crates").parts[0]
        for name in re.findall(r"^pub fn (\w+)", path.read_text(encoding="utf-8"), re.M):
            if crate in repository.crates and crate not in found.setdefault(name, []):
                found[name].append(crate)
    return found


def laws_of_theorems(repository: Repository, clauses: List[Root]) -> List[Root]:
    """Returns the clauses of each function that docs/THEOREMS.md names, in its order. A law that no crate exports is noted."""
    text = (repository.top / PAGE).read_text(encoding="utf-8")
    named = {root.clause for root in clauses} | {LUCID[1]}
    crates = functions(repository)
    roots: List[Root] = []
    laws = {name for names in LAWS.findall(text) for name in re.findall(r"`(\w+)`", names)}
    for name in dict.fromkeys(re.findall(r"`(\w+)`", text)):
        places: List[Tuple[File, Item]] = []
        for crate in crates.get(name, []) if name not in named else []:
            if name in exported(repository, crate):
                places += [place for place in repository.found(crate, name, ("fn",)) if place[1].public]
        if not places and name in laws and not name.startswith("some_"):
            repository.notes.add(f"{PAGE}: names the law {name}, which no crate exports")
        for file, item in places:
            roots += repository.roots(file, item, name if len(places) == 1 else f"{file.crate}::{name}")
    return roots


def misquoted(top: Path) -> List[str]:
    """Returns the first line of each indented text of docs/THEOREMS.md that is in no source file that its section names.

    `..` stands for what is left out: lines, or the rest of one.
    """
    wrong: List[str] = []
    for section in re.split(r"^## ", (top / PAGE).read_text(encoding="utf-8"), flags=re.M)[1:]:
        sources = [path.read_text(encoding="utf-8") for path in _named_files(top, section)]
        for quoted in QUOTED.findall(section):
            if not any(re.search(_pattern(quoted), source, re.M) for source in sources):
                wrong.append(f"{PAGE} quotes a text that no file named there has: {quoted.strip().splitlines()[0][:100]}")
    return wrong


def _named_files(top: Path, section: str) -> List[Path]:
    """Returns the source files that a section names: in full, or below the crate, or its specs/, that it named before."""
    found: List[Path] = []
    crate = top
    for name in NAMED.findall(section):
        if name.startswith("crates/"):
            crate = top / "crates" / name.split("/")[1]
            found.append(top / name)
        else:
            found += [crate / name, crate / "specs" / name]
    return [path for path in found if path.is_file()]


def _pattern(quoted: str) -> str:
    """Returns a pattern of the lines of a quoted text, however they are indented."""
    pattern = ""
    for line in [line.strip() for line in quoted.splitlines()]:
        rest = line.endswith("..")
        text = re.escape(line[:-2].rstrip() if rest else line)
        pattern += rf"^[ ]*{text}[^\n]*\n" if rest and text else r"(?:[^\n]*\n)*?" if rest else rf"^[ ]*{text}\n"
    return pattern
