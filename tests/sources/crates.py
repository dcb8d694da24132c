"""The pages that follow from crates.txt and from the items of crates: docs/CRATES.md, and parts of the READMEs of crates."""
from __future__ import annotations

import re
from pathlib import Path
from typing import Dict, List, Optional, Tuple

from .trusted import sentences

Layer = Tuple[str, List[Tuple[str, List[str]]]]


def layers(top: Path) -> List[Layer]:
    """Returns the layers of crates.txt: the comment before each, and its crates with their dependencies."""
    found: List[Layer] = []
    for line in (top / "crates.txt").read_text(encoding="utf-8").split("\n")[1:]:
        if line.startswith("#"):
            found.append((line[2:], []))
        elif line.strip():
            name, below = line.split(":")
            found[-1][1].append((name.split()[0], below.split()))
    return found


def summary(top: Path, crate: str) -> str:
    """Returns the first sentence below the title of a crate's README."""
    return sentences((top / f"crates/{crate}/README.md").read_text(encoding="utf-8").split("\n")[2])[0]


def crates_page(top: Path) -> str:
    """Returns docs/CRATES.md."""
    out = [
        "# Crates",
        "",
        "Each crate of [crates/](../crates) with the first sentence of its README. A layer depends only on the layers above it; crates.txt has the dependencies. [tests/pages](../tests/pages) makes this page.",
        "",
        "| Crate | What it is |",
        "|---|---|",
    ]
    for what, crates in layers(top):
        out.append(f"| **{what.rstrip('.')}** | |")
        out += [f"| `{name}` | {summary(top, name)} |" for name, _ in crates]
    return "\n".join(out) + "\n"


def libraries(top: Path) -> str:
    """Returns the libraries of the kit that crates.txt links, as a sentence part."""
    all_layers = layers(top)
    own = {name for _, crates in all_layers for name, _ in crates}
    return ", ".join(f"`{it}`" for it in sorted({it for _, crates in all_layers for _, below in crates for it in below if it not in own})) + "\n"


def documented(top: Path, crate: str) -> Dict[str, Tuple[str, List[str]]]:
    """Returns the public functions and types of a crate: the docstring, and the names of the clauses."""
    found: Dict[str, Tuple[str, List[str]]] = {}
    for path in sorted((top / f"crates/{crate}/src").rglob("*.rt")):
        owner: Optional[str] = None
        is_trait, doc, item, named = False, [], None, []
        for line in path.read_text(encoding="utf-8").split("\n"):
            bare = line.strip()
            opened = re.match(r"(?:pub )?(?:impl(?:<[^{]*?>)?|trait) (?:[\w:<>, ']+ for )?(\w+)", line)
            if opened and not line.startswith(" "):
                # the methods of `impl Trait for` are described at the trait
                owner = None if " for " in line else opened.group(1)
                is_trait = line.startswith("pub trait")
                if is_trait:
                    found[opened.group(1)] = (" ".join(doc), [])
            typed = re.match(r"pub (?:struct|enum) (\w+)", line)
            if typed:
                found[typed.group(1)] = (" ".join(doc), [])
            called = re.match(r"(?:pub fn|    pub fn|    fn) (\w+)", line)
            if called and (line.startswith("pub") or (owner and (line.startswith("    pub fn") or is_trait))):
                item = called.group(1) if line.startswith("pub") else f"{owner}::{called.group(1)}"
                named = []
                found[item] = (" ".join(doc), named)
            clause = re.match(r"ensures(?: (\w+))? \{", bare)
            if clause and item:
                named.append(clause.group(1) or "value")
            if bare in ("{", "}") or bare.endswith(";") and not bare.startswith("ghost"):
                item = None if bare == "{" or not line.startswith("        ") else item
            if bare.startswith("///"):
                doc.append(bare[3:].strip())
            elif not bare.startswith(("#[", "//")):
                doc = []
    return found


def item_table(top: Path, crate: str) -> str:
    """Returns the table of the items that a crate exports, each with its first sentence and the names of its clauses."""
    given = re.findall(r"^pub use ([^;]+);", (top / f"crates/{crate}/src/lib.rt").read_text(encoding="utf-8"), re.M)
    names = [it.strip() for line in given for it in re.sub(r"^[\w:]*?(?:\{|(?=\w+$))", "", re.sub(r"\s+", " ", line)).rstrip("}").split(",") if it.strip()]
    found = documented(top, crate)
    out = ["| Item | What it is | Clauses |", "|---|---|---|"]
    for name in names:
        for it in [name] + [it for it in found if it.startswith(f"{name}::")]:
            if it in found:
                doc, named = found[it]
                what = sentences(doc.split("  ")[0])[0] if doc else ""
                out.append(f"| `{it}` | {what.replace('|', chr(92) + '|')} | {', '.join(f'`{c}`' for c in dict.fromkeys(named))} |")
            elif it == name:
                out.append(f"| `{it}` | of a crate below | |")
    return "\n".join(out) + "\n"


def wrong_bodies(top: Path, crate: str) -> str:
    """Returns a line on the wrong bodies that the prover refuses: those that the gate tries, and how many others have a text."""
    paths = sorted((top / f"crates/{crate}/must-fail").iterdir())
    tried = [path.stem.replace("_", " ") for path in paths if path.suffix == ".edit"]
    texts = sum(path.suffix == ".md" for path in paths)
    gate = f"the gate tries ({'; '.join(tried)})" if tried else "the gate tries none"
    more = f"must-fail/ has the text{'s' * (texts > 1)} of {texts} more" if tried else f"must-fail/ has the text{'s' * (texts > 1)} of {texts}"
    return f"Wrong bodies that the prover refused: {gate}{f', and {more}' if texts else ''}.\n"
