"""Measures how plain the English of the repository is: pages, and the comments of .rt and .antt files.

The measures are words of the private dialect in each 1,000 words, and the share of sentences over 30 words. The group `house` holds each
kind of file to its bounds, and names the worst files of a kind that exceeds them.
"""
from __future__ import annotations

import os
import re
from dataclasses import dataclass
from pathlib import Path
from typing import Dict, Iterator, List, Tuple

from harness import TOP

KINDS = ("docs", "readmes", "src", "specs", "proofs")
LONG = 30
# Patterns of the dialect, and the words to write in their place.
DIALECT: Dict[str, str] = {
    r"\b(tells?|told|telling)\b": "report, print, describe, specify, record",
    r"\bwants? of memory\b": "out of memory, allocation failure",
    r"\b(stands?|stood|standing)\b": "is, is in, depends on, represents",
    r"\blets? go\b": "free, drop, release",
    r"\b(whoever|whatever|whichever)\b": "any",
    r"\bso (many|much)\b(?! (as|that))": "this many, the number of",
    r"\bhand(s|ed|ing)? (on|in|out)\b": "pass, forward, flush, return",
    r"\bgive(s|n)? back\b|\bgives? .{1,20} back\b": "free, return",
    r"\banew\b": "again",
    r"\bin peace\b": "without failures",
    r"\bbut for\b": "except",
    r"\bput in\b": "inlined, inserted",
    r"\b(the same|all this) of (what|which)\b": "name the noun",
    r"\bwhat\b": "a noun",
    r"\bcomes? to\b": "becomes, reaches",
    r"\bas was (said|told)\b": "-",
}


@dataclass
class Measure:
    """The counts of a text or of several."""

    words: int = 0
    dialect: int = 0
    sentences: int = 0
    long: int = 0

    def plus(self, other: "Measure") -> "Measure":
        return Measure(*(a + b for a, b in zip(vars(self).values(), vars(other).values())))

    @property
    def rate(self) -> float:
        """Words of the dialect in each 1,000 words."""
        return self.dialect * 1000 / max(1, self.words)

    @property
    def long_share(self) -> float:
        """The percentage of sentences over 30 words."""
        return self.long * 100 / max(1, self.sentences)


def prose(text: str, path: str) -> str:
    """The sentences of a page or of a file's comments, with X for each piece of code."""
    if path.endswith(".md"):
        text = re.sub(r"^```.*?^```", "", text, flags=re.S | re.M)
        text = re.sub(r"<!-- made by.*?<!-- end -->", "", text, flags=re.S)
        lines = [line for line in text.split("\n") if not line.startswith(("|", "#", "$"))]
        text = re.sub(r"^[-*0-9.]+ ", "\n", "\n".join(lines), flags=re.M)
    else:
        mark = "//" if path.endswith(".rt") else "--"
        lines = [line.strip() for line in text.split("\n")]
        text = "\n".join(line[2:].lstrip("/!").strip() if line.startswith(mark) else "" for line in lines)
    return re.sub(r"`[^`]*`", "X", text)


def lengths(text: str) -> Iterator[int]:
    """The number of words in each sentence of more than two."""
    for paragraph in re.split(r"\n\s*\n", text):
        for sentence in re.split(r"(?<=[.;:?!])\s+", paragraph.replace("\n", " ")):
            count = len(re.findall(r"[A-Za-z0-9'-]+", sentence))
            if count > 2:
                yield count


def measure(text: str) -> Measure:
    counts = list(lengths(text))
    dialect = sum(len(re.findall(pattern, text, re.I)) for pattern in DIALECT)
    words = len(re.findall(r"[A-Za-z']+", text))
    return Measure(words, dialect, len(counts), sum(count > LONG for count in counts))


def kind_of(path: str) -> str:
    if path.endswith(".md"):
        return "readmes" if path.startswith("crates/") else "docs"
    return next((kind for kind in KINDS if f"/{kind}/" in path), "")


def measured(top: Path = TOP) -> List[Tuple[str, str, Measure]]:
    """Each file with its kind and its measure; files of less than 12 words are left out."""
    found = []
    for root, folders, files in os.walk(top):
        folders[:] = sorted(it for it in folders if it not in ("out", ".git", "must-fail"))
        for file in sorted(files):
            path = os.path.relpath(os.path.join(root, file), top)
            if file.endswith((".md", ".rt", ".antt")) and kind_of(path):
                it = measure(prose((top / path).read_text(errors="replace"), path))
                if it.words >= 12:
                    found.append((path, kind_of(path), it))
    return found


def sums(found: List[Tuple[str, str, Measure]]) -> Dict[str, Measure]:
    by_kind: Dict[str, Measure] = {}
    for _, kind, it in found:
        by_kind[kind] = by_kind.get(kind, Measure()).plus(it)
    return by_kind
