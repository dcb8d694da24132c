"""Forms of the sources that are not understood. Each is a failure: what a reader of the sources skips would be missing from a page."""
from __future__ import annotations

from pathlib import Path
from typing import Dict, List


class Notes:
    """The forms that were not understood, each once, in the order in which they were met."""

    def __init__(self, top: Path) -> None:
        self.top = top
        self._found: Dict[str, None] = {}

    def refuse(self, path: Path, number: int, why: str, text: str = "") -> None:
        """Notes a form at a line of a file; line 0 is the whole file."""
        place = f"{path.relative_to(self.top)}:{number}" if number else f"{path.relative_to(self.top)}"
        self.add(f"{place}: {why}{': ' if text else ''}{text.strip()[:100]}")

    def add(self, text: str) -> None:
        self._found.setdefault(text)

    @property
    def found(self) -> List[str]:
        return list(self._found)
