"""The crates of the repository, as crates.txt lists them."""
from __future__ import annotations

from pathlib import Path
from typing import Dict, List

PROGRAM = "lucid_main"


def read_dependencies(top: Path) -> Dict[str, List[str]]:
    """Returns the crates that the program is made of, lowest first, each with all libraries that it uses."""
    listed: Dict[str, List[str]] = {}
    for line in (top / "crates.txt").read_text().splitlines():
        if ":" in line and not line.startswith("#"):
            name, used = line.split(":", 1)
            listed[name.split()[0]] = used.split()
    order: Dict[str, List[str]] = {}

    def visit(name: str) -> None:
        if name in listed and name not in order:
            for used in listed[name]:
                visit(used)
            order[name] = listed[name]

    visit(PROGRAM)
    return order


def read_crates(top: Path) -> Dict[str, List[str]]:
    """Returns these crates, each with the crates of the repository that it uses."""
    order = read_dependencies(top)
    return {name: [it for it in used if it in order] for name, used in order.items()}
