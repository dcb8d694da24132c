"""Definitions that are the same up to names: their own, those of bound variables and fields, and those of definitions that are the same."""
from __future__ import annotations

import re
from typing import Dict, List

from .below import Node, Repository, digest
from .terms import STRING
from .trusted import Trusted

ROUNDS = 40
WORD = re.compile(rf"{STRING}|«([^»]+)»|([^\W\d][\w'-]*)")


def shapes(repository: Repository, nodes: List[Node]) -> Dict[Node, str]:
    """Returns a digest of each definition up to names: first all definitions count as one, then those that differ are told apart."""
    of_name: Dict[str, Node] = {}
    order: Dict[str, int] = {}
    for node in nodes:
        page = repository.page(f"Rattle.{node.crate}.specs.{node.place}")
        of_name[f"{page.module}.{node.name}"] = node
        made = [name for name, types in page.made_by.items() if node.name in types]
        for number, name in enumerate(made):
            of_name[f"{page.module}.{name}"], order[f"{page.module}.{name}"] = node, number
    classes = {node: "" for node in nodes}
    count = 1
    for _ in range(ROUNDS):
        new = {node: _shape(repository.content(node).text, node, classes, of_name, order) for node in nodes}
        classes = {node: digest(new[node]) for node in nodes}
        if len(set(classes.values())) == count:
            break
        count = len(set(classes.values()))
    return classes


def _shape(text: str, own: Node, classes: Dict[Node, str], of_name: Dict[str, Node], order: Dict[str, int]) -> str:
    bound: Dict[str, int] = {}

    def shape(word: "re.Match[str]") -> str:
        whole, plain = word.groups()
        if not whole and not plain:
            return word.group(0)
        if plain:
            return f"${bound.setdefault(plain, len(bound))}"
        node = of_name.get(whole)
        if node is None:
            return f"«{whole}»"
        name = "self" if node == own else classes[node]
        return f"«{name} {order.get(whole, '')}»"

    # blanks and ends of lines do not count
    return re.sub(r"\s+", " ", WORD.sub(shape, re.sub(r"\b(?:abbrev|unfoldable|pub) ", "", text)))


def same_definitions(trusted: Trusted) -> List[str]:
    """Returns a line for each group of definitions that are the same up to names, those with the most lines to save first."""
    nodes = trusted.of("definition", trusted.nodes)
    groups: Dict[str, List[Node]] = {}
    for node, shape in shapes(trusted.repository, nodes).items():
        groups.setdefault(shape, []).append(node)
    found = []
    for its in groups.values():
        if len(its) > 1:
            saved = trusted.lines(its[1:])
            found.append((-saved, f"{saved} lines: " + ", ".join(f"{it.crate}.{it.place}.{it.name}" for it in its)))
    return [text for _, text in sorted(found)]
