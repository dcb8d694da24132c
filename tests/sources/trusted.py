"""What is to be read: docs/TRUSTED.md, the sums of tests/trusted.sums, and the parts of other pages that count its lines."""
from __future__ import annotations

import re
from dataclasses import dataclass
from typing import Dict, Iterable, List, Sequence, Set, Tuple

from .below import Node, Repository, Root, digest
from .definitions import Page
from .theorems import clauses_of_lucid, clauses_of_main, laws_of_theorems

STEP = Node("definition", "lucid_core", "Step", "step")  # the meaning of an event
DESCRIBED = 2  # the first clauses, of safety and of the headline, have tables that say what each page is about
HOUR = 250  # a page of definitions has at most so many lines, so that a reader reads it in an hour
SUMS = "tests/trusted.sums"


def sentences(text: str) -> List[str]:
    return re.split(r"(?<=[.!?]) (?=[A-Z`])", text)


def summary_of(text: str) -> str:
    """Returns the first sentence of a head; of a long one what stands before its colon, unless that is a word or two."""
    first = sentences(text)[0].rstrip(".:")
    before = first.partition(": ")[0]
    return before if len(first) > 80 and len(before) > 20 else first


def number(count: int) -> str:
    return f"{count:,}"


def without(nodes: Iterable[Node], others: Iterable[Node]) -> List[Node]:
    known = set(others)
    return [node for node in nodes if node not in known]


@dataclass
class Part:
    """A clause or law with the definitions that no part before it has."""

    root: Root
    title: str
    adds: List[Node]


class Trusted:
    """The clauses and laws of a repository, and all that they rest on."""

    def __init__(self, repository: Repository) -> None:
        self.repository = repository
        self.lucid = clauses_of_lucid(repository)
        self.laws = laws_of_theorems(repository, self.lucid)
        self.main = clauses_of_main(repository)
        self.roots = [*self.lucid, *self.laws, *self.main]
        counts: Dict[str, int] = {}
        for root in self.roots:
            counts[root.function] = counts.get(root.function, 0) + 1
        seen: Set[Node] = set()
        self.parts: List[Part] = []
        for root in self.roots:
            title = f"`{root.clause}`" if root in self.lucid else f"`{root.function}`" if counts[root.function] == 1 else f"`{root.function}`: `{root.clause}`"
            self.parts.append(Part(root, title, [node for node in root.read if node not in seen]))
            seen.update(root.read)
        self.read = list(dict.fromkeys(node for root in self.roots for node in root.read))
        self.nodes = list(dict.fromkeys(node for root in self.roots for node in root.nodes))
        self._check_pages()

    def _check_pages(self) -> None:
        """No page of definitions is longer than a reader's hour."""
        per: Dict[Tuple[str, str], int] = {}
        for node in self.nodes:
            if node.kind == "definition":
                per[node.crate, node.place] = per.get((node.crate, node.place), 0) + self.repository.content(node).lines
        for (crate, place), lines in per.items():
            if lines > HOUR:
                self.repository.notes.add(f"crates/{crate}/specs/{place.replace('.', '/')}.antt: {lines} lines to be read, more than {HOUR}")

    # ---- counts

    def lines(self, nodes: Iterable[Node]) -> int:
        return sum(self.repository.content(node).lines for node in nodes)

    def of(self, kind: str, nodes: Iterable[Node]) -> List[Node]:
        return [node for node in nodes if node.kind == kind]

    def alone(self, name: str) -> int:
        """Returns the lines of definitions that a clause of `lucid`, a law or one of its clauses rests on alone."""
        chosen = [root for root in self.lucid if root.clause == name] or [root for root in self.roots if name in (root.function, root.title)]
        if not chosen:
            self.repository.notes.add(f"a made part asks for {name}, which is no clause of lucid and no law of docs/THEOREMS.md")
        return self.lines(dict.fromkeys(node for root in chosen for node in root.read))

    # ---- sums

    def sums(self) -> Dict[str, str]:
        """Returns the digest of each clause's text and of each thing below one, by what it is."""
        found = {f"clause {root.crate}.{root.title}": digest(root.text) for root in self.roots}
        found.update({str(node): self.repository.content(node).digest for node in self.nodes if node.kind != "kit"})
        return found

    def sums_text(self) -> str:
        head = "# What a clause or law of docs/TRUSTED.md rests on, each with a digest of its text with whole names. tests/pages makes this file.\n"
        return head + "".join(f"{sum_of} {name}\n" for name, sum_of in sorted(self.sums().items()))

    def changes(self, text: str) -> List[str]:
        """Returns what differs from a text of sums: what has changed, with the clauses that rest on it."""
        old = {name: sum_of for sum_of, _, name in (line.partition(" ") for line in text.split("\n") if line and line[0] != "#")}
        new = self.sums()
        users: Dict[str, List[str]] = {}
        for part in self.parts:
            for node in part.root.nodes:
                users.setdefault(str(node), []).append(part.title)
        out = []
        for name in sorted({*old, *new}):
            if old.get(name) != new.get(name):
                what = "has changed" if name in old and name in new else "is new" if name in new else "is gone"
                rest = users.get(name, [])
                under = f"; {rest[0]}{f' and {len(rest) - 1} more' if len(rest) > 1 else ''} rest{'s' * (len(rest) == 1)} on it" if rest else ""
                out.append(f"{name} {what}{under}")
        return out

    # ---- the page

    def page_of(self, node: Node) -> Page:
        return self.repository.page(f"Rattle.{node.crate}.specs.{node.place}")

    def by_page(self, nodes: Iterable[Node]) -> Dict[Tuple[str, str], List[Node]]:
        """Returns these definitions by the crate and the page that they are in."""
        per: Dict[Tuple[str, str], List[Node]] = {}
        for node in nodes:
            per.setdefault((node.crate, node.place), []).append(node)
        return per

    def pages_in_short(self, nodes: Iterable[Node]) -> str:
        """Returns the pages of these definitions, each with its lines."""
        return ", ".join(f"{crate.replace('lucid_', '', 1)} {place} {self.lines(its)}" for (crate, place), its in self.by_page(nodes).items())

    def page_rows(self, nodes: Iterable[Node], described: Set[Tuple[str, str]]) -> List[str]:
        """Returns a row for each page of these definitions; only the first row of a page describes it."""
        rows = []
        for where, its in self.by_page(nodes).items():
            head = self.page_of(its[0]).head
            what = "" if where in described or not head else summary_of(head)
            described.add(where)
            rows.append(f"| {where[0].replace('lucid_', '', 1)} {where[1]} | {what} | {self.lines(its)} |")
        return rows

    def row(self, part: Part) -> str:
        of = {kind: self.of(kind, part.root.nodes) for kind in ("type", "kit")}
        of["trait"] = self.of("trait", part.root.nodes) + self.of("impl", part.root.nodes)
        cells = [
            part.title,
            number(self.lines(part.root.read)),
            number(self.lines(part.adds)) if part.adds else "",
            *(number(self.lines(of[kind])) if of[kind] else "" for kind in ("type", "trait", "kit")),
        ]
        return f"| {' | '.join(cells)} |"

    def totals(self) -> List[str]:
        of = {kind: self.of(kind, self.nodes) for kind in ("definition", "type", "constant", "trait", "impl", "kit")}
        clauses = list(dict.fromkeys(node for root in self.lucid for node in root.read))
        step = self.repository.closure([STEP], ("definition",))
        rows = [
            ("definitions under the clauses of `lucid`", clauses),
            ("definitions that the laws and `main` add", without(self.read, clauses)),
            ("definitions that only models of types and clauses of traits name", without(of["definition"], self.read)),
            ("of all these, the meaning of one event (`step` of lucid_core)", step),
            ("types of the sources, with their models", of["type"]),
            ("constants of the sources", of["constant"]),
            ("traits: the clauses and signatures of " + ", ".join(f"`{node.name}`" for node in of["trait"]), of["trait"]),
            ("what types record of themselves by these: " + ", ".join(f"`{node.name}`" for node in of["impl"]), of["impl"]),
            ("definitions of the kit that say which value a JSON text has", of["kit"]),
        ]
        out = ["| What | Number | Lines |", "|---|---|---|", *(f"| {what} | {number(len(nodes))} | {number(self.lines(nodes))} |" for what, nodes in rows if nodes)]
        return [*out, f"| the clauses themselves: of `lucid` {len(self.lucid)}, of laws {len(self.laws)}, under `main` {len(self.main)} | {len(self.roots)} | {sum(root.lines for root in self.roots)} |"]

    def sections(self) -> List[str]:
        described: Set[Tuple[str, str]] = set()
        large = []
        for part in self.parts[:DESCRIBED]:
            rows = self.page_rows(part.adds, described)
            title = f"{part.title} rests on" if not large else f"{part.title} adds"
            large.append("\n".join([f"## What {title}: {number(self.lines(part.adds))} lines", "", "| Page | What it says | Lines |", "|---|---|---|", *rows]))
        models = without(self.of("definition", self.nodes), self.read)
        types = ["## Types, traits and JSON", "", "A type has the lines that declare it and those of its model, which says what a clause sees of it.", "", "| Crate | Types | Lines |", "|---|---|---|"]
        for crate in dict.fromkeys(node.crate for node in self.of("type", self.nodes)):
            its = [node for node in self.of("type", self.nodes) if node.crate == crate]
            types.append(f"| {crate.replace('lucid_', '', 1)} | {len(its)} | {self.lines(its)} |")
        below = f"Pages that a model or a trait alone names, each with its lines: {self.pages_in_short(models)}."
        kit = f"Pages of the kit: {self.pages_in_short(self.of('kit', self.nodes))}."
        return [*large, "\n".join(types), below, kit]

    def text(self) -> str:
        """Returns docs/TRUSTED.md."""
        rows = {part.root.title: self.row(part) for part in self.parts}
        titles = "| Clause or law | Alone | Adds | Types | Traits | JSON |"
        under = lambda roots: [titles, "|---|---|---|---|---|---|", *(rows[root.title] for root in roots)]  # noqa: E731
        out = [
            "# What is to be read",
            "",
            "A proof says no more than its contract. This page counts what each theorem rests on, in lines without imports, comments and blank lines. "
            "It has each clause of `lucid`, the one call that the program makes, each law of [THEOREMS](THEOREMS.md), and each clause of a function that `main` calls.",
            "",
            "- *Alone*: the definitions that it names, and those that these name. *Adds*: those of them that no row above has.",
            "- *Types*: the types of the sources that these name, with their models. *Traits*: the clauses of the traits that it speaks of. *JSON*: the kit's definitions of JSON texts.",
            "",
            "[tests/trusted.sums](../tests/trusted.sums) has digests of 128 bits: of each clause with its signature, and of each definition, type and trait below, with each name replaced by its whole name. "
            f"[tests/pages](../tests/pages) makes both. It fails on a form of the sources that it does not know, and on a page of definitions of more than {HOUR} lines. "
            "The gate fails if a digest differs. [README](../README.md#what-is-trusted) has the rest of what is trusted.",
            "",
            "## The clauses of `lucid`",
            "",
            *under(self.lucid),
            "",
            "## The laws of THEOREMS",
            "",
            *under(self.laws),
            "",
            "## Under `main`",
            "",
            *under(self.main),
            "",
            "## In all",
            "",
            *self.totals(),
            "",
            "Page `core Parts` is the file crates/lucid_core/specs/Parts.antt. A page without a text has one in a row above.",
            "",
            "\n\n".join(self.sections()),
        ]
        return "\n".join(out) + "\n"

    # ---- parts of other pages

    def lines_of(self, names: Sequence[str]) -> str:
        """Returns a sentence with the lines that each of these clauses and laws rests on alone."""
        counts = [f"{number(self.alone(name))} for `{name}`" for name in names]
        return f"Lines of [definitions](TRUSTED.md), each alone: {', '.join(counts)}.\n"

    def in_short(self) -> str:
        """Returns the items of README's list of what is trusted that count definitions."""
        first = self.lucid[0]
        of = {kind: self.of(kind, self.nodes) for kind in ("type", "trait", "kit")}
        clauses = list(dict.fromkeys(node for root in self.lucid for node in root.read))
        return (
            f"- The definitions that the theorems rest on: {number(self.lines(first.read))} lines for the clause `{first.clause}`, {number(self.lines(clauses))} for all clauses of `lucid`, "
            f"and {number(self.lines(self.of('definition', self.nodes)))} with those of all laws ([TRUSTED](docs/TRUSTED.md)).\n"
            f"- The {len(of['type'])} types and {len(of['trait'])} traits of the sources that these name ({number(self.lines(of['type'] + of['trait']))} lines), "
            f"and the kit's definitions of JSON ({number(self.lines(of['kit']))} lines).\n"
        )
