"""The names of a term of antt: how a text is cut into them, and how each is replaced by its whole name.

A name is a run of characters other than blanks and `( ) { } . ; , @ " « »`. A `◌` in the name of an operator marks the place of an argument.
"""
from __future__ import annotations

import re
from dataclasses import dataclass, field
from typing import Callable, Dict, List, NamedTuple, Optional, Set, Tuple

NAME = r'[^\s(){}.;,@"«»]+'
TAIL = rf"(?:\.(?:{NAME}|«[^»\n]*»))"
STRING = r'"(?:[^"\\]|\\.)*"'
# The members of a trait at a type, as `⟦<RealOut<S> as Sink>⟧`.
QUOTE = re.compile(r"⟦<(.*) as ([^<>]*)(?:<.*>)?>⟧", re.S)
# A string; the ghost members of an impl; the fields of a term in brackets; a name with what stands behind its dots; any other sign.
TOKEN = re.compile(rf"{STRING}|⟦[^⟦⟧]*⟧{TAIL}*|(?<=[)\]}}]){TAIL}+|{NAME}{TAIL}*|\S")
PLAIN = re.compile(r"[^\W\d][\w'-]*")
NUMERAL = re.compile(r"\d[\w]*")
# Signs that need no import.
BUILT_IN = set("→ × ↦ = | : [ ] _ ← λ ∀ ↔ ¬ ⊥ ∗ ⌜ ⌝".split())
# Words that bring in names, or a text that is no term. No definition may have them.
REFUSED = set("module open package axiom use mod ruleset unfold deriving coe fcoe tcoe hcom com Rattle Prim".split())
MODULE = r"[A-Za-z_]\w*(?:\.[A-Za-z_]\w*)+"
USE = re.compile(rf"(pub )?use ({MODULE})(?:\.\{{([^{{}}]*)\}}| as ([\w-]+))")
# Where the whole path of a module may begin: with Rattle's crates, or a library of its logic.
ROOTS = ("Rattle", "base", "denote")


class Import(NamedTuple):
    """Where a name comes from: a module, and its name there."""

    module: str
    name: str


@dataclass
class Scope:
    """The names that a file imports, the modules that it names by `as`, and the imports that it passes on."""

    names: Dict[str, Import] = field(default_factory=dict)
    modules: Dict[str, str] = field(default_factory=dict)
    passed_on: Set[str] = field(default_factory=set)

    def take(self, line: str) -> Optional[str]:
        """Reads one import. Returns why it is not understood, or None."""
        read = USE.fullmatch(line)
        if "\n" in line:
            return "an import over several lines"
        if not read:
            return "a form of import that is not known"
        again, module, names, alias = read.groups()
        if module.split(".")[0] not in ROOTS or module.split(".")[0] in self.modules:
            return "an import from a module that is not named in full"
        if alias:
            if alias in ROOTS:
                return "a module that has the name of a library"
            return None if self.modules.setdefault(alias, module) == module else "a name of two modules"
        for item in names.split(", "):
            there, renamed, here = item.partition(" as ")
            here = here if renamed else there
            for name in (there, here):
                if not re.fullmatch(NAME, name) or NUMERAL.fullmatch(name):
                    return "an import of a name that is not known"
            if self.names.setdefault(here, Import(module, there)) != (module, there):
                return "a name that is imported twice"
            if again:
                self.passed_on.add(here)
        return None

    def with_more(self, other: "Scope") -> "Scope":
        """Returns this scope with the names of an inner one, which hide those of this one."""
        return Scope({**self.names, **other.names}, {**self.modules, **other.modules}, self.passed_on)


def operators(names: List[str]) -> Dict[str, Set[str]]:
    """Returns for each sign or word of these operators the operators that have it."""
    found: Dict[str, Set[str]] = {}
    for name in names:
        for part in name.split("◌"):
            if "◌" in name and part:
                found.setdefault(part, set()).add(name)
    return found


def lines_without_strings(text: str) -> str:
    return re.sub(STRING, '""', text)


# What a name means: its whole name, or None for one that is bound in the term.
Meaning = Callable[[str, Optional[str], Tuple[str, str]], Tuple[Optional[str], bool]]


def replace_names(text: str, meaning: Meaning, quoted: Callable[[str, str], str], refuse: Callable[[str, str], None]) -> str:
    """Returns the text with each name replaced by what it means.

    `meaning` gets a name, what stands behind its dot, and the tokens before and behind it. It returns the whole name, if there is one, and
    whether that stands for the part behind the dot, too. `quoted` gets the type and the trait of `⟦<Type as Trait>⟧`.
    """
    tokens = list(TOKEN.finditer(text))
    out: List[str] = []
    at = 0
    for number, token in enumerate(tokens):
        word = token.group(0)
        out.append(text[at:token.start()])
        at = token.end()
        if word[0] in '"(){}.;,@' or NUMERAL.fullmatch(word.split(".")[0]):
            out.append(word)
            continue
        quote = QUOTE.match(word)
        if quote:
            out.append(f"«{quoted(quote.group(1), quote.group(2))}»{word[quote.end():]}")
            continue
        if word[0] in "«»⟦⟧":
            refuse("an escaped name", text)
            continue
        head, dot, tail = word.partition(".")
        around = (tokens[number - 1].group(0) if number else "", tokens[number + 1].group(0) if number + 1 < len(tokens) else "")
        if head in REFUSED:
            refuse("a form that is not known", word)
        whole, with_tail = meaning(head, tail if dot else None, around)
        if whole is None:
            if not (PLAIN.fullmatch(head) or head in BUILT_IN):
                refuse("a sign that is not imported", word)
            out.append(word)
        else:
            out.append(f"«{whole}»" if with_tail or not dot else f"«{whole}».{tail}")
    out.append(text[at:])
    return "".join(out)
