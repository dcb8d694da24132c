"""Splits the LLVM module of the program into parts that are compiled side by side.

The module is the text of one program whose front end checks every step at run time. The splitting leaves out what fills locals with a
pattern, the address sanitizer and frame pointers, and puts the inline hints of the sources back. The checks stay: a broken condition ends
the program by a trap. Functions that `main` does not reach go.

A large function has one home, and so has one whose address is taken, since addresses are compared. Those of a crate of the program are
together; one of a library is where it is used most. Any other function is in each part that uses it, so that it can be inlined there.
"""
from __future__ import annotations

import re
from collections import Counter
from dataclasses import dataclass, field
from pathlib import Path
from typing import Dict, Iterable, List, Set, Tuple

# The number of parts is the same on each machine, so that the program is.
PARTS = 4
# Lines of a function that each part that uses it has for itself.
SMALL = 120
# How many users of a library's function decide where it is.
USERS = 60

Hints = Dict[Tuple[str, str], Set[str]]
NAME = re.compile(r'@("[^"]*"|[\w.$]+)')
# A name that is not called there: its address is taken.
ADDRESS = re.compile(r'@("[^"]*"|[\w.$]+)(?![\w.$(])')
# A store that fills a local with a pattern, right behind the local.
FILL = re.compile(r"^(  (%\w+) = alloca [^\n]*\n)  call void @llvm\.memset\.p0\.i64\(ptr \2, i8 -86, [^\n]*\n", re.M)
CHECKS = '@"rattle-llvm-checks::'
HINT = r"inline\(never\)|inline\(always\)|inline|cold"
HINTED = re.compile(
    rf"^[ \t]*#\[({HINT})\]((?:\s|//[^\n]*\n|#\[[^\n]*\n)*)"
    r'(?:pub(?:\([a-z ]+\))? )?(?:final )?(?:const )?(?:unsafe )?(?:extern "C" )?fn (\w+)',
    re.M,
)
WORDS = {"inline(never)": " noinline", "inline(always)": " alwaysinline", "inline": " inlinehint", "cold": " cold"}


class UnknownModule(Exception):
    """The module is not as this file expects it: it comes from another kit."""


@dataclass
class Module:
    """A module by its items. Each text ends with a line feed; names begin with `@`."""

    head: str = ""
    functions: Dict[str, str] = field(default_factory=dict)
    constants: Dict[str, str] = field(default_factory=dict)
    declarations: List[str] = field(default_factory=list)
    attributes: List[str] = field(default_factory=list)

    def uses(self) -> Dict[str, Set[str]]:
        """Returns the names that each function and constant uses."""
        items = {**self.functions, **self.constants}
        return {name: {found[0] for found in NAME.finditer(text)} - {name} for name, text in items.items()}


def read_hints(folders: Iterable[Path]) -> Hints:
    """Returns the inline hints of the sources in these folders of crates, by crate and name of the function."""
    hints: Hints = {}
    for folder in folders:
        for path in folder.glob("*/src/**/*.rt"):
            text = path.read_text(errors="replace")
            if "#[inline" in text or "#[cold" in text:
                crate = path.relative_to(folder).parts[0]
                for found in HINTED.finditer(text):
                    kinds = {found[1], *re.findall(rf"#\[({HINT})\]", found[2])}
                    hints.setdefault((crate, found[3]), set()).update(kinds)
    return hints


def find_name(line: str) -> str:
    """Returns the first name of a line."""
    found = NAME.search(line)
    if not found:
        raise UnknownModule(f"a line has no name: {line[:120]}")
    return found[0]


def crate_of(name: str) -> str:
    return name.strip('@"').split("::")[0]


def with_hint(line: str, name: str, hints: Hints) -> str:
    """Returns the first line of a function with the hints of its source."""
    path = re.sub(r"::<.*$", "", name.strip('@"')).split("::")
    kinds = hints.get((path[0], path[-1]), set())
    if len(kinds) > 1:
        kinds = kinds - {"inline"}
    words = "".join(sorted(WORDS[it] for it in kinds))
    return re.sub(r" (#\d+) \{$", rf"{words} \1 {{", line) if words else line


def read_module(text: str, hints: Hints) -> Module:
    """Reads a module, without fills, sanitizer and frame pointers; raises UnknownModule for one of another form."""
    module = Module()
    filled = text.count(", i8 -86, ")
    text, gone = FILL.subn(r"\1", text)
    if not gone or gone < filled / 2 or CHECKS not in text:
        raise UnknownModule("its checks and its fills of locals have other names")
    for block in text.split("\n}\n"):
        lines, define, body = block.partition("\ndefine ")
        if define:
            first, _, rest = body.partition("\n")
            name = find_name(first)
            module.functions[name] = f"{with_hint(f'define {first}', name, hints)}\n{rest}\n}}\n"
        for line in lines.split("\n"):
            read_line(module, line)
    if "@main" not in module.functions:
        raise UnknownModule("it has no main")
    return module


def read_line(module: Module, line: str) -> None:
    """Reads a line outside the functions."""
    if line.startswith("@"):
        if not re.match(r"@\S+ = private (unnamed_addr )?constant ", line):
            raise UnknownModule(f"a global is no private constant: {line[:120]}")
        module.constants[find_name(line)] = f"{line}\n"
    elif line.startswith("declare "):
        module.declarations.append(f"{line}\n")
    elif line.startswith("attributes #"):
        line = line.replace("sanitize_address ", "").replace(' "frame-pointer"="all"', "").replace('"frame-pointer"="all" ', "")
        module.attributes.append(re.sub(r"\{\s*\}$", '{ "none"="" }', line) + "\n")
    elif line.startswith("!"):
        module.attributes.append(f"{line}\n")
    elif line.startswith(("target ", "source_filename")):
        module.head += f"{line}\n"
    elif line.strip() and not line.startswith(";"):
        raise UnknownModule(f"a line is of no kind that is known: {line[:120]}")


def reach(starts: Iterable[str], uses: Dict[str, Set[str]]) -> Set[str]:
    """Returns these names, and all that they use."""
    found: Set[str] = set()
    left = list(starts)
    while left:
        name = left.pop()
        if name in uses and name not in found:
            found.add(name)
            left += uses[name]
    return found


class Deal:
    """Which functions each part has."""

    def __init__(self, module: Module, own: Set[str]) -> None:
        self.module, self.uses = module, module.uses()
        live = reach(["@main"], self.uses)
        self.order = [name for name in module.functions if name in live]
        self.size = {name: module.functions[name].count("\n") for name in self.order}
        taken = {found[0] for name in live for found in ADDRESS.finditer(self.body(name))} | {"@main"}
        large = [name for name in self.order if self.size[name] > SMALL or name in taken]
        self.home = {name: part for name, part in self.deal_crates(own).items() if name in set(large)}
        users: Dict[str, List[str]] = {}
        for name in self.order:
            for it in self.uses[name]:
                users.setdefault(it, []).append(name)
        for name in large:
            if name not in self.home:
                self.home[name] = self.home_by_users(name, users)
        self.parts = [self.fill(part) for part in range(PARTS)]

    def body(self, name: str) -> str:
        """Returns the text of a function or constant without its own name."""
        text = self.module.functions.get(name) or self.module.constants[name]
        return text.partition(name)[2]

    def deal_crates(self, own: Set[str]) -> Dict[str, int]:
        """Deals the crates of the program to parts of like size; of a library's function each crate that uses it counts a share."""
        crates: Dict[str, List[str]] = {}
        for name in self.order:
            if crate_of(name) in own:
                crates.setdefault(crate_of(name), []).append(name)
        foreign = {name: self.uses[name] for name in self.order if crate_of(name) not in own}
        lent = {crate: reach((it for name in names for it in self.uses[name]), foreign) for crate, names in crates.items()}
        shares = Counter(name for names in lent.values() for name in names)
        weight = {
            crate: sum(self.size[it] for it in names) + sum(self.size[it] / shares[it] for it in lent[crate]) for crate, names in crates.items()
        }
        load, home = [0.0] * PARTS, {}
        for crate in sorted(crates, key=lambda it: (-weight[it], it)):
            part = load.index(min(load))
            load[part] += weight[crate]
            home.update(dict.fromkeys(crates[crate], part))
        return home

    def home_by_users(self, name: str, users: Dict[str, List[str]]) -> int:
        """Returns the part with most of the nearest users of a library's function."""
        votes, seen, left = [0] * PARTS, {name}, sorted(users.get(name, ()))
        while left and len(seen) < USERS:
            user = left.pop()
            if user not in seen:
                seen.add(user)
                if user in self.home:
                    votes[self.home[user]] += 1
                else:
                    left += sorted(users.get(user, ()))
        return votes.index(max(votes))

    def fill(self, part: int) -> Set[str]:
        """Returns the functions and constants of a part: those at home there, and what is small or constant among all that they use."""
        found: Set[str] = set()
        left = [name for name, home in self.home.items() if home == part]
        while left:
            name = left.pop()
            if name not in found:
                found.add(name)
                left += [it for it in self.uses[name] if it in self.uses and it not in self.home]
        return found

    def texts(self) -> List[str]:
        """Returns the text of each part. A function that another part calls is visible to it alone."""
        module = self.module
        shared = {it for part, names in enumerate(self.parts) for name in names for it in self.uses[name] if self.home.get(it, part) != part}
        found: List[str] = []
        for names in self.parts:
            used = {it for name in names for it in self.uses[name]}
            lines = [module.head, *(text for name, text in module.constants.items() if name in names)]
            for name in self.order:
                text = module.functions[name]
                if name in names:
                    lines.append(text.replace("define internal ", "define hidden ", 1) if name in shared else text)
                elif name in used:
                    lines.append(declare(text))
            found.append("".join([*lines, *module.declarations, *module.attributes]))
        return found


def declare(text: str) -> str:
    """Returns the declaration of a function that another part has."""
    first = text.partition("\n")[0]
    head = first[len("define ") : first.rindex(")") + 1].replace("internal ", "", 1)
    return "declare hidden " + re.sub(r" %a\d+", "", head) + "\n"


def split(text: str, hints: Hints, own: Set[str]) -> List[str]:
    """Splits a module into the texts of PARTS parts, where `own` names the crates of the program."""
    return Deal(read_module(text, hints), own).texts()
