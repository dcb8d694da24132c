"""Edits of what the theorems rest on, each made in a copy of the sources: `tests/pages` must refuse it and name it.

Fails on an edit that the pages survive: one that changes a promise and leaves every digest as it was, or a form of import, module or
comment behind which later changes are unseen. An edit in two steps first hides a definition, has the pages made again if they can be, and
then changes it. Fails also if the table of tests/README.md has other edits. Sees only the edits below.
"""
from __future__ import annotations

import os
import re
import shutil
from dataclasses import dataclass
from pathlib import Path
from queue import Queue
from typing import Callable, List, Tuple, Union

from harness import TESTS, TOP, Ended, Group, call

COPIED = ["README.md", "crates.txt", "docs", "crates", "tests/trusted.sums"]


@dataclass(frozen=True)
class Change:
    """A change of the first file that has the pattern, of those that `files` names, apart by blanks; with no pattern, a new file."""

    files: str
    old: str
    new: Union[str, Callable[["re.Match[str]"], str]]

    def make(self, top: Path) -> Path:
        """Makes the change below `top`, and returns the file that it changed."""
        if not self.old:
            (top / self.files).write_text(str(self.new), encoding="utf-8")
            return top / self.files
        for path in [path for files in self.files.split() for path in sorted(top.glob(files))]:
            text, count = re.subn(self.old, self.new, path.read_text(encoding="utf-8"), count=1, flags=re.M | re.S)
            if count:
                path.write_text(text, encoding="utf-8")
                return path
        raise ValueError(f"no text of {self.files} has {self.old}")


@dataclass(frozen=True)
class Edit:
    """An edit, the text that the check must print, and, of an edit in two steps, the change of meaning behind the form."""

    title: str
    sees: str
    first: Tuple[Change, ...]
    then: Tuple[Change, ...] = ()


def swap(files: str, one: str, other: str) -> Change:
    """Swaps two names of an import by `as`."""
    names = {one: f"{other} as {one}", other: f"{one} as {other}"}
    return Change(files, rf"^use [^\n]*\b(?:{one}|{other})\b[^\n]*\b(?:{one}|{other})\b[^\n]*$", lambda line: re.sub(rf"\b(?:{one}|{other})\b", lambda it: names[it.group(0)], line.group(0)))


TOP_RT = "crates/lucid_top/src/top.rt"
HEADLINE = "crates/lucid_top/specs/Headline.antt"
PREMISES = "crates/lucid_top/specs/Premises.antt"
WRITING = "crates/lucid_top_words/specs/Writing.antt"
LUCID = r"^/// [^\n]*\n(?:///[^\n]*\n)*pub fn lucid<.*?^\{$"
EMPTY_PIPE = Change(TOP_RT, r"(^pub fn lucid<.*?ensures pipe \{) .*? \}(?=\n    (?://|ensures))", r"\1 0 ≡ 0 }")
IMPORT = r"^use Rattle\.lucid_top\.specs\.Premises\.\{HasCore, HasValue\}$"
NO_PROGRAM = (Change(PREMISES, r"pub ordered : IsAccepted core$", "pub ordered : ⊥"),)
PUTS_SOME = r"^-- a prefix of the text was written, and no fault was met\n(pub record PutsSome .*?)\n\n"
PUTS_IMPORTS = "use Rattle.std.specs.Prelude.{◌≡◌, ℕ, ◌≤◌, Option, length, take}\nuse Rattle.std.specs.Io.KnownBytes.{Appends}\nuse Rattle.lucid_top_words.specs.Words.{Bytes}\n\n"
PUTS_TEXT = (
    "pub record PutsSome {T : Type 0} (written : T → Option Bytes) (faults : T → ℕ) (old new : T) (text : Bytes) : Type 0 where\n  pub count : ℕ\n"
    "  pub within : count ≤ length text\n  pub bytes : Appends (written old) (written new) (take count text)\n  pub quiet : faults new ≡ faults old\n"
)
ORDERED = Change(PREMISES, r"pub ordered : IsAccepted core$", "pub ordered : IsOrdered core")


def twice(found: "re.Match[str]") -> str:
    """The function under another name that begins the same, above it."""
    return found.group(0).replace("pub fn lucid<", "pub fn lucid_strong<") + "\n    todo()\n}\n\n" + found.group(0)


def commented(found: "re.Match[str]") -> str:
    """The function in a comment above it."""
    return "/*\n" + re.sub(r"\s+//[^\n]*", "", found.group(0)) + "\n}\n*/\n" + found.group(0)


def headline(new: str) -> Tuple[Change, ...]:
    """The import of the premises in another form."""
    return (Change(HEADLINE, IMPORT, new),)


def hides(title: str, sees: str, *first: Change) -> Edit:
    """An edit that hides the premises of a program, and then has no text accepted."""
    return Edit(title, sees, first, NO_PROGRAM)


EDITS = [
    # one step: the edit changes a promise
    Edit("two names of an import are swapped by `as`", "Declaration.* has changed", (swap("crates/lucid_types_spec/specs/Declaration.antt", "cell_widths", "value_widths"),)),
    Edit("two operators of the typing rules are swapped by `as`", "lucid_types_spec.Typed.* has changed", (swap("crates/lucid_types_spec/specs/Typed.antt", "arithmetic", "logic"),)),
    Edit("two words of the kit are swapped by `as`", "lucid_core.Limits.* has changed", (swap("crates/lucid_core/specs/Limits.antt", "nat_lt", "nat_le"),)),
    Edit("a decoy `pub fn lucid_strong` stands above `lucid`, whose clause `pipe` is empty", "clause lucid_top.lucid.pipe has changed", (Change(TOP_RT, LUCID, twice), EMPTY_PIPE)),
    Edit("the old contract stands in a block comment above an empty one", "a block comment", (Change(TOP_RT, LUCID, commented), EMPTY_PIPE)),
    Edit("the output and the error stream of `lucid` are swapped", "clause lucid_top.lucid.pipe has changed", (Change(TOP_RT, r"(^pub fn lucid<.*?)    out: (&mut \w+),\n    err: (&mut \w+),\n", r"\1    err: \3,\n    out: \2,\n"),)),
    Edit("a parameter of `lucid` may also abort", "clause lucid_top.lucid.pipe has changed", (Change(TOP_RT, r"(^pub fn lucid<[^(]*V: Watch)", r"\1 + Abort"),)),
    Edit("a clause of the trait `Sink` says nothing", "trait lucid_io.sink.Sink has changed", (Change("crates/lucid_io/src/sink.rt", r"ensures bytes \{[^\n]*\}", "ensures bytes { written self.old ≡ written self.old }"),)),
    Edit("a field of a type of the sources has another width", "type lucid_base.event.Event has changed", (Change("crates/lucid_base/src/event.rt", r"pub id: u32", "pub id: u64"),)),
    Edit("the model of a type is always 0", "type lucid_base.width.Width has changed", (Change("crates/lucid_base/src/width.rt", r"ghost view = \{[^\n]*\};", "ghost view = { λ w. 0 };"),)),
    Edit("the contract under `main` leaves out which passes run", "AreOurs has changed", (Change("crates/lucid_top_fit/specs/Passes.antt", r"(record AreOurs .*?)^  pub makes : [^\n]*\n", r"\1"),)),
    Edit("serializability says nothing of the cells", "MovesRunWhole has changed", (Change("crates/lucid_top_laws/specs/Moves.antt", r"(pub cells : [^\n]*\n)[^\n]*\n", r"\1      0 ≡ 0\n"),)),
    Edit("the definition of a law has a false premise", "FitsRunWhole has changed|CodesRunWhole has changed", (Change("crates/lucid_top_laws/specs/Texts.antt crates/lucid_top_laws/specs/Packet.antt", r"^((?:Fits|Codes)RunWhole(?: core)?) = ", r"\1 = ⊥ → "),)),
    Edit("the clause of a law has a false premise", "clause lucid_.*touches_rise.* has changed", (Change("crates/lucid_top_program/src/laws.rt", r"(pub fn touches_rise_in_texts\(\).*?ensures[ \w]*\{) ", r"\1 ⊥ → "),)),
    Edit("settled packets send nothing", "lucid_pipe.Settled.runs_after has changed", (Change("crates/lucid_pipe/specs/Settled.antt", r"outs = before\.outs \+\+ sent_by m\.outs ∷ \[\]", "outs = before.outs"),)),
    # two steps: the form hides a definition
    hides("a comment behind an import", "a comment behind a text", *headline("use Rattle.lucid_top.specs.Premises.{HasCore, HasValue}  -- why")),
    hides("an import over several lines", "an import over several lines", *headline("use Rattle.lucid_top.specs.Premises.{\n    HasCore,\n    HasValue\n}")),
    hides("an import by `package`", "a module that is not named in full", *headline("use package.Rattle.lucid_top.specs.Premises.{HasCore, HasValue}")),
    Edit("an import from a module that has a name by `as`", "a form of import that is not known", (Change(HEADLINE, r"^use Rattle\.lucid_layout\.specs\.Fit\.\{IsFirstFit\}$", "use Rattle.lucid_layout.specs.Fit as Fit1\nuse Fit1.{IsFirstFit}"),),
         (Change("crates/lucid_layout/specs/Fit.antt", r"(IsFirstFit ops limits done \[\] \(p ∷ ps\)) = ⊥", r"\1 = Unit {0}"),)),
    hides("two blanks behind `use`", "a form of import that is not known", *headline("use  Rattle.lucid_top.specs.Premises.{HasCore, HasValue}")),
    Edit("a ghost import over several lines", "an import over several lines", (Change(TOP_RT, r"^ghost use Rattle\.lucid_top\.specs\.Room\.\{CallLacksRoom\};", "ghost use Rattle.lucid_top.specs.Room.{\n    CallLacksRoom,\n};"),),
         (Change("crates/lucid_top/specs/Room.antt", r"^(CallLacksRoom q i =)\n[^\n]*", r"\1 Unit {0}"),)),
    Edit("a definition in proofs/ of a lower crate", "a definition in proofs/: Rattle.lucid_io.proofs.Partly.PutsSome",
         (Change(WRITING, PUTS_SOME, ""), Change(WRITING, r"^(use Rattle\.lucid_io\.specs\.Puts[^\n]*)$", r"\1\nuse Rattle.lucid_io.proofs.Partly.{PutsSome}"),
          Change("crates/lucid_io/proofs/Partly.antt", "", PUTS_IMPORTS + PUTS_TEXT), Change("crates/*/specs/*.antt", r"^use Rattle\.lucid_top_words\.specs\.Writing\.\{PutsSome\}$", "use Rattle.lucid_io.proofs.Partly.{PutsSome}"))),
    Edit("a definition on a page whose name begins with `declared`", "declaredWriting.PutsSome has changed",
         (Change(WRITING, PUTS_SOME, ""), Change(WRITING, r"^(use Rattle\.lucid_io\.specs\.Puts[^\n]*)$", r"\1\npub use Rattle.lucid_top_words.specs.declaredWriting.{PutsSome}"),
          Change("crates/lucid_top_words/specs/declaredWriting.antt", "", PUTS_IMPORTS + PUTS_TEXT)),
         (Change("crates/lucid_top_words/specs/declaredWriting.antt", r"^  pub within : [^\n]*\n", ""),)),
    Edit("a definition in a module without a name", "a form that is not known: module", (Change(PREMISES, r"(?=^-- The text is a program with this core)", "module _ (core : CoreParts) where\n  IsOrdered : Type 0\n  IsOrdered = IsAccepted core\n\n"), ORDERED)),
    Edit("a definition in a block `mutual`", "lucid_top.Premises.IsOrdered has changed", (Change(PREMISES, r"(?=^-- The text is a program with this core)", "mutual\n  IsOrdered : CoreParts → Type 0\n  IsOrdered core = IsAccepted core\n\n"), ORDERED),
         (Change(PREMISES, r"^  IsOrdered core = IsAccepted core", "  IsOrdered core = ⊥"),)),
    Edit("a definition that has the name of a field of its page", "lucid_top.Headline.scenario has changed",
         (Change(HEADLINE, r"(?=^-- the rules accept the three texts)", "abbrev pub scenario : CoreParts → Bytes → Scene → Type 0\nscenario core text scene = HasValue (scene_read core) text scene\n\n"),
          Change(HEADLINE, r"pub scenario_is : [^\n]*", "pub scenario_is : scenario core texts.scenario scene")),
         (Change(HEADLINE, r"^scenario core text scene = [^\n]*", "scenario core text scene = ⊥"),)),
    # other forms
    hides("the name of a module in place of an import", "a form of import that is not known", *headline("use Rattle.lucid_top.specs.Premises"), Change(HEADLINE, r"HasCore texts", "Premises.HasCore texts")),
    hides("a module by `as`", "lucid_top.Premises.HasCore has changed", *headline("use Rattle.lucid_top.specs.Premises as given\nuse Rattle.lucid_top.specs.Premises.{HasValue}"), Change(HEADLINE, r"HasCore texts", "given.HasCore texts")),
    hides("a whole path in a definition", "a form that is not known: Rattle", Change(HEADLINE, r"HasCore texts", "Rattle.lucid_top.specs.Premises.HasCore texts")),
    hides("a path in a group of names", "an import of a name that is not known", *headline("use Rattle.lucid_top.specs.{Premises.HasCore, Premises.HasValue}")),
    hides("all names of a page", "a form of import that is not known", *headline("use Rattle.lucid_top.specs.Premises.*")),
    Edit("a name with signs", "lucid_top.Room.Call¬Room has changed",
         (Change("crates/lucid_top/specs/Room.antt", r"CallLacksRoom : Question → ℕ → Type 0\nCallLacksRoom", "Call¬Room : Question → ℕ → Type 0\nCall¬Room"), Change(TOP_RT, r"Room\.\{CallLacksRoom\}", "Room.{Call¬Room}"), Change(TOP_RT, r"CallLacksRoom q node", "Call¬Room q node")),
         (Change("crates/lucid_top/specs/Room.antt", r"^(Call¬Room q i =)\n[^\n]*", r"\1 Unit {0}"),)),
    Edit("an operator binds to the other side", "◌>>=◌ has changed", (Change("crates/lucid_conf/specs/Reading.antt", r"^infixl 10", "infixr 10"),)),
    Edit("a field of a definition is left out", "lucid_top.Headline.NoneFailed has changed", (Change(HEADLINE, r"(record NoneFailed .*?)^  pub limits : [^\n]*\n", r"\1"),)),
    hides("a block comment in a page", "a block comment", Change(PREMISES, r"^pub record HasCore", "{- why -}\npub record HasCore")),
    hides("a header that passes names on", "a header that has more than names of pages", Change("crates/lucid_top/specs/Lib.antt", r"\Z", "pub use Premises.*\n")),
    Edit("THEOREMS names a law that no crate exports", "names the law touches_fall, which no crate exports", (Change("docs/THEOREMS.md", r"`touches_rise`", "`touches_fall`"),)),
    Edit("THEOREMS quotes a weaker clause than that of the sources", "docs/THEOREMS.md quotes a text that no file named there has: ensures safe", (Change("docs/THEOREMS.md", r"^( +\(texts : Three\) × .*?) × \(a : Accepted texts\) ×$", r"\1 ×"),)),
    Edit("a clause of `lucid` has no row in PROMISES", "docs/PROMISES.md has no row for clause grown of lucid", (Change(TOP_RT, r"ensures grows \{", "ensures grown {"),)),
    Edit("a page of definitions takes more than an hour", "lines to be read, more than", (Change("crates/lucid_parse_spec/specs/Spelling.antt", r"^(abbrev pub all_true :[^\n]*\n)", lambda found: found.group(1) + "".join(f"all_true {n} = {n}\n" for n in range(60))),)),
]


def pages(top: Path, *words: str) -> Ended:
    return call([TESTS / "pages", "--top", top, *words])


def copy(top: Path) -> Path:
    """Copies what the pages follow from."""
    for part in COPIED:
        (top / part).parent.mkdir(parents=True, exist_ok=True)
        if (TOP / part).is_dir():
            shutil.copytree(TOP / part, top / part, ignore=shutil.ignore_patterns("out", "*.svg"))
        else:
            shutil.copyfile(TOP / part, top / part)
    return top


def seen(top: Path, edit: Edit) -> str:
    """Returns the line that names an edit, or an empty text if the check passes or names something else. The copy is restored."""
    changed = []
    before = {path: path.read_bytes() for path in [top / "README.md", top / "tests/trusted.sums", *top.glob("docs/*.md"), *top.glob("crates/*/README.md")]}
    try:
        changed += [change.make(top) for change in edit.first]
        ended = pages(top, *(() if edit.then else ("--check",)))
        if edit.then:  # also where docs/THEOREMS.md quotes what the first changes altered: the pages are written nevertheless
            changed += [change.make(top) for change in edit.then]
            ended = pages(top, "--check")
    finally:
        for path in dict.fromkeys(changed):
            source = TOP / path.relative_to(top)
            shutil.copyfile(source, path) if source.is_file() else path.unlink()
        for path, content in before.items():
            path.write_bytes(content)
    lines = [line for line in ended.out.decode().splitlines() if re.search(edit.sees, line)]
    return lines[0] if ended.status == 1 and lines else ""


def listed() -> List[str]:
    """The edits of the table in tests/README.md."""
    part = (TESTS / "README.md").read_text(encoding="utf-8").partition("\n## Edits of what is trusted\n")[2].partition("\n## ")[0]
    return [line.strip("| ").split(" | ")[0] for line in part.splitlines() if line.startswith("| ")][1:]


def run(group: Group) -> None:
    jobs = min(os.cpu_count() or 1, len(EDITS))
    copies: "Queue[Path]" = Queue()
    for number in range(jobs):
        copies.put(copy(group.room / f"copy{number}"))
    ended = pages(group.room / "copy0", "--check")
    group.check("the pages are what the sources give", ended.status == 0, ended.out.decode())

    def one(edit: Edit) -> str:
        top = copies.get()
        try:
            return seen(top, edit)
        finally:
            copies.put(top)

    for edit, line in zip(EDITS, group.side_by_side(one, EDITS)):
        if group.check(f"an edit that is not seen, or not named: {edit.title}", bool(line)):
            group.note(f"trusted: {edit.title}: {line.replace('pages: ', '', 1)[:160]}")
    titles = [edit.title for edit in EDITS]
    group.check("tests/README.md has these edits", listed() == titles, sorted(set(listed()) ^ set(titles)) or "in another order")
