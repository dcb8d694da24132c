"""The files of src/ as items: functions with their contracts, types with their models, traits and constants.

A form that is not known is noted, if the item that has it is asked for.
"""
from __future__ import annotations

import re
from dataclasses import dataclass, field
from pathlib import Path
from typing import Dict, Iterator, List, NamedTuple, Optional, Tuple

from .notes import Notes
from .terms import Scope

# What a scan of a file steps over or stops at: comments, texts, characters, brackets and the ends of items.
STOP = re.compile(r"//[^\n]*|/\*|\bb?r#*\"|\"(?:[^\"\\]|\\.)*\"|(?<![\w'])b?'(?:\\[^\n]*?|[^'\\\n])'|[{}()\[\];]")
VISIBLE = r"(?:pub(?:\([a-z ]+\))? )?"
HEAD = re.compile(
    rf"{VISIBLE}(?:(?P<use>ghost use|use)\b|(?P<kind>mod|struct|enum|trait|const|static|type) (?P<name>\w+)|(?P<fn>(?:const |unsafe )*fn) (?P<called>\w+)"
    rf"|(?P<ghost>ghost) (?P<member>\w+)|(?P<impl>(?:unsafe )?impl)\b)"
)
CLAUSE_HEAD = re.compile(r"(?:(?:ensures|requires)\*?(?: [\w-]+)?|ghost)\s*$")


class Item(NamedTuple):
    """An item of a file, or of a block `impl` or `trait`, without comments."""

    kind: str  # use, ghost use, fn, struct, enum, trait, impl, const, static, type, mod, or ghost for a ghost member
    name: str
    public: bool
    text: str
    number: int  # the line where it begins


class Clause(NamedTuple):
    kind: str
    name: str
    text: str


@dataclass
class File:
    """A file of src/: its items, its ghost imports, and where the names of its Rust imports come from."""

    path: Path
    crate: str
    module: str
    items: List[Item] = field(default_factory=list)
    scope: Scope = field(default_factory=Scope)
    uses: Dict[str, List[str]] = field(default_factory=dict)


def without_comments(text: str) -> Tuple[str, str, Optional[int]]:
    """Returns a text without its comments, the same with blanks for texts too, and where a form begins that is not known."""
    bare, masked, at, unknown = [], [], 0, None
    for stop in STOP.finditer(text):
        word = stop.group(0)
        if stop.start() < at:
            continue
        bare.append(text[at:stop.start()])
        masked.append(text[at:stop.start()])
        at = stop.end()
        if word.startswith("/*") or re.match(r"b?r#*\"", word):
            unknown = stop.start() if unknown is None else unknown
        if word.startswith("/*"):
            at = text.find("*/", at) + 2 if "*/" in text[at:] else len(text)
            word = "\n" * text.count("\n", stop.start(), at)
            bare.append(word)
            masked.append(word)
        elif word.startswith("//"):
            bare.append(" " * len(word))
            masked.append(" " * len(word))
        else:
            bare.append(word)
            masked.append(word if len(word) == 1 else "_" * len(word))
    return "".join(bare) + text[at:], "".join(masked) + text[at:], unknown


def items(text: str, masked: str, first_line: int = 1) -> Iterator[Item]:
    """Cuts a text into its items. One of a kind that is not known has the kind ""."""
    begin = depth = group = 0
    for stop in re.finditer(r"[{}()\[\];]", masked):
        sign = stop.group(0)
        if sign in "{([":
            if depth == 0 and sign == "{":
                group = stop.start()
            depth += 1
            continue
        if sign in "})]":
            depth -= 1
        if depth or sign in ")]":
            continue
        head = masked[begin:stop.start()].lstrip()
        while head.startswith("#"):
            head = head[closed(head, head.index("[")):].lstrip()
        if sign == "}" and (re.match(rf"{VISIBLE}(?:ghost |use |const (?!fn|unsafe)|static |type )", head) or CLAUSE_HEAD.search(masked[begin:group])):
            continue
        yield _item(text[begin:stop.end()], masked[begin:stop.end()], first_line + text.count("\n", 0, begin))
        begin = stop.end()
    if text[begin:].strip():
        yield _item(text[begin:], masked[begin:], first_line + text.count("\n", 0, begin))


def closed(text: str, at: int) -> int:
    """Returns the place behind the bracket that closes the one at this place."""
    depth = 0
    for stop in re.finditer(r"[{}()\[\]]", text[at:]):
        depth += 1 if stop.group(0) in "{([" else -1
        if depth == 0:
            return at + stop.end()
    return len(text)


def _item(text: str, masked: str, number: int) -> Item:
    blank = len(text) - len(text.lstrip())
    number += text.count("\n", 0, blank)
    bare, begin = masked.lstrip(), 0
    while bare[begin:].startswith("#"):
        end = closed(bare, begin + bare[begin:].index("["))
        begin = end + len(bare[end:]) - len(bare[end:].lstrip())
    head = HEAD.match(bare[begin:])
    if not head:
        return Item("", "", False, text.strip(), number)
    begin_of_text = blank + begin if head["use"] else blank
    kind = head["use"] or head["kind"] or (head["fn"] and "fn") or head["ghost"] or "impl"
    name = head["name"] or head["called"] or head["member"] or ""
    return Item(kind, name, bare[begin:].startswith("pub"), text[begin_of_text:].strip(), number + bare.count("\n", 0, begin))


def body_of(item: Item) -> Tuple[str, int]:
    """Returns the text in the brackets of a block `impl` or `trait`, and the line where it begins."""
    _, masked, _ = without_comments(item.text)
    begin = masked.index("{")
    return item.text[begin + 1:closed(masked, begin) - 1], item.number + item.text.count("\n", 0, begin)


def inner_items(item: Item) -> List[Item]:
    """Returns the items of a block `impl` or `trait`."""
    text, number = body_of(item)
    bare, masked, _ = without_comments(text)
    return list(items(bare, masked, number))


def contract(item: Item) -> Tuple[str, List[Clause]]:
    """Returns the signature of a function, and its clauses."""
    _, masked, _ = without_comments(item.text)
    clauses, at, signature = [], 0, len(item.text)
    while True:
        opened = masked.find("{", at)
        if opened < 0:
            break
        head = CLAUSE_HEAD.search(masked[at:opened])
        if not head:
            signature = min(signature, opened)
            break
        signature = min(signature, at + head.start())
        end = closed(masked, opened)
        words = head.group(0).split()
        clauses.append(Clause(words[0], words[1] if len(words) > 1 else "value", item.text[opened + 1:end - 1]))
        at = end
    return item.text[:signature].strip().rstrip(";").strip(), clauses


def body_of_function(item: Item) -> str:
    """Returns the body of a function, with blanks for texts."""
    _, masked, _ = without_comments(item.text)
    at = 0
    while True:
        opened = masked.index("{", at)
        end = closed(masked, opened)
        if not CLAUSE_HEAD.search(masked[at:opened]):
            return masked[opened:end]
        at = end


def used_names(text: str) -> Tuple[Dict[str, List[str]], bool]:
    """Returns where each name of a Rust import comes from, as a path, and whether the form is known."""
    found: Dict[str, List[str]] = {}
    known = True

    def walk(tree: str, before: List[str]) -> None:
        nonlocal known
        tree = tree.strip()
        brace = tree.find("{")
        if brace < 0:
            path, renamed, here = tree.partition(" as ")
            parts = before + [part.strip() for part in path.split("::")]
            if not all(re.fullmatch(r"\w+", part) for part in parts):
                known = False
                return
            if parts[-1] == "self":
                parts.pop()
            found[here.strip() if renamed else parts[-1]] = parts
            return
        head = [part.strip() for part in tree[:brace].split("::") if part.strip()]
        depth, part = 0, ""
        for letter in tree[brace + 1:tree.rindex("}")] + ",":
            depth += {"{": 1, "}": -1}.get(letter, 0)
            if letter == "," and depth == 0:
                if part.strip():
                    walk(part, before + head)
                part = ""
            else:
                part += letter

    walk(re.sub(r"\s+", " ", text), [])
    return found, known


def read_file(path: Path, crate: str, module: str, notes: Notes) -> File:
    """Reads a file of src/."""
    text = path.read_text(encoding="utf-8")
    bare, masked, unknown = without_comments(text)
    file = File(path, crate, module)
    if unknown is not None:
        notes.refuse(path, text.count("\n", 0, unknown) + 1, "a block comment or a raw text", text[unknown:].split("\n")[0])
    for item in items(bare, masked):
        if item.kind == "":
            notes.refuse(path, item.number, "an item that is not known", item.text.split("\n")[0])
        elif item.kind == "ghost use":
            take_ghost_use(item, file.scope, path, notes)
        elif item.kind == "use":
            found, known = used_names(re.sub(r"^(?:pub(?:\([a-z ]+\))? )?use ", "", item.text).rstrip(";"))
            if not known:
                notes.refuse(path, item.number, "a form of import that is not known", item.text)
            file.uses.update(found)
        file.items.append(item)
    return file


def take_ghost_use(item: Item, scope: Scope, path: Path, notes: Notes) -> None:
    """Reads one ghost import into a scope."""
    why = scope.take(re.sub(r"^ghost ", "", item.text).rstrip(";"))
    if why:
        notes.refuse(path, item.number, why, item.text)
