"""What each clause rests on: every definition, type with its model, constant and trait below it, and a digest of their texts.

In a digested text each name is replaced by its whole name. So an import, an alias or another definition of a name changes the digest.
"""
from __future__ import annotations

import hashlib
import re
import shutil
from dataclasses import dataclass, field
from pathlib import Path
from typing import Dict, Iterable, List, NamedTuple, Optional, Sequence, Set, Tuple

from .definitions import Page, read_page
from .notes import Notes
from .rattle import File, Item, closed, contract, inner_items, read_file, take_ghost_use
from .terms import Scope, operators, replace_names

ALL = ("definition", "type", "constant", "trait", "impl", "kit")
# Libraries of the kit whose definitions are counted: those that say what a JSON text is.
JSON = ("serde_json", "json", "fast_float")
# The trait and the type of an impl.
IMPL = re.compile(r"(?:#\[[^\]]*\]\s*)*(?:unsafe )?impl(?:<[^{]*?>)? (\w+)(?:<[^{]*?>)? for (\w+)")
# The members of a model that say what a clause sees of a type.
MODEL = ("Value", "view", "invariant")


class Node(NamedTuple):
    """Something that a clause rests on."""

    kind: str  # definition, type, constant, trait, impl, kit
    crate: str
    place: str  # a page of specs/, or a module of src/
    name: str

    def __str__(self) -> str:
        return f"{self.kind} {self.crate}.{self.place}.{self.name}"


@dataclass
class Content:
    """The text of a node with whole names, the lines that a reader reads, and the nodes that it names."""

    text: str = ""
    lines: int = 0
    below: Tuple[Node, ...] = ()
    digest: str = ""

    def __post_init__(self) -> None:
        self.digest = digest(self.text)


@dataclass
class Root:
    """A clause: the function that has it, its name, and all that it rests on."""

    crate: str
    function: str
    clause: str
    path: Path
    text: str  # with whole names, the signature before it
    lines: int
    read: List[Node] = field(default_factory=list)  # the definitions that it names, or that these name
    nodes: List[Node] = field(default_factory=list)  # these, and what types and traits name

    @property
    def title(self) -> str:
        return f"{self.function}.{self.clause}"


def digest(text: str) -> str:
    """Returns 128 bits of a sum that nobody can meet by choice."""
    return hashlib.sha256(text.encode()).hexdigest()[:32]


def find_kit() -> Optional[Path]:
    """Returns the folder of the kit's libraries, beside its command rt."""
    rt = shutil.which("rt")
    found = Path(rt).resolve().parent.parent / "rattle" if rt else None
    return found if found and found.is_dir() else None


class Repository:
    """The sources of a repository, read as they are asked for."""

    def __init__(self, top: Path, kit: Optional[Path]) -> None:
        self.top, self.kit = top, kit
        self.notes = Notes(top)
        self.crates = [line.split(":")[0].split()[0] for line in (top / "crates.txt").read_text().split("\n") if line.strip() and line[0] != "#"]
        self._pages: Dict[str, Optional[Page]] = {}
        self._files: Dict[str, List[File]] = {}
        self._named: Dict[str, Dict[str, List[Tuple[File, Item]]]] = {}
        self._resolved: Dict[Tuple[str, str], Optional[Node]] = {}
        self._content: Dict[Node, Content] = {}

    # ---- files

    def page(self, module: str) -> Optional[Page]:
        """Returns a page of definitions by its module, as Rattle.lucid_core.specs.Step."""
        if module not in self._pages:
            _, crate, _, *parts = module.split(".")
            own = crate in self.crates
            folder = self.top / "crates" / crate if own else (self.kit / crate if self.kit else None)
            path = folder.joinpath("specs", *parts).with_suffix(".antt") if folder else None
            there = path is not None and bool(parts) and path.is_file()
            # the kit's pages are not ours to refuse
            self._pages[module] = read_page(path, module, self.notes if own else Notes(folder)) if there else None
            if there and own:
                self._check_header(folder / "specs")
        return self._pages[module]

    def _check_header(self, folder: Path) -> None:
        """A header of specs/ has nothing but the names of its pages, so that no page gets a name from it."""
        for header in [folder / "Lib.antt", *folder.glob("**/*/Lib.antt")]:
            for number, line in enumerate(header.read_text(encoding="utf-8").split("\n"), 1):
                if header.parent != folder:
                    self.notes.refuse(header, 0, "a page that is a folder")
                    break
                if line.strip() and not line.startswith("--") and not re.fullmatch(r"(?:pub )?mod \w+", line):
                    self.notes.refuse(header, number, "a header that has more than names of pages", line)

    def files(self, crate: str) -> List[File]:
        """Returns the files of a crate's src/."""
        if crate not in self._files:
            folder = self.top / "crates" / crate / "src"
            paths = sorted(folder.rglob("*.rt")) if crate in self.crates else []
            modules = [".".join(path.relative_to(folder).with_suffix("").parts) for path in paths]
            self._files[crate] = [read_file(path, crate, "" if module in ("lib", "main") else module, self.notes) for path, module in zip(paths, modules)]
        return self._files[crate]

    def found(self, crate: str, name: str, kinds: Sequence[str], module: Optional[str] = None) -> List[Tuple[File, Item]]:
        """Returns the items of these kinds with this name in a crate, or in a module of it."""
        if crate not in self._named:
            named: Dict[str, List[Tuple[File, Item]]] = {}
            for file in self.files(crate):
                for item in file.items:
                    named.setdefault(item.name, []).append((file, item))
            self._named[crate] = named
        return [(file, item) for file, item in self._named[crate].get(name, []) if item.kind in kinds and module in (None, file.module)]

    # ---- names

    def resolve(self, module: str, name: str, by: str) -> Optional[Node]:
        """Returns what a name of a module is. A name of the kit that is not counted is None."""
        if (module, name) not in self._resolved:
            self._resolved[module, name] = self._resolve(module, name, by)
        return self._resolved[module, name]

    def _resolve(self, module: str, name: str, by: str) -> Optional[Node]:
        _, crate, *parts = module.split(".")
        if module.split(".")[0] != "Rattle" or not parts:
            return None
        if crate not in self.crates:
            return self._of_kit(module, name) if crate in JSON and parts[0] == "specs" else None
        if parts[0] != "specs":
            self.notes.add(f"{by}: {module}.{name} is no definition of specs/")
            return None
        if parts[1:2] in (["declared"], ["contracts"]):
            return self._declared(crate, parts[2:], name, by)
        page = self.page(module)
        if page and name in page.blocks:
            return Node("definition", crate, ".".join(parts[1:]), name)
        if page and name in page.made_by:
            if len(page.made_by[name]) > 1:
                self.notes.add(f"{by}: {module}.{name} is a constructor of several types")
            return Node("definition", crate, ".".join(parts[1:]), sorted(page.made_by[name])[0])
        if page and name in page.scope.passed_on:
            return self.resolve(*page.scope.names[name], by)
        self.notes.add(f"{by}: names {name} of {module}, which does not define it")
        return None

    def _of_kit(self, module: str, name: str) -> Optional[Node]:
        """Returns a counted definition of the kit; the kit's own proof says that its names resolve."""
        page = self.page(module)
        crate, place = module.split(".")[1], ".".join(module.split(".")[3:])
        if page and name in page.blocks:
            return Node("kit", crate, place, name)
        if page and name in page.made_by:
            return Node("kit", crate, place, sorted(page.made_by[name])[0])
        if page and name in page.scope.names:
            return self.resolve(*page.scope.names[name], "the kit")
        return None

    def _declared(self, crate: str, parts: Sequence[str], name: str, by: str) -> Optional[Node]:
        """Returns the type, or the constant, of which Rattle made this module."""
        parts = list(parts)
        constant = "TheConstants" in parts
        while parts and parts[-1].startswith("The"):
            parts.pop()
        if constant and not (parts and parts[-1][0].isupper()):
            return self.constant(crate, name, by, ".".join(parts))
        if not parts or not parts[-1][0].isupper():
            self.notes.add(f"{by}: {name} of {crate}, whose type is not known")
            return None
        return self.type(crate, parts[-1], by, ".".join(parts[:-1]))

    def type(self, crate: str, name: str, by: str, module: Optional[str] = None) -> Optional[Node]:
        found = self.found(crate, name, ("struct", "enum", "type"), module)
        if len(found) == 1:
            return Node("type", crate, found[0][0].module, name)
        self.notes.add(f"{by}: {len(found)} types {name} of {crate}")
        return None

    def constant(self, crate: str, name: str, by: str, module: Optional[str] = None) -> Optional[Node]:
        found = self.found(crate, name, ("const", "static"), module)
        if len(found) == 1:
            return Node("constant", crate, found[0][0].module, name)
        self.notes.add(f"{by}: {len(found)} constants {name} of {crate}")
        return None

    def used(self, file: File, name: str, by: str) -> Optional[Node]:
        """Returns the type, trait or constant that a Rust name of a file means, or None for one of the kit or of a function."""
        if name not in file.uses:
            crate, module, name_there = file.crate, file.module, name
        else:
            path = file.uses[name]
            crate = file.crate if path[0] in ("crate", "super", "self") else path[0]
            if crate not in self.crates:
                return None
            module, name_there = None, path[-1]
        for kinds, kind in ((("struct", "enum", "type"), "type"), (("trait",), "trait"), (("const", "static"), "constant")):
            found = self.found(crate, name_there, kinds, module)
            if len(found) > 1 and module is None and file.uses[name][0] == "crate":
                found = self.found(crate, name_there, kinds, ".".join(file.uses[name][1:-1]))
            if len(found) > 1:
                self.notes.add(f"{by}: {len(found)} items {name_there} of {crate}")
            if found:
                return Node(kind, crate, found[0][0].module, name_there)
        return None

    # ---- texts

    def with_whole_names(self, text: str, scope: Scope, by: str, page: Optional[Page] = None, extra: Dict[str, List[Node]] = {}, file: Optional[File] = None) -> Tuple[str, List[Node]]:
        """Returns a term with whole names, and the nodes that it names. `extra` has names that come from elsewhere than an import.

        A term of a file of src/ may also name the ghost members of an `impl`.
        """
        found: Dict[Node, None] = {}
        own = page.blocks if page else {}
        made = page.made_by if page else {}
        signs = operators([*scope.names, *own])

        def note(node: Optional[Node]) -> None:
            if node:
                found.setdefault(node)

        def of_import(name: str) -> str:
            module, there = scope.names[name]
            note(self.resolve(module, there, by))
            return f"{module}.{there}"

        def of_own(name: str) -> str:
            for block in [name] if name in own else sorted(made[name]):
                note(Node("definition" if page.module.split(".")[1] in self.crates else "kit", page.module.split(".")[1], ".".join(page.module.split(".")[3:]), block))
            return f"{page.module}.{name}"

        def meaning(head: str, tail: Optional[str], around: Tuple[str, str]) -> Tuple[Optional[str], bool]:
            if tail is not None and head in scope.modules:
                module, name = scope.modules[head], tail.split(".")[0]
                note(self.resolve(module, name, by))
                return f"{module}.{tail}", True
            if head in own or head in made:
                return of_own(head), False
            if head in scope.names:
                module, there = scope.names[head]
                if module.split(".")[2:3] == ["proofs"] and module.split(".")[1] in self.crates:
                    return self._law_of_a_record(module, there, around, by), False
                return of_import(head), False
            whole = [node for node in extra.get(head, [])] + [node for node in extra.get(f"{head}.{tail}", [])]
            if whole:
                for node in whole:
                    note(node)
                return " ".join(map(str, whole)) + f" {head}", False
            named = signs.get(head, set())
            if named:
                return " ".join(of_own(name) if name in own else of_import(name) for name in sorted(named)), False
            return None, False

        def refuse(why: str, what: str) -> None:
            if page is None or page.module.split(".")[1] in self.crates:
                self.notes.add(f"{by}: {why}: {what.strip()[:80]}")

        def quoted(type_text: str, trait: str) -> str:
            if file is None:
                refuse("a form that is not known", f"⟦<{type_text} as {trait}>⟧")
                return ""
            whole, types = self._rust_names(type_text, file, by)
            named = self.used(file, trait.strip(), by)
            for node in [*types, *([named] if named else []), *self._impls(types, named)]:
                note(node)
            return f"{whole} as {named or trait}"

        replaced = replace_names(text, meaning, quoted, refuse)
        if re.search(r"(?:^|[\s(])do\s", text):
            bind = "◌>>=◌"
            whole = of_own(bind) if bind in own else of_import(bind) if bind in scope.names else None
            if whole is None:
                refuse("a `do` without its operator", text)
            replaced += f" do=«{whole}»"
        return replaced, list(found)

    def _law_of_a_record(self, module: str, name: str, around: Tuple[str, str], by: str) -> str:
        """A word of proofs/ may only be a field of a record that is a law: its type says all of it."""
        crate, path = module.split(".")[1], module.split(".")[3:]
        file = self.top.joinpath("crates", crate, "proofs", *path).with_suffix(".antt")
        text = file.read_text(encoding="utf-8") if file.is_file() else ""
        signed = re.search(rf"^pub {re.escape(name)} : ((?:.*\n)(?:[ ]+.*\n)*)", text, re.M)
        if around[0] != "=" or around[1] not in (";", "}") or not signed or re.search(r"Type \w+\s*$", signed.group(1)):
            self.notes.add(f"{by}: a definition in proofs/: {module}.{name}")
        return f"{module}.{name}"

    # ---- nodes

    def content(self, node: Node) -> Content:
        """Returns the text of a node with whole names, its lines, and the nodes that it names."""
        if node not in self._content:
            self._content[node] = Content()  # for types that name each other
            reads = {"definition": self._definition, "kit": self._definition, "type": self._type, "constant": self._constant, "trait": self._trait, "impl": self._impl}
            self._content[node] = reads[node.kind](node)
        return self._content[node]

    def _definition(self, node: Node) -> Content:
        module = f"Rattle.{node.crate}.specs.{node.place}"
        page = self.page(module)
        lines = [page.fixities[node.name]] if node.name in page.fixities else []
        lines = lines + page.blocks[node.name]
        by = f"{page.path.relative_to(self.top)}: {node.name}" if node.kind == "definition" else str(node)
        text, found = self.with_whole_names("\n".join(lines), page.scope, by, page)
        return Content(text, len(lines), tuple(it for it in found if it != node))

    def _item(self, node: Node, kinds: Sequence[str]) -> Tuple[File, Item]:
        return self.found(node.crate, node.name, kinds, node.place)[0]

    def _type(self, node: Node) -> Content:
        file, item = self._item(node, ("struct", "enum", "type"))
        by = f"{file.path.relative_to(self.top)}: {node.name}"
        declared, ghosts = _without_ghosts(item.text)
        text, found = self._rust_names(declared, file, by)
        for name, term in ghosts:
            whole, below = self.with_whole_names(_bare(term), file.scope, by, extra=self._rust_scope(file, by), file=file)
            text, found = f"{text}\nghost {name}: {whole}", found + below
        lines = _count(re.sub(r"^#\[[^\n]*\]$", "", item.text, flags=re.M))
        models = [(f, it) for f in self.files(node.crate) for it in f.items if it.kind == "impl" and re.search(rf"\bModel for {node.name}\b", it.text.split("{")[0])]
        for model_file, model in models:
            scope = model_file.scope
            members = inner_items(model)
            for member in members:
                if member.kind == "ghost use":
                    inner = Scope()
                    take_ghost_use(member, inner, model_file.path, self.notes)
                    scope = scope.with_more(inner)
            for member in members:
                if member.kind == "ghost use":
                    continue
                lines += _count(member.text)
                if member.name not in MODEL:
                    text += "\n" + member.text
                    continue
                whole, below = self.with_whole_names(_value(member.text), scope, by, extra=self._rust_scope(model_file, by), file=model_file)
                text += f"\n{member.name} = {whole}"
                found += below
        return Content(text, lines, tuple(dict.fromkeys(it for it in found if it != node)))

    def _rust_scope(self, file: File, by: str) -> Dict[str, List[Node]]:
        """Returns the constants and types that a term of this file may name without a ghost import."""
        names = {*file.uses, *(item.name for item in file.items if item.kind in ("struct", "enum", "type", "const", "static"))}
        nodes = {name: self.used(file, name, by) for name in names if name}
        return {name: [node] for name, node in nodes.items() if node and node.kind != "trait"}

    def _rust_names(self, text: str, file: File, by: str) -> Tuple[str, List[Node]]:
        """Returns the text of a declaration with whole names, and the nodes that it names."""
        found: Dict[Node, None] = {}

        def whole(word: "re.Match[str]") -> str:
            name = word.group(0)
            node = self.used(file, name, by)
            if node:
                found.setdefault(node)
                return f"«{node}»"
            return "::".join(file.uses[name]) if name in file.uses else name

        return re.sub(r"(?<![\w.])[A-Z]\w*", whole, text), list(found)

    def _constant(self, node: Node) -> Content:
        file, item = self._item(node, ("const", "static"))
        text, found = self._rust_names(item.text, file, f"{file.path.relative_to(self.top)}: {node.name}")
        return Content(text, _count(item.text), tuple(it for it in found if it != node))

    def _trait(self, node: Node) -> Content:
        file, item = self._item(node, ("trait",))
        by = f"{file.path.relative_to(self.top)}: {node.name}"
        scope = file.scope
        head = item.text.split("{")[0]
        text, found = self._rust_names(head, file, by)
        lines = 1
        members = inner_items(item)
        extra: Dict[str, List[Node]] = {member.name: [node] for member in members if member.kind == "ghost"}
        extra.update(self._rust_scope(file, by))
        for member in members:
            if member.kind == "ghost use":
                inner = Scope()
                take_ghost_use(member, inner, file.path, self.notes)
                scope = scope.with_more(inner)
        for member in members:
            if member.kind == "ghost use":
                continue
            lines += _count(member.text)
            if member.kind == "ghost":
                whole, below = self.with_whole_names(_value(member.text), scope, by, extra=extra, file=file)
                text += f"\nghost {member.name}: {whole}"
                found += below
            elif member.kind == "fn":
                signature, clauses = contract(member)
                whole, below = self._rust_names(signature, file, by)
                text, found = f"{text}\n{whole}", found + below
                for clause in clauses:
                    whole, below = self.with_whole_names(_bare(clause.text), scope, by, extra=extra, file=file)
                    text += f"\n{clause.kind} {clause.name} {whole}"
                    found += below
            elif member.kind == "type":
                whole, below = self._rust_names(member.text, file, by)
                text, found = f"{text}\n{whole}", found + below
            else:
                self.notes.refuse(file.path, member.number, "a member of a trait that is not known", member.text)
        return Content(text, lines, tuple(dict.fromkeys(it for it in found if it != node)))

    def _impls(self, types: Iterable[Node], trait: Optional[Node]) -> List[Node]:
        """Returns the impls of traits of this repository for these types, in the crates of the types and of this trait."""
        found = []
        for node in types:
            for crate in dict.fromkeys([node.crate, *([trait.crate] if trait else [])]):
                for file in self.files(crate):
                    for item in file.items:
                        head = IMPL.match(item.text) if item.kind == "impl" else None
                        if head and self.used(file, head.group(2), "an impl") == node:
                            of = self.used(file, head.group(1), "an impl")
                            if of and of.kind == "trait":
                                found.append(Node("impl", crate, file.module, " for ".join(head.groups())))
        return found

    def _impl(self, node: Node) -> Content:
        """Reads the ghost members of an impl: what a clause sees of the type by the trait."""
        trait, _, name = node.name.partition(" for ")
        impls = [(file, item, IMPL.match(item.text)) for file in self.files(node.crate) if file.module == node.place for item in file.items if item.kind == "impl"]
        file, item = next((file, item) for file, item, head in impls if head and head.groups() == (trait, name))
        by = f"{file.path.relative_to(self.top)}: {node.name}"
        head = item.text.split("{")[0]
        text, found = self._rust_names(head, file, by)
        lines, scope = 1, file.scope
        extra = self._rust_scope(file, by)
        self._take_bounds(head, file, by, [it for it in found if it.kind == "trait"], extra)
        for member in inner_items(item):
            if member.kind == "ghost use":
                inner = Scope()
                take_ghost_use(member, inner, file.path, self.notes)
                scope = scope.with_more(inner)
        for member in inner_items(item):
            if member.kind == "ghost" and "=" in member.text:
                whole, below = self.with_whole_names(_value(member.text), scope, by, extra=extra, file=file)
                text, found, lines = f"{text}\nghost {member.name} = {whole}", found + below, lines + _count(member.text)
        return Content(text, lines, tuple(dict.fromkeys(it for it in found if it != node)))

    def _take_bounds(self, head: str, file: File, by: str, traits: Iterable[Node], extra: Dict[str, List[Node]]) -> None:
        """Adds the ghost members of these traits that a term may name: by a type parameter that has the trait as a bound, or of a `dyn`."""
        for trait in traits:
            members = [member.name for member in inner_items(self._item(trait, ("trait",))[1]) if member.kind == "ghost"]
            bounded = [parameter for parameter, bounds in _bounds(head) if any(self.used(file, bound, by) == trait for bound in bounds)]
            for member in members:
                if not bounded or re.search(rf"\bdyn {trait.name}\b", head):
                    extra.setdefault(member, []).append(trait)
                for parameter in bounded:
                    extra.setdefault(f"{parameter}.{member}", []).append(trait)

    # ---- clauses

    def roots(self, file: File, item: Item, name: str = "") -> List[Root]:
        """Returns the clauses of a function, each with all that it rests on."""
        signature, clauses = contract(item)
        by = f"{file.path.relative_to(self.top)}: {item.name}"
        whole_signature, of_signature = self._rust_names(signature, file, by)
        whole_signature = re.sub(r"\s+", " ", re.sub(r"#\[[^\]]*\]", "", whole_signature))
        extra = self._rust_scope(file, by)
        self._take_bounds(signature, file, by, [node for node in of_signature if node.kind == "trait"], extra)
        typed = {parameter: [node for node in self._rust_names(of, file, by)[1] if node.kind == "type"] for parameter, of in _parameters(signature)}
        found = []
        for clause in clauses:
            text, nodes = self.with_whole_names(_bare(clause.text), file.scope, f"{by}.{clause.name}", extra=extra, file=file)
            for parameter in dict.fromkeys(re.findall(r"[\w']+", clause.text)):
                nodes += typed.get(parameter, [])
            root = Root(file.crate, name or item.name, clause.name, file.path, f"{whole_signature}\n{clause.kind} {clause.name} {text}", _count(clause.text))
            root.read = self.closure(nodes, ("definition",))
            root.nodes = self.closure(nodes)
            found.append(root)
        return found

    def closure(self, first: Iterable[Node], kinds: Sequence[str] = ALL) -> List[Node]:
        """Returns these nodes and all that they rest on, as far as nodes of these kinds lead, in reading order."""
        seen: Dict[Node, None] = {}
        waiting = list(first)[::-1]
        while waiting:
            node = waiting.pop()
            if node not in seen and node.kind in kinds:
                seen[node] = None
                waiting += self.content(node).below[::-1]
        return list(seen)


def _without_ghosts(text: str) -> Tuple[str, List[Tuple[str, str]]]:
    """Returns a declaration without the terms of its ghost fields, and these by name."""
    ghosts = []
    while True:
        field = re.search(r"\bghost (\w+): (?=\{)", text)
        if not field:
            return text, ghosts
        end = closed(text, field.end())
        ghosts.append((field.group(1), text[field.end() + 1:end - 1]))
        text = f"{text[:field.start()]}{field.group(1)}{text[end:]}"


def _bare(text: str) -> str:
    return "\n".join(line.strip() for line in text.split("\n") if line.strip())


def _count(text: str) -> int:
    return sum(1 for line in text.split("\n") if line.strip())


def _value(text: str) -> str:
    """Returns the term of a ghost member."""
    return _bare(text[text.index("{") + 1:text.rindex("}")])


def _parameters(signature: str) -> List[Tuple[str, str]]:
    """Returns the parameters of a function and its `result`, each with the text of its type."""
    begin = signature.index("(", signature.index("fn "))
    end = closed(signature, begin)
    found = re.findall(r"(\w+)\s*:\s*(.*?)(?=,\s*\w+\s*:|,?\s*$)", signature[begin + 1:end - 1], re.S)
    return [*found, ("result", signature[end:])]


def _bounds(signature: str) -> List[Tuple[str, List[str]]]:
    """Returns the type parameters of a function, each with the names of its bounds."""
    parameters = re.search(r"(?:fn \w+|^impl)<(.*?)>\s*(?:\(|\w+(?:<.*?>)? for )", signature, re.S)
    return [(name, re.findall(r"\w+", bounds)) for name, bounds in re.findall(r"(\w+)\s*:\s*([^,]*)", parameters.group(1))] if parameters else []
