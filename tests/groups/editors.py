"""Syntax files for editors, and the completion of the shell.

Sees the colours of vim only if `vim` is installed, and no other editor. Seen to fail:
- run: a reserved word that the list or the file of vim lacks
- scopes: no rule for `generate`, for numbers of one digit, for `.` or for `=`, a comment that ends at a blank, `if` as a part of a name
- in_vim: a comment that ends with its line, no rule for `0x1F` or for `=`, texts without blanks
- vscode: a package without `engines`, a grammar that is not there, an extension whose hover is not registered, one that sends a range as a list
- in_neovim, quickfix: a file that starts no server; `errorformat` without columns
- completion: each line below, if the word, the role of a file or the blank before `event` is not in tools/completion.bash
"""
from __future__ import annotations

import json
import os
import re
import shutil
import sys
from pathlib import Path
from typing import Any, Dict, List, Tuple

from harness import EXAMPLES, TOP, Group, call

from copperfinch.model.lexer import RESERVED, Token, lex

# The beginnings of the scopes that an editor shows each sort of token in.
SORTS = {"word": ("storage", "keyword.control", "constant.language", "support"), "name": ("entity", "variable"),
         "number": ("constant.numeric",), "text": ("string",), "sign": ("keyword.operator", "punctuation")}
GROUPS = {"number": "lucidNumber", "text": "lucidString", "comment": "lucidComment", "name": "", "sign": ""}
EDITORS = TOP / "tools/editor"
VIM = EDITORS / "lucid.vim"
SERVER = [sys.executable, "-B", str(TOP / "tools/lsp")]
# What bash offers for the last of these words, which is behind `|`.
COMPLETED = """lucid |--help
lucid ch|check
./lucid check |a.luc
lucid run p|pipe placed
lucid once a.luc |other packet
lucid layout a.luc |b.json
lucid gen s|scene
lucid run placed a.luc b.json b.json |b.json
tools/picture lo|log
tools/picture log --t|--ticks
tools/json a|audit
tools/json log --l|--limits
tools/follow |a.luc
tools/follow a.luc b.json b.json --b|--back
tools/cover a.luc b.json |b.json
tools/mutants a.luc b.json --w|--write
tools/explain |a.luc
lucid-fmt --ch|--check
lucid-tools fmt a.luc |a.luc
tools/explain a.luc --n|--nodes
tools/scenario ri|rip
lucid once a.luc packet |"""
COMPLETE = 'source "$0"; COMP_WORDS=("$@"); COMP_CWORD=$(($# - 1)); f=$(complete -p "$1"); f=${f#*-F }; ${f%% *} 2>/dev/null; echo "${COMPREPLY[@]}"'


def run(group: Group) -> None:
    listed = re.search(r"Reserved words: `([^`]*)`", (TOP / "docs/LANGUAGE.md").read_text())
    group.check("the reserved words are those of the page", listed is not None and listed[1].split() == RESERVED)
    group.check("vim has the reserved words", set(keywords()) == set(RESERVED), set(keywords()) ^ set(RESERVED))
    scopes(group)
    in_vim(group)
    completion(group)
    vscode(group)
    in_node(group)
    in_neovim(group)
    quickfix(group)
    text = (EDITORS / "lucid-mode.el").read_text()
    plain = re.sub(r'"(\\\\.|[^"\\\\])*"|;.*|\\?\\S', " ", text)
    group.check("emacs has the reserved words", set(re.findall(r'"([A-Za-z]+)"', text)) >= set(RESERVED), set(RESERVED))
    group.check("brackets of the file of emacs", plain.count("(") == plain.count(")"), (plain.count("("), plain.count(")")))


def keywords() -> Dict[str, str]:
    """The group of each keyword of the syntax file of vim."""
    lines = [line.split() for line in VIM.read_text().splitlines() if line.startswith("syn keyword ")]
    return {word: line[2] for line in lines for word in line[3:]}


def scopes_of(grammar: Dict[str, Any], text: str) -> Dict[int, str]:
    """The scope of the piece that begins at each place, as an editor finds it: at each place the rule that begins first, of those the first."""
    found: Dict[int, str] = {}
    at = 0
    rules = [(re.compile(it.get("match", it.get("begin")), re.M), it) for it in grammar["patterns"]]
    while at < len(text):
        hits = [(hit.start(), number, hit, rule) for number, (form, rule) in enumerate(rules) for hit in [form.search(text, at)]
                if hit and hit.end() > hit.start()]
        if not hits:
            return found
        _, _, hit, rule = min(hits, key=lambda it: it[:2])
        at = hit.end()
        if "begin" in rule:
            end = re.compile(rule["end"]).search(text, at)
            at = end.end() if end else len(text)
        if "name" in rule:
            found[hit.start()] = rule["name"]
        else:
            found.update({hit.start(int(group)): own["name"] for group, own in rule["captures"].items()})
    return found


def scopes(group: Group) -> None:
    """Each token of the examples is in a scope of its sort, and no word in a comment, a text or a name is in one of reserved words."""
    grammar = json.loads((TOP / "tools/editor/lucid.tmLanguage.json").read_text())
    for path in sorted(EXAMPLES.glob("*.luc")):
        text = path.read_text()
        found = scopes_of(grammar, text)
        wrong = [it for it in lex(text)[:-1] if not found.get(it.at, "").startswith(SORTS[it.kind])]
        group.check(f"scopes of {path.name}", text.isascii() and not wrong, wrong[:3])
    text = '/* if */ // event\nprintf("if %d", ifs);'
    found = scopes_of(grammar, text)
    group.check("no reserved words in comments, texts and names", not any(it.startswith("keyword.control") for it in found.values()), found)
    group.check("reserved words behind comments", found.get(text.index("printf"), "").startswith("support"), found)


def in_vim(group: Group) -> None:
    """The group that vim shows each token of the examples in, if vim is installed with its syntax."""
    vim = shutil.which("vim")
    if not vim or b"+syntax" not in call([vim, "--version"]).out:
        group.note("editors: vim is not installed, so no program was opened in it")
        return
    words = group.file("words.luc", '/* if\n event */ // event\nprintf("if %d", ifs, 0x1F, 12); event e1(int<<3>> global_);\n')
    for path in [*sorted(EXAMPLES.glob("*.luc")), words]:
        # Of the file made here also two places in its comment.
        comments = [(Token("comment", "", 0, 0), it) for it in ((1, 4), (2, 2)) if path == words]
        tokens = places_of(path.read_bytes()) + comments
        found, wanted = groups_in_vim(group, vim, path, [place for _, place in tokens]), [group_of(it) for it, _ in tokens]
        wrong = [it for it in zip(tokens, found, wanted) if it[1] != it[2]]
        group.check(f"groups of {path.name} in vim", found == wanted, wrong[:3])


def places_of(text: bytes) -> List[Tuple[Token, Tuple[int, int]]]:
    """The tokens of a text, each with its line and its column."""
    lines = text.decode("latin-1")
    return [(it, (lines.count("\n", 0, it.at) + 1, it.at - lines.rfind("\n", 0, it.at))) for it in lex(lines)[:-1]]


def group_of(it: Token) -> str:
    """The group of vim that a token belongs to."""
    if it.kind == "word":
        return keywords()[it.text]
    return "lucidOperator" if it.kind == "sign" and it.text[0] in "-+&|^~!<>=" else GROUPS[it.kind]


def groups_in_vim(group: Group, vim: str, path: Path, places: List[Tuple[int, int]]) -> List[str]:
    """The groups that vim shows these places of a file in."""
    group.file("places", "".join(f"{line} {column}\n" for line, column in places))
    made = "map(readfile('places'), {_, it -> synIDattr(synID(split(it)[0], split(it)[1], 1), 'name')})"
    lines = ["syntax on", f"edit {path}", "syntax clear", "unlet! b:current_syntax", f"source {VIM}", f"call writefile({made}, 'groups')", "qall!"]
    script = group.file("open.vim", "\n".join([*lines, ""]))
    call([vim, "-Nu", "NONE", "-i", "NONE", "-n", "-es", "-S", script], cwd=group.room)
    return (group.room / "groups").read_text().split("\n")[:-1]


def completion(group: Group) -> None:
    """Bash offers these words for the last word of a line, and nothing for the arguments of an event."""
    group.file("a.luc", "event packet(int a);\n  event other();\nhandle packet(int a) { }\n")
    group.file("b.json", "{}")
    for line in COMPLETED.splitlines():
        words, _, wanted = line.partition("|")
        ended = call(["bash", "-c", COMPLETE, TOP / "tools/completion.bash", *words.split(" ")], cwd=group.room)
        offered = set(ended.out.decode().split())
        group.check(f"completion of {words}", set(wanted.split()) <= offered and (wanted != "" or not offered), ended)


def vscode(group: Group) -> None:
    """The extension has the fields that VS Code requires, and each file that they name."""
    folder = EDITORS / "vscode"
    package = json.loads((folder / "package.json").read_text())
    group.check("the name", re.fullmatch(r"[a-z0-9][a-z0-9-]*", package["name"]) is not None and re.fullmatch(r"[A-Za-z0-9-]+", package["publisher"]) is not None)
    group.check("the version", re.fullmatch(r"\d+\.\d+\.\d+", package["version"]) is not None, package["version"])
    group.check("the engine", re.fullmatch(r"\^\d+\.\d+\.\d+", package["engines"]["vscode"]) is not None, package["engines"])
    gives = package["contributes"]
    (language,), (grammar,) = gives["languages"], gives["grammars"]
    group.check("the language", language["id"] == grammar["language"] == "lucid" and language["extensions"] == [".luc"], language)
    group.check("when it is active", package["activationEvents"] == ["onLanguage:lucid"], package["activationEvents"])
    for name in (package["main"], language["configuration"], grammar["path"]):
        group.check(f"{name} is there", name.startswith("./") and (folder / name).is_file(), name)
    scope = json.loads((folder / grammar["path"]).read_text())
    group.check("the grammar", scope["scopeName"] == grammar["scopeName"] and scope == json.loads((EDITORS / "lucid.tmLanguage.json").read_text()))
    config = json.loads((folder / language["configuration"]).read_text())
    group.check("the configuration of the language", config["comments"]["lineComment"] == "//" and ["{", "}"] in config["brackets"], config)
    group.check("the command of the server", gives["configuration"]["properties"]["lucid.server"]["default"] == ["lucid-lsp"])
    group.check("it needs no other module", "dependencies" not in package)
    group.check("the syntax files are those of the lists", call([sys.executable, "-B", EDITORS / "make", "--check"]).status == 0)


# The parts of VS Code that the extension calls, and calls of what it registers.
NODE = """
const fs = require("fs"), path = process.argv[2], text = fs.readFileSync(path, "utf8"), given = {}, changed = [];
class Made { constructor(...parts) { Object.assign(this, parts); } }
class Range { constructor(a, b, c, d) { this.start = { line: a, character: b }; this.end = { line: c, character: d }; } toJSON() { return [this.start, this.end]; } }
class Edits { constructor() { this.all = {}; } set(uri, edits) { this.all[uri.text] = edits; } }
const uri = { text: "file://" + path, toString() { return this.text; } };
const document = { languageId: "lucid", uri, version: 1, getText: () => text };
const keep = (name) => (_, provider) => Object.assign(given, provider);
const stub = {
  Range, WorkspaceEdit: Edits, CodeActionKind: { QuickFix: "quickfix" }, Uri: { parse: (it) => ({ text: it }) },
  window: { showErrorMessage: (it) => { console.error(it); } },
  workspace: { getConfiguration: () => ({ get: () => JSON.parse(process.argv[3]) }), textDocuments: [document],
    onDidOpenTextDocument() {}, onDidChangeTextDocument() {}, onDidSaveTextDocument() {}, onDidCloseTextDocument() {} },
  languages: new Proxy({}, { get: (_, name) => name === "createDiagnosticCollection" ? () => ({ set: (where, found) => done(where, found) }) : keep(name) }),
};
for (const name of ["Location", "TextEdit", "Diagnostic", "Hover", "MarkdownString", "DocumentSymbol", "CompletionItem", "CodeAction"]) stub[name] = class extends Made {};
const Module = require("module"), load = Module._load;
Module._load = (name, ...rest) => name === "vscode" ? stub : load(name, ...rest);
const extension = require(process.argv[4]);
extension.activate({ subscriptions: [] });
async function done(where, found) {
  const position = { line: 4, character: 31 };
  const out = { diagnostics: found.map((it) => [it[0].start.line, it[0].start.character, it[2]]) };
  out.hover = (await given.provideHover(document, position))[0][0];
  out.definition = (await given.provideDefinition(document, position))[1].start.line;
  out.references = (await given.provideReferences(document, position, { includeDeclaration: true })).length;
  out.symbols = (await given.provideDocumentSymbols(document)).map((it) => it[0]);
  out.completion = (await given.provideCompletionItems(document, position)).length;
  out.rename = Object.values((await given.provideRenameEdits(document, position, "z")).all)[0].length;
  out.actions = (await given.provideCodeActions(document, new Range(0, 0, 9, 0))).length >= 0;
  out.formatting = await given.provideDocumentFormattingEdits(document);
  console.log(JSON.stringify(out));
  extension.deactivate();
}
setTimeout(() => process.exit(3), 60000).unref();
"""


def in_node(group: Group) -> None:
    """The extension of VS Code, with a stand-in for VS Code, on an example."""
    node = shutil.which("node")
    if not node:
        group.note("editors: node is not installed, so the extension of VS Code was not run")
        return
    path, script = group.file("crossed.luc", (EXAMPLES / "crossed.luc").read_bytes()), group.file("stub.js", NODE)
    ended = call([node, script, path, json.dumps(SERVER), EDITORS / "vscode/extension.js"], cwd=group.room, timeout=90)
    out = json.loads(ended.out) if ended.status == 0 and ended.out else {}
    group.check("the extension shows a mistake", out.get("diagnostics") == [[4, 40, 0]], ended)
    group.check("a hover in it", "array 2 of 2" in out.get("hover", ""), out)
    group.check("its other answers", [out.get(name) for name in ("definition", "references", "rename", "actions", "formatting")] == [2, 2, 2, True, []], out)
    group.check("its symbols and completion", out.get("symbols") == ["x", "y", "pkt"] and out.get("completion", 0) > 20, out)


def in_neovim(group: Group) -> None:
    """The file of neovim starts the server for a program."""
    if not shutil.which("nvim"):
        group.note("editors: neovim is not installed, so its file was not called")
        return
    group.file("crossed.luc", (EXAMPLES / "crossed.luc").read_bytes())
    wait = "vim.wait(20000, function() return #vim.diagnostic.get(0) > 0 end, 20)"
    script = group.file("open.lua", f"vim.g.lucid_lsp = {{ {', '.join(json.dumps(it) for it in SERVER)} }}\nvim.cmd('edit crossed.luc')\nvim.bo.filetype = 'lucid'\n"
                        f"dofile({json.dumps(str(EDITORS / 'lucid.lua'))})\n{wait}\nvim.fn.writefile({{ tostring(#vim.diagnostic.get(0)) }}, 'count')\nvim.cmd('qall!')\n")
    env = {**os.environ, "HOME": str(group.room), "XDG_STATE_HOME": str(group.room), "XDG_CACHE_HOME": str(group.room)}
    ended = call(["nvim", "--headless", "-u", "NONE", "-i", "NONE", "-n", "-c", f"luafile {script}", "-c", "qall!"], cwd=group.room, env=env, timeout=60)
    count = group.room / "count"
    group.check("the server in neovim", count.exists() and count.read_text() == "1\n", ended)


def quickfix(group: Group) -> None:
    """The file of vim: `:make` fills the list of mistakes, and `gq` formats."""
    vim = shutil.which("vim")
    if not vim:
        return
    tools = group.room / "bin"
    tools.mkdir(exist_ok=True)
    for name, words in (("lucid-tools", '"$@"'), ("lucid-fmt", 'fmt "$@"')):
        (tools / name).write_text(f'#!/bin/sh\nexec {sys.executable} -B -c "import sys; sys.path.insert(0, \'{TOP}\'); '
                                  f'from copperfinch.command import main; sys.exit(main(sys.argv[1:]))" {words}\n')
        (tools / name).chmod(0o755)
    group.file("two.luc", "event a( );\nhandle a() { b(); }\nhandle c() { }\n")
    lines = ["set nocompatible shellpipe=>%s\\ 2>&1", "edit two.luc", f"source {EDITORS / 'ftplugin.vim'}", "silent make!",
             "call writefile(map(getqflist(), {_, it -> it.lnum . ':' . it.col . ':' . it.type}), 'list')",
             "call writefile([substitute(system(substitute(&formatprg, '-$', '-', ''), join(getline(1, 1), \"\\n\")), '\\n', '', '')], 'text')", "qall!"]
    script = group.file("make.vim", "\n".join([*lines, ""]))
    env = {**os.environ, "PATH": f"{tools}:{os.environ['PATH']}", "LUCID": str(group.options.program)}
    ended = call([vim, "-Nu", "NONE", "-i", "NONE", "-n", "-es", "-S", script], cwd=group.room, env=env, timeout=60)
    found = [(group.room / name).read_text() if (group.room / name).exists() else "" for name in ("list", "text")]
    group.check("the list of mistakes in vim", found[0] == "2:14:e\n3:8:e\n", (found, ended))
    group.check("the formatter in vim", found[1] == "event a();\n", (found, ended))
