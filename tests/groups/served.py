"""The language server `tools/lsp`: what it answers to a client of its own and to neovim's, and to bad input.

Neovim's built-in client opens two examples: a diagnostic, a hover and a rename; without neovim this is left out, and said. Fails on a
diagnostic at another place, a rename of another variable of the same name, an answer of more than 200 ms of a processor for 1,000 lines (of three
tries the best), a server that ends. Seen to fail: columns in bytes, names that are visible before their declaration or behind their
block, a rename to a name that is taken, diagnostics of the text before a change, limits that are not read, a reader that ends at a header without
a length or loses the message behind it, a second `initialize`, an analysis without a bound. Sees no other client.
"""
from __future__ import annotations

import json
import os
import re
import select
import shutil
import subprocess
import sys
import time
from pathlib import Path
from typing import Any, Dict, List, Optional

import pytest
from harness import EXAMPLES, TOP, Group, call

from copperfinch.lsp.names import Names

WORDS = [sys.executable, "-B", TOP / "tools/lsp"]
SECONDS = 60
URI = "file:///nowhere/a.luc"


class Client:
    """A client on the pipes of a server."""

    def __init__(self, initialize: bool = True) -> None:
        self.process = subprocess.Popen(WORDS, stdin=subprocess.PIPE, stdout=subprocess.PIPE, stderr=subprocess.PIPE)
        self.got, self.number, self.other = b"", 0, []
        if initialize:
            self.ask("initialize", {"processId": None, "rootUri": None, "capabilities": {}})
            self.say("initialized", {})

    def seconds(self) -> float:
        """The seconds of a processor that the server has taken, without the processes that it forks."""
        words = (Path("/proc") / str(self.process.pid) / "stat").read_text().rpartition(")")[2].split()
        return (int(words[11]) + int(words[12])) / os.sysconf("SC_CLK_TCK")

    def raw(self, data: bytes) -> None:
        """Sends bytes."""
        self.process.stdin.write(data)
        self.process.stdin.flush()

    def send(self, message: Any) -> None:
        """Sends a message."""
        data = json.dumps(message).encode()
        self.raw(b"Content-Length: %d\r\n\r\n%s" % (len(data), data))

    def say(self, method: str, params: Any) -> None:
        """Sends a notification."""
        self.send({"jsonrpc": "2.0", "method": method, "params": params})

    def receive(self) -> Dict[str, Any]:
        """Takes the next message; an empty one if there is none for a while, or the server has ended."""
        end = time.monotonic() + SECONDS
        while True:
            head, found, rest = self.got.partition(b"\r\n\r\n")
            size = re.search(rb"Content-Length: (\d+)", head) if found else None
            if size and len(rest) >= int(size[1]):
                self.got = rest[int(size[1]):]
                return json.loads(rest[:int(size[1])])
            ready, _, _ = select.select([self.process.stdout], [], [], max(0, end - time.monotonic()))
            more = os.read(self.process.stdout.fileno(), 2**16) if ready else b""
            if not more:
                return {}
            self.got += more

    def whole(self, method: str, params: Any) -> Dict[str, Any]:
        """Sends a request, and returns its answer; other messages are kept."""
        self.number += 1
        self.send({"jsonrpc": "2.0", "id": self.number, "method": method, "params": params})
        while True:
            found = self.receive()
            if not found or found.get("id") == self.number:
                return found
            self.other.append(found)

    def ask(self, method: str, params: Any) -> Any:
        """Returns the result of a request."""
        return self.whole(method, params).get("result")

    def open(self, text: str, uri: str = URI, version: int = 1) -> None:
        """Opens a document."""
        self.say("textDocument/didOpen", {"textDocument": {"uri": uri, "languageId": "lucid", "version": version, "text": text}})

    def change(self, text: str, version: int) -> None:
        """Changes the document."""
        self.say("textDocument/didChange", {"textDocument": {"uri": URI, "version": version}, "contentChanges": [{"text": text}]})

    def diagnostics(self, version: int = 1) -> List[Dict[str, Any]]:
        """Waits for the diagnostics of a version."""
        while True:
            found = self.other.pop(0) if self.other else self.receive()
            if not found:
                return [{"message": "none came"}]
            if found.get("method") == "textDocument/publishDiagnostics" and found["params"].get("version") == version:
                return found["params"]["diagnostics"]

    def at(self, method: str, text: str, found: str, more: Optional[Dict[str, Any]] = None, nth: int = 0) -> Any:
        """Asks of the place where something is the nth time in a text; `|` in it marks the place."""
        ahead = found.index("|") if "|" in found else 0
        at = [it.start() for it in re.finditer(re.escape(found.replace("|", "")), text)][nth] + ahead
        line = text.count("\n", 0, at)
        column = len(text[text.rfind("\n", 0, at) + 1:at].encode("utf-16-le")) // 2
        return self.ask(f"textDocument/{method}", {"textDocument": {"uri": URI}, "position": {"line": line, "character": column}, **(more or {})})

    def end(self) -> int:
        """Asks for the end; returns the exit code."""
        self.ask("shutdown", None)
        self.say("exit", None)
        self.process.stdin.close()
        return self.process.wait(SECONDS)


def changed(text: str, edits: List[Dict[str, Any]]) -> str:
    """A text of ASCII with edits."""
    lines = text.split("\n")
    begins = [sum(len(line) + 1 for line in lines[:k]) for k in range(len(lines) + 1)]
    for edit in sorted(edits, key=lambda it: (it["range"]["start"]["line"], it["range"]["start"]["character"]), reverse=True):
        begin, end = (begins[edit["range"][side]["line"]] + edit["range"][side]["character"] for side in ("start", "end"))
        text = text[:begin] + edit["newText"] + text[end:]
    return text


def test_requests(group: Group) -> None:
    """Each request on examples/firewall.luc."""
    text = (EXAMPLES / "firewall.luc").read_text()
    client = Client()
    client.open(text)
    group.check("no diagnostics of an example", client.diagnostics() == [])
    value = client.at("hover", text, "int<<64>> |found")["contents"]["value"]
    group.check("hover of a local", "int<<64>> found" in value and "local of 64 bits" in value, value)
    value = client.at("hover", text, "|second_used = ")["contents"]["value"]
    group.check("hover of an array", "array 2 of 4, cells of 1 bit; a handler calls it behind first_used and before second" in value and re.search(
        r"within the greatest limits, node \d+: \d calls of second_used, in stage \d+, table \d+", value) is not None, value)
    value = client.at("hover", text, "generate |sweep")["contents"]["value"]
    group.check("hover of an event", "event sweep(int cell);" in value and "handled on line" in value, value)
    value = client.at("hover", text, "Array.|update")["contents"]["value"]
    group.check("hover of a form", value.startswith("update(array, index, memop"), value)
    group.check("hover of a blank", client.at("hover", text, "//| A stateful") is None)
    for line, words in enumerate(text.split("\n")):
        for method in ("hover", "references", "completion") if line % 3 == 0 else ("hover",):
            for found in re.finditer(r"\b", words):
                answer = client.whole(f"textDocument/{method}", {"textDocument": {"uri": URI}, "position": {"line": line, "character": found.start()}})
                group.check(f"{method} at {line}:{found.start()}", "result" in answer, answer)
    where = client.at("definition", text, "cell_of(1, |from, to)")
    line = text.split("\n")[where["range"]["start"]["line"]]
    group.check("definition of a parameter", where["uri"] == URI and line.startswith("handle inside(int from"), where)
    group.check("definition of what is not declared", client.at("definition", text, "Array.|create") is None)
    uses = client.at("references", text, "const int |most", {"context": {"includeDeclaration": True}})
    group.check("references of a constant", len(uses) == 2, uses)
    symbols = client.ask("textDocument/documentSymbol", {"textDocument": {"uri": URI}})
    group.check("symbols", [it["name"] for it in symbols][:5] == ["inner", "outer", "last", "most", "first_used"] and len(symbols) == 23, len(symbols))
    offered = [it["label"] for it in client.at("completion", text, "Array.|set(first_used")]
    group.check("completion behind a dot", offered == ["get", "set", "getm", "setm", "update", "create"], offered)
    offered = [it["label"] for it in client.at("completion", text, "|generate sweep(cell + 1")]
    group.check("completion of visible names", {"cell", "one", "flow_of", "handle"} <= set(offered) and not {"seed", "moves"} & set(offered), offered)
    edits = client.at("rename", text, "int<<64>> |found = 0", {"newName": "other"})["changes"][URI]
    wanted = text.replace("int<<64>> found = 0", "int<<64>> other = 0")
    head, tail = wanted.split("match moves & 1", 1)
    body, rest = tail.split("// A packet that does not find", 1)
    wanted = head + "match moves & 1" + re.sub(r"\bfound\b", "other", body) + "// A packet that does not find" + rest
    group.check("a rename takes one variable", changed(text, edits) == wanted, edits)
    for name in ("1x", "if", "a b", "", "here", "first"):
        failed = client.whole("textDocument/rename", {"textDocument": {"uri": URI}, "newName": name, "position": {
            "line": text[:text.index("found = 0")].count("\n"), "character": 13}})
        group.check(f"a rename to `{name}` is refused", failed.get("error", {}).get("code") == -32803, failed)
    group.check("a text in the style has no edit", client.ask("textDocument/formatting", {"textDocument": {"uri": URI}, "options": {}}) == [])
    client.change("event  a( ) ;", 2)
    edits = client.ask("textDocument/formatting", {"textDocument": {"uri": URI}, "options": {}})
    group.check("formatting", changed("event  a( ) ;", edits) == "event a();\n", edits)
    client.change("event a(", 3)
    failed = client.whole("textDocument/formatting", {"textDocument": {"uri": URI}, "options": {}})
    group.check("a text with a syntax error is not formatted", failed.get("error", {}).get("code") == -32803, failed)
    group.check("the end", client.end() == 0)


# A text, and for each name in the order of their declarations the places of its uses, as numbers of the words that are this name.
SCOPES = """const int x = 1; event e(int x); fun <<w>> int<<w>> f(int<<w>> y) { return y + (int<<w>>) x; }
handle e(int y) { int z = x; if (y == x) { int x = x + 1; int z = x; generate e(z); } x = z; Array.x(x); match x with | 1 -> { int z = 2; z = z; } | _ -> { z = 3; } }
"""
USES = {"x": [[2, 3, 4, 6, 8, 9, 10], [], [7]], "e": [[1, 2]], "w": [[1, 2, 3]], "f": [[]], "y": [[1], [3]], "z": [[3, 7], [2], [5, 6]]}


def test_names(group: Group) -> None:
    """What each name means where it is used: behind its declaration, up to the end of its block, and the innermost of one name."""
    names = Names(SCOPES)
    for word, wanted in USES.items():
        places = [it.start() for it in re.finditer(rf"(?<!\.)\b{word}\b", SCOPES)]
        found = [[places.index(at) for at in symbol.uses] for symbol in names.by_name[word]]
        group.check(f"uses of {word}", found == wanted, found)
    broken = Names("event a(;\nhandle b( { int x = 1; x = 2;\nfun int c() { return 1; }\nevent d();")
    group.check("names of a broken text", [it.name for it in broken.symbols] == ["a", "x", "c", "d"] and len(broken.by_name["x"][0].uses) == 1, broken.symbols)


def test_diagnostics(group: Group) -> None:
    """All mistakes at once, warnings, limits of the file beside the program, and columns in units of UTF-16."""
    client = Client()
    client.open('event a();\nhandle a() { /* \U0001f600\u00e9 */ b(); int x = true; }\nhandle c() { }')
    found = client.diagnostics()
    places = [(it["range"]["start"]["line"], it["range"]["start"]["character"], it["range"]["end"]["character"], it["severity"]) for it in found]
    group.check("three mistakes and their places", places == [(1, 23, 24, 1), (1, 36, 40, 1), (2, 7, 8, 1)], (places, found))
    group.check("the words of a mistake", "remedy: " in found[0]["message"] and found[0]["source"] == "lucid" and found[0]["code"] == "types", found[0])
    client.change((EXAMPLES / "nat.luc").read_text() + "event b(int x); handle b(int x) { generate c(x); }" * 500, 2)
    time.sleep(0.2)  # it is being judged
    client.change("event a();\nhandle a() { generate a(); }\n", 3)
    found = client.diagnostics(3)
    group.check("a warning of the last text", [(it["severity"], it["range"]["start"]["line"]) for it in found] == [(2, 1)], found)
    names = {it.get("code") for it in found}
    group.check("its name", names == {"endless"}, names)
    ask = {"textDocument": {"uri": URI}, "range": {"start": {"line": 1, "character": 0}, "end": {"line": 1, "character": 0}}, "context": {"diagnostics": []}}
    group.check("no action for a remedy that is no edit", client.ask("textDocument/codeAction", ask) == [])
    text = "event b();\nevent a(int<8> x);\n"
    client.change(text, 4)
    client.diagnostics(4)
    actions = client.ask("textDocument/codeAction", ask)
    edits = [changed(text, it["edit"]["changes"][URI]) for it in actions]
    group.check("an action for a remedy that is an edit", edits == ["event b();\nevent a(int<<8>> x);\n"] and actions[0]["kind"] == "quickfix", actions)
    ask["range"] = {"start": {"line": 0, "character": 0}, "end": {"line": 0, "character": 5}}
    group.check("no action on another line", client.ask("textDocument/codeAction", ask) == [])
    path, limits = group.file("stages.luc", (EXAMPLES / "stages.luc").read_bytes()), group.file("stages.limits.json", '{"stages": 3}')
    client.open(path.read_text(), path.as_uri(), 7)
    found = client.diagnostics(7)
    group.check("a program that does not fit the limits beside it", len(found) == 1 and found[0]["code"] == "nofit" and "reads node" in found[0]["message"], found)
    limits.write_text('{"stages": 3, "x": 1}')
    client.say("textDocument/didSave", {"textDocument": {"uri": path.as_uri()}})
    found = client.diagnostics(7)
    group.check("a limits file that is refused", found[0]["code"] == "limits" and found[0]["range"]["end"] == {"line": 0, "character": 0}, found)
    limits.unlink()
    client.say("textDocument/didSave", {"textDocument": {"uri": path.as_uri()}})
    found = client.diagnostics(7)
    group.check("no limits file", not [it for it in found if it["severity"] == 1], found)
    client.say("textDocument/didClose", {"textDocument": {"uri": path.as_uri()}})
    group.check("the end", client.end() == 0)


def test_speed(group: Group) -> None:
    """Each request is answered within 200 ms of a processor for 1,000 lines, at once behind a change."""
    text = (EXAMPLES / "nat.luc").read_text()
    names = set(re.findall(r"\b(?:const int|global Array\.t<<\d+>>|memop|event|fun \w+|handle) (\w+)", text))
    text = "".join(re.sub(rf"\b({'|'.join(names)})\b", rf"\1_{k}", text) for k in range(24))
    client = Client()
    client.open(text)
    group.check("1,000 lines are judged", text.count("\n") >= 1000 and not [it for it in client.diagnostics() if it.get("severity") == 1], text.count("\n"))
    place = {"textDocument": {"uri": URI}, "position": {"line": 990, "character": 12}}
    for method, more in (("hover", {}), ("definition", {}), ("references", {"context": {}}), ("documentSymbol", {}), ("completion", {}), ("rename", {"newName": "zz"}),
                         ("codeAction", {"range": {"start": place["position"], "end": place["position"]}, "context": {}}), ("formatting", {"options": {}})):
        spent = []
        for number in range(3):
            client.change(text, 10 + number)
            begin = client.seconds()
            answer = client.whole(f"textDocument/{method}", {**place, **more})
            spent.append(client.seconds() - begin)
            group.check(f"{method} has an answer", "result" in answer or "error" in answer, answer)
        group.check(f"{method} within 200 ms", min(spent) < 0.2, spent)
    group.check("the end", client.end() == 0)


def test_bad_input(group: Group) -> None:
    """Each bad message is answered by an error, or left, and the server lives on."""
    client = Client(initialize=False)
    early = client.whole("textDocument/hover", {})
    group.check("a request before `initialize`", early.get("error", {}).get("code") == -32002, early)
    client.ask("initialize", {})
    for name, data, code in (("no JSON", b"Content-Length: 3\r\n\r\n{x}", -32700), ("no length", b"X: 1\r\n\r\n", -32700), ("a list", b"Content-Length: 2\r\n\r\n[]", -32600),
                             ("a negative length", b"Content-Length: -5\r\n\r\n", -32700), ("bytes that are no UTF-8", b"Content-Length: 2\r\n\r\n\xff\xff", -32700),
                             ("a deep list", b"Content-Length: 200000\r\n\r\n" + b"[" * 200000, -32700), ("no version", b'Content-Length: 22\r\n\r\n{"id":1,"method":"a"} ', -32600),
                             ("an identity that is a list", b'Content-Length: 40\r\n\r\n{"jsonrpc":"2.0","id":[],"method":"a"}  ', -32600)):
        client.raw(data)
        found = client.receive()
        group.check(name, found.get("error", {}).get("code") == code, found)
    for method, params, code in (("textDocument/hover", {"textDocument": {"uri": "x"}}, -32602), ("textDocument/hover", None, -32602), ("textDocument/hover", [], -32602),
                                 ("no/such", {}, -32601), ("initialize", {}, -32600)):
        found = client.whole(method, params)
        group.check(f"{method} {params}", found.get("error", {}).get("code") == code, found)
    client.say("textDocument/didChange", {"textDocument": {"uri": "x"}})
    client.say("$/cancelRequest", None)
    client.say("no/such", 7)
    client.raw(b'{"jsonrpc": "2.0", "id": 9, "method": "x"}' * 300)
    found = client.receive()
    group.check("8 KB without a header", found.get("error", {}).get("code") == -32700, found)
    client.send({"jsonrpc": "2.0", "id": 5, "method": "no/such"})
    found = [client.receive() for _ in range(2)]
    group.check("a message behind them", [it.get("error", {}).get("code") for it in found] == [-32700, -32601], found)
    client.open("event a();")
    group.check("and it lives on", client.diagnostics() == [] or client.diagnostics, found)
    data = json.dumps({"jsonrpc": "2.0", "id": 77, "method": "textDocument/documentSymbol", "params": {"textDocument": {"uri": URI}}}).encode()
    for piece in (b"Content-Le", b"ngth: %d\r\n\r" % len(data), b"\n" + data[:20], data[20:]):
        client.raw(piece)
        time.sleep(0.02)
    found = client.receive()
    group.check("a message in pieces", found.get("id") == 77 and len(found.get("result", [])) == 1, found)
    client.raw(b"Content-Length: 100\r\n\r\n{")
    client.process.stdin.close()
    group.check("half a message, and the end", client.process.wait(SECONDS) == 1)
    group.check("nothing on standard error", client.process.stderr.read() == b"")


def test_large(group: Group) -> None:
    """A message of 8 MB, a text of 1 MiB, and one with 60,000 errors; other requests are answered meanwhile."""
    client = Client()
    for version, (name, text) in enumerate((("a message of 8 MB", "x" * 8_000_000), ("a text of 1 MiB", "event a();" * 104857 + "event" + "\n"),
                                            ("60,000 errors", "event a(; handle {\n" * 30_000), ("60,000 bytes that are no token", "$\n" * 60_000)), 1):
        client.open(text, version=version)
        begin = time.monotonic()
        client.at("hover", "", "")
        waited = time.monotonic() - begin
        found = client.diagnostics(version)
        group.check(f"{name}: diagnostics", 1 <= len(found) <= 200 and "range" in found[0], found[:2])
        group.check(f"{name}: a request is answered within 15 s", waited < 15, waited)
    client.change("event a();\n", 9)
    group.check("and it lives on", [it.get("severity") for it in client.diagnostics(9)].count(1) == 0)
    group.check("the end", client.end() == 0)


NVIM = """
local out, step = {}, 0
vim.lsp.handlers["window/showMessage"] = function() end
local function place(pattern, offset)
  for n, line in ipairs(vim.api.nvim_buf_get_lines(0, 0, -1, false)) do
    local at = line:find(pattern, 1, true)
    if at then return { line = n - 1, character = at - 1 + offset } end
  end
end
local function open(name)
  vim.cmd("edit " .. name)
  local id = vim.lsp.start_client({ name = "lucid", cmd = COMMAND, root_dir = vim.fn.getcwd() })
  vim.lsp.buf_attach_client(0, id)
  vim.wait(20000, function() local c = vim.lsp.get_client_by_id(id); return c and c.initialized end, 20)
  return id
end
local function ask(method, more)
  local params = vim.tbl_extend("error", { textDocument = vim.lsp.util.make_text_document_params() }, more)
  for _, it in pairs(vim.lsp.buf_request_sync(0, method, params, 20000) or {}) do return it.result end
end
open("crossed.luc")
vim.wait(20000, function() return #vim.diagnostic.get(0) > 0 end, 20)
out.crossed = vim.tbl_map(function(it) return { it.lnum, it.col, it.message } end, vim.diagnostic.get(0))
open("nat.luc")
out.hover = ask("textDocument/hover", { position = place("owner == host", 0) }).contents.value
local edit = ask("textDocument/rename", { position = place("int before = Array.update", 4), newName = "earlier" })
vim.lsp.util.apply_workspace_edit(edit, "utf-16")
out.lines = vim.api.nvim_buf_get_lines(0, 0, -1, false)
vim.api.nvim_buf_set_lines(0, 0, 0, false, { "const int broken = true;" })
vim.wait(20000, function() return #vim.diagnostic.get(0) > 0 end, 20)
out.typed = vim.tbl_map(function(it) return { it.lnum, it.col, it.message } end, vim.diagnostic.get(0))
vim.fn.writefile({ vim.fn.json_encode(out) }, "out.json")
vim.cmd("qall!")
"""


def test_neovim(group: Group) -> None:
    """Neovim's own client shows a diagnostic, a hover and a rename on two examples."""
    if not shutil.which("nvim"):
        group.note("served: neovim is not installed, so its client was not called")
        pytest.skip("neovim is not installed")
    for name in ("crossed.luc", "nat.luc", "nat.limits.json"):
        group.file(name, (EXAMPLES / name).read_bytes())
    command = "{ " + ", ".join(json.dumps(str(word)) for word in WORDS) + " }"
    script = group.file("test.lua", NVIM.replace("COMMAND", command))
    env = {**os.environ, "HOME": str(group.room), "XDG_STATE_HOME": str(group.room), "XDG_CACHE_HOME": str(group.room)}
    ended = call(["nvim", "--headless", "-u", "NONE", "-i", "NONE", "-n", "-c", f"luafile {script}", "-c", "qall!"], cwd=group.room, env=env, timeout=120)
    path = group.room / "out.json"
    if not group.check("neovim has ended", ended.status == 0 and path.exists(), ended):
        return
    out = json.loads(path.read_text())
    group.check("a diagnostic", [it[:2] for it in out["crossed"]] == [[4, 40]] and "remedy: " in out["crossed"][0][2], out["crossed"])
    group.check("a hover", "int owner" in out["hover"] and "local of 32 bits" in out["hover"], out["hover"])
    text = (EXAMPLES / "nat.luc").read_text()
    head, tail = text.split("handle out(", 1)
    body, rest = tail.split("handle answer(", 1)
    wanted = head + "handle out(" + re.sub(r"\bbefore\b", "earlier", body) + "handle answer(" + rest
    group.check("a rename", "\n".join(out["lines"]) + "\n" == wanted, out["lines"])
    group.check("a diagnostic of what is typed", [it[0] for it in out["typed"]] == [0], out["typed"])
