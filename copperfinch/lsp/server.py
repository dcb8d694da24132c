"""The language server: messages of JSON-RPC on standard input and output, one after another, and what each asks of a document."""
import json
import logging
import os
import re
import select
import sys
import time
from typing import Any, BinaryIO, Callable, Dict, Iterator, List, Optional
from urllib.parse import unquote, urlparse

from ..errors import Error
from ..format import format_program
from ..model.refusals import Refused
from ..streams import Source
from .analysis import Analysis, Json, Lines
from .names import FORMS, MEMBERS, Names, Symbol, is_name

try:
    from pylsp_jsonrpc.endpoint import Endpoint
    from pylsp_jsonrpc.exceptions import JsonRpcException, JsonRpcInvalidParams, JsonRpcInvalidRequest, JsonRpcParseError
    from pylsp_jsonrpc.streams import JsonRpcStreamWriter
except ImportError:
    raise Error("there is no module pylsp_jsonrpc: install Debian's python3-pylsp-jsonrpc, or python-lsp-jsonrpc by pip") from None

PAUSE = 0.1  # seconds after a change before the text is judged
MOST_HEADER, MOST_MESSAGE, MOST_TEXT = 2**13, 2**26, 2**20
LENGTH = re.compile(rb"Content-Length:[ \t]*([0-9]{1,18})[ \t]*(?=\r\n|\Z)", re.I)
HEADERS = re.compile(rb"([A-Za-z-]+:[^\r\n]*\r\n)*")
NOT_INITIALIZED, FAILED = -32002, -32803
SYMBOLS = {"const": 14, "global": 18, "memop": 12, "event": 24, "fun": 12, "group": 18}
COMPLETED = {"const": 21, "global": 6, "memop": 3, "event": 23, "fun": 3, "group": 6, "local": 6, "parameter": 6, "width": 25, "member": 2, "word": 14}
ABLE = {
    "textDocumentSync": {"openClose": True, "change": 1, "save": True}, "hoverProvider": True, "definitionProvider": True, "referencesProvider": True,
    "documentSymbolProvider": True, "completionProvider": {"triggerCharacters": ["."]}, "renameProvider": True,
    "codeActionProvider": {"codeActionKinds": ["quickfix"]}, "documentFormattingProvider": True,
}


class Messages:
    """Takes messages out of a stream of bytes. What is none is given as an error, and the stream goes on at the next header."""

    def __init__(self) -> None:
        self.data = bytearray()
        self.skip = 0  # bytes of a message that is too long

    def feed(self, data: bytes) -> Iterator[Any]:
        """Adds bytes; gives each message that is whole, or an exception in its place."""
        self.data += data
        while True:
            skipped = min(self.skip, len(self.data))
            del self.data[:skipped]
            self.skip -= skipped
            end = self.data.find(b"\r\n\r\n")
            if end < 0:
                if len(self.data) > MOST_HEADER:
                    del self.data[:-64]  # a header may begin there
                    yield JsonRpcParseError("a header without its end")
                return
            lengths = list(LENGTH.finditer(bytes(self.data[:end])))
            size = int(lengths[-1][1]) if lengths else -1
            if lengths and not HEADERS.fullmatch(bytes(self.data[:lengths[-1].start()])):
                del self.data[:lengths[-1].start()]
                yield JsonRpcParseError("no header")
            elif size < 0:
                del self.data[:end + 4]
                yield JsonRpcParseError("a header without a length")
            elif size > MOST_MESSAGE:
                del self.data[:end + 4]
                self.skip = size
                yield JsonRpcParseError(f"a message of more than {MOST_MESSAGE} bytes")
            elif len(self.data) < end + 4 + size:
                return
            else:
                text = bytes(self.data[end + 4:end + 4 + size])
                del self.data[:end + 4 + size]
                try:
                    yield json.loads(text.decode("utf-8"))
                except (ValueError, RecursionError):
                    yield JsonRpcParseError("no JSON")


class Document:
    """An open text: its version, its names, and what was last found of it."""

    def __init__(self, uri: str) -> None:
        self.uri = uri
        parts = urlparse(uri)
        self.path = unquote(parts.path) if parts.scheme == "file" else uri
        self.analysis: Optional[Analysis] = None
        self.found: Json = {}
        self.change("", None)

    def change(self, text: str, version: Any) -> None:
        """Takes a new text, which is to be judged soon."""
        self.data = text.encode("utf-8", "replace")
        self.version, self.due = version, time.monotonic() + PAUSE
        self.lines = Lines(self.data)
        self.made: Optional[Names] = None
        self.is_judged = False
        self.stop()

    def stop(self) -> None:
        """Ends the analysis of the text."""
        if self.analysis:
            self.analysis.close()
        self.analysis = None

    @property
    def names(self) -> Names:
        """The names of the text; of one that is too long for a program there are none."""
        if self.made is None:
            self.made = Names(self.data.decode("latin-1") if len(self.data) <= MOST_TEXT else "")
        return self.made

    def location(self, at: int, size: int) -> Json:
        """Returns the location of some bytes."""
        return {"uri": self.uri, "range": self.lines.range(at, at + size)}


class Server:
    """The state of the server, and a method for each request and notification."""

    def __init__(self, out: BinaryIO) -> None:
        logging.getLogger("pylsp_jsonrpc").setLevel(logging.CRITICAL)  # faults are answered
        self.documents: Dict[str, Document] = {}
        self.is_initialized = self.is_shut = self.is_over = False
        self.writer = JsonRpcStreamWriter(out)
        names: Dict[str, Callable[[Any], Any]] = {"initialize": self.initialize, "shutdown": self.shutdown, "exit": self.exit, "initialized": lambda params: None}
        for short, method in (("didOpen", self.did_open), ("didChange", self.did_change), ("didClose", self.did_close), ("didSave", self.did_save),
                              ("hover", self.hover), ("definition", self.definition), ("references", self.references), ("rename", self.rename),
                              ("documentSymbol", self.document_symbols), ("completion", self.completion), ("codeAction", self.code_actions),
                              ("formatting", self.formatting)):
            names[f"textDocument/{short}"] = method
        self.endpoint = Endpoint({name: self.guarded(method) for name, method in names.items()}, self.writer.write)

    def guarded(self, method: Callable[[Any], Any]) -> Callable[[Any], Any]:
        """Returns a method that answers parameters of another form by an error of the protocol."""
        def call(params: Any) -> Any:
            try:
                return method(params)
            except (KeyError, TypeError, ValueError, AttributeError, IndexError, OverflowError) as fault:
                raise JsonRpcInvalidParams(f"Invalid Params: {fault}") from None
        return call

    def run(self, source: int) -> int:
        """Answers messages until the client says `exit` or closes its stream; returns the exit code."""
        messages = Messages()
        while not self.is_over:
            now = time.monotonic()
            waiting = [it for it in self.documents.values() if not it.is_judged and it.analysis is None]
            for document in waiting:
                if document.due <= now:
                    document.analysis = Analysis(document.path, document.data)
            running = {it.analysis.pipe: it for it in self.documents.values() if it.analysis}
            pause = min((max(0.0, it.due - now) for it in waiting if it.analysis is None), default=None)
            ready, _, _ = select.select([source, *running], [], [], pause)
            if source in ready:
                data = os.read(source, 2**16)
                for message in messages.feed(data):
                    self.take(message)
                self.is_over = self.is_over or not data
                continue  # what was asked comes before what was found
            for pipe in ready:
                self.judged(running[pipe])
        for document in self.documents.values():
            document.stop()
        return 0 if self.is_shut else 1

    def take(self, message: Any) -> None:
        """Takes a message, or what is given in place of one."""
        if isinstance(message, JsonRpcException):
            self.fail(None, message)
            return
        name = message.get("method") if isinstance(message, dict) else None
        number = message.get("id") if isinstance(message, dict) else None
        if not isinstance(message, dict) or message.get("jsonrpc") != "2.0" or not isinstance(number, (int, str, type(None))):
            self.fail(None, JsonRpcInvalidRequest())
        elif not isinstance(name, str):
            if not ("id" in message and ("result" in message or "error" in message)):  # we ask nothing, so an answer is none of ours
                self.fail(number, JsonRpcInvalidRequest())
        elif self.is_shut and name != "exit" or self.is_initialized and name == "initialize":
            self.fail(number, JsonRpcInvalidRequest()) if "id" in message else None
        elif not self.is_initialized and name not in ("initialize", "exit"):
            self.fail(number, JsonRpcException("no request before `initialize`", NOT_INITIALIZED)) if "id" in message else None
        elif name != "$/cancelRequest":  # each request is answered before the next is read
            self.endpoint.consume(message)

    def fail(self, number: Any, fault: JsonRpcException) -> None:
        """Answers with an error."""
        self.writer.write({"jsonrpc": "2.0", "id": number, "error": fault.to_dict()})

    # ---- the life of the server and of documents

    def initialize(self, params: Any) -> Json:
        self.is_initialized = True
        return {"capabilities": ABLE, "serverInfo": {"name": "lucid-lsp"}}

    def shutdown(self, params: Any) -> None:
        self.is_shut = True

    def exit(self, params: Any) -> None:
        self.is_over = True

    def did_open(self, params: Any) -> None:
        given = params["textDocument"]
        document = Document(str(given["uri"]))
        document.change(str(given["text"]), given.get("version"))
        self.did_close(params) if document.uri in self.documents else None
        self.documents[document.uri] = document

    def did_change(self, params: Any) -> None:
        """Takes the whole text, which is what the client was told to send."""
        document = self.document(params)
        for change in params["contentChanges"]:
            document.change(str(change["text"]), params["textDocument"].get("version"))

    def did_save(self, params: Any) -> None:
        """Judges again: the limits may be others."""
        document = self.document(params)
        document.stop()
        document.is_judged = False

    def did_close(self, params: Any) -> None:
        document = self.document(params)
        document.stop()
        del self.documents[document.uri]
        self.publish(document.uri, None, [])

    def document(self, params: Any) -> Document:
        """Returns the document of some parameters. Raises KeyError if it is not open."""
        return self.documents[params["textDocument"]["uri"]]

    def judged(self, document: Document) -> None:
        """Publishes what was found, if that is all."""
        assert document.analysis is not None
        found = document.analysis.read()
        if found is not None:
            document.analysis, document.is_judged, document.found = None, True, {**found, "version": document.version}
            self.publish(document.uri, document.version, [one["diagnostic"] for one in found["found"]])

    def publish(self, uri: str, version: Any, found: List[Json]) -> None:
        """Sends the diagnostics of a document."""
        self.endpoint.notify("textDocument/publishDiagnostics", {"uri": uri, "diagnostics": found, **({} if version is None else {"version": version})})

    # ---- what is asked of a document

    def symbol(self, params: Any) -> Optional[Symbol]:
        """Returns the symbol at a position."""
        document = self.document(params)
        return document.names.symbol_at(document.lines.at(params["position"]))

    def hover(self, params: Any) -> Optional[Json]:
        """What a name is: its declaration, its bits, the order of an array, and the nodes of the token with their stages and tables."""
        document = self.document(params)
        names, at = document.names, document.lines.at(params["position"])
        number = names.token_at(at)
        if number is None:
            return None
        token, symbol = names.tokens[number], names.symbol_at(at)
        lines: List[str] = []
        if symbol is not None:
            lines = ["```lucid", names.head(symbol), "```", described(names, symbol)]
        elif token.text in FORMS:
            lines = [FORMS[token.text]]
        elif number > 1 and names.tokens[number - 1].text == ".":
            lines = [MEMBERS.get(names.tokens[number - 2].text, {}).get(token.text, "")]
        nodes = document.found.get("nodes", []) if document.is_judged else []
        place = document.data.count(b"\n", 0, token.at) + 1, token.at - document.data.rfind(b"\n", 0, token.at)
        for node in nodes:
            is_array = symbol is not None and symbol.kind == "global" and node["array"] == symbol.name
            if is_array or (node["line"], node["column"]) == place:
                where = "no stage" if node["stage"] is None else f"stage {node['stage']}, table {node['table']}"
                lines.append(f"{'' if document.found['has_limits'] else 'within the greatest limits, '}node {node['node']}: {node['what']}, in {where}")
        return {"contents": {"kind": "markdown", "value": "\n".join(filter(None, lines))},
                "range": document.lines.range(token.at, token.at + len(token.text))} if any(lines) else None

    def definition(self, params: Any) -> Optional[Json]:
        symbol = self.symbol(params)
        return None if symbol is None else self.document(params).location(symbol.at, len(symbol.name))

    def references(self, params: Any) -> List[Json]:
        symbol = self.symbol(params)
        if symbol is None:
            return []
        own = [symbol.at] if params.get("context", {}).get("includeDeclaration", True) else []
        return [self.document(params).location(at, len(symbol.name)) for at in sorted(own + symbol.uses)]

    def rename(self, params: Any) -> Json:
        """Renames a symbol where it is declared and used. A name that is visible there is refused."""
        document, symbol, name = self.document(params), self.symbol(params), params["newName"]
        if symbol is None:
            raise JsonRpcException("no declared name is here", FAILED)
        if not is_name(name):
            raise JsonRpcException(f"{name} is no name", FAILED)
        places = sorted([symbol.at, *symbol.uses])
        taken = [other for other in document.names.by_name.get(name, []) if other is not symbol and (
            any(other.visible[0] <= at < other.visible[1] for at in places) or any(symbol.visible[0] <= at < symbol.visible[1] for at in other.uses))]
        if taken and name != symbol.name:
            raise JsonRpcException(f"{name} is another name there", FAILED)
        changes = [{"range": document.lines.range(at, at + len(symbol.name)), "newText": name} for at in places]
        return {"changes": {document.uri: changes}}

    def document_symbols(self, params: Any) -> List[Json]:
        document = self.document(params)
        found: List[Json] = []
        for one in document.names.symbols:
            if one.kind in SYMBOLS:
                whole, own = document.lines.range(one.begin, one.end), document.lines.range(one.at, one.at + len(one.name))
                found.append({"name": one.name, "detail": one.kind, "kind": SYMBOLS[one.kind], "range": whole, "selectionRange": own})
        return found

    def completion(self, params: Any) -> List[Json]:
        document = self.document(params)
        offered = document.names.offered(document.lines.at(params["position"]))
        return [{"label": name, "kind": COMPLETED.get(kind, 1), "detail": text} for name, kind, text in offered]

    def code_actions(self, params: Any) -> List[Json]:
        """The remedies that are an edit, of what was found in a range of lines."""
        document, first, last = self.document(params), params["range"]["start"]["line"], params["range"]["end"]["line"]
        found: List[Json] = []
        for one in document.found.get("found", []) if document.is_judged else []:
            where = one["diagnostic"]["range"]
            if one["edits"] and where["start"]["line"] <= last and where["end"]["line"] >= first:
                remedy = [line[8:] for line in one["diagnostic"]["message"].split("\n") if line.startswith("remedy: ")]
                found.append({"title": (remedy or ["mend it"])[0], "kind": "quickfix", "diagnostics": [one["diagnostic"]],
                              "edit": {"changes": {document.uri: one["edits"]}}})
        return found

    def formatting(self, params: Any) -> List[Json]:
        """One edit of the whole text, or none if it is in the style."""
        document = self.document(params)
        try:
            made = format_program(Source(document.path, document.data))
        except (Error, Refused, RecursionError) as fault:
            raise JsonRpcException(str(fault), FAILED) from None
        if made == document.data:
            return []
        return [{"range": document.lines.range(0, len(document.data)), "newText": made.decode("utf-8", "replace")}]


def described(names: Names, symbol: Symbol) -> str:
    """Says what a symbol is, in words."""
    bits = symbol.bits()
    size = "" if bits is None else f" of {bits} bit{'s' if bits > 1 else ''}"
    if symbol.kind == "global":
        arrays = [one for one in names.symbols if one.kind == "global"]
        at = arrays.index(symbol)
        order = [f"behind {one.name}" for one in arrays[:at][-1:]] + [f"before {one.name}" for one in arrays[at + 1:at + 2]]
        return f"array {at + 1} of {len(arrays)}, cells{size}; a handler calls it {' and '.join(order) or 'at most once'}"
    if symbol.kind == "event":
        handlers = names.handlers.get(symbol.at, [])
        lines = ", ".join(str(names.text.count("\n", 0, at) + 1) for at in handlers)
        return f"event, handled on line {lines}" if handlers else "event without a handler"
    words = {"fun": "function", "const": "constant", "width": "width of a function"}
    return f"{words.get(symbol.kind, symbol.kind)}{size if symbol.kind in ('const', 'local', 'parameter') else ''}"


def serve() -> int:
    """Serves a client on standard input and output."""
    out, sys.stdout = sys.stdout.buffer, sys.stderr
    return Server(out).run(0)
