// The extension of VS Code: starts lucid-lsp, and hands on what VS Code asks and what the server finds. It needs no other module.
const vscode = require("vscode");
const { spawn } = require("child_process");

const LANGUAGE = "lucid";
let server;

/** A server: its process, and the requests that wait for an answer. */
class Server {
  constructor(command, onDiagnostics) {
    this.process = spawn(command[0], command.slice(1), { stdio: ["pipe", "pipe", "inherit"] });
    this.data = Buffer.alloc(0);
    this.waiting = new Map();
    this.count = 0;
    this.onDiagnostics = onDiagnostics;
    this.process.stdout.on("data", (more) => this.take(more));
    this.process.stdin.on("error", () => this.fail("the server has ended"));
    this.process.on("error", (fault) => vscode.window.showErrorMessage(`${command[0]}: ${fault.message}`));
    this.process.on("exit", () => this.fail("the server has ended"));
  }

  fail(why) {
    for (const one of this.waiting.values()) one.reject(new Error(why));
    this.waiting.clear();
  }

  send(message) {
    const text = Buffer.from(JSON.stringify({ jsonrpc: "2.0", ...message }));
    this.process.stdin.write(`Content-Length: ${text.length}\r\n\r\n`);
    this.process.stdin.write(text);
  }

  tell(method, params) {
    this.send({ method, params });
  }

  ask(method, params) {
    const id = ++this.count;
    this.send({ id, method, params });
    return new Promise((resolve, reject) => this.waiting.set(id, { resolve, reject }));
  }

  take(more) {
    this.data = Buffer.concat([this.data, more]);
    for (;;) {
      const end = this.data.indexOf("\r\n\r\n");
      const size = end < 0 ? null : /Content-Length: (\d+)/.exec(this.data.subarray(0, end).toString());
      if (!size || this.data.length < end + 4 + Number(size[1])) return;
      const message = JSON.parse(this.data.subarray(end + 4, end + 4 + Number(size[1])).toString());
      this.data = this.data.subarray(end + 4 + Number(size[1]));
      const one = this.waiting.get(message.id);
      if (message.method === "textDocument/publishDiagnostics") this.onDiagnostics(message.params);
      else if (one) {
        this.waiting.delete(message.id);
        if (message.error) one.reject(new Error(message.error.message));
        else one.resolve(message.result);
      }
    }
  }
}

const range = (it) => new vscode.Range(it.start.line, it.start.character, it.end.line, it.end.character);
const location = (it) => new vscode.Location(vscode.Uri.parse(it.uri), range(it.range));
const edit = (it) => new vscode.TextEdit(range(it.range), it.newText);

function workspaceEdit(found) {
  const made = new vscode.WorkspaceEdit();
  for (const [uri, edits] of Object.entries(found.changes)) made.set(vscode.Uri.parse(uri), edits.map(edit));
  return made;
}

function activate(context) {
  const diagnostics = vscode.languages.createDiagnosticCollection(LANGUAGE);
  const command = vscode.workspace.getConfiguration("lucid").get("server");
  server = new Server(command, ({ uri, diagnostics: found }) =>
    diagnostics.set(vscode.Uri.parse(uri), found.map((it) => {
      const made = new vscode.Diagnostic(range(it.range), it.message, it.severity - 1);
      made.source = it.source;
      made.code = it.code;
      return made;
    })));
  const ready = server.ask("initialize", { processId: process.pid, rootUri: null, capabilities: {} }).then(() => server.tell("initialized", {}));
  ready.catch(() => {}); // the process says why
  const isOurs = (document) => document.languageId === LANGUAGE;
  const named = (document) => ({ uri: document.uri.toString() });
  const when = (document, method, params) => isOurs(document) && ready.then(() => server.tell(method, params), () => {});
  const open = (it) => when(it, "textDocument/didOpen", { textDocument: { ...named(it), languageId: LANGUAGE, version: it.version, text: it.getText() } });
  const ask = (document, method, more) => ready.then(() => server.ask(`textDocument/${method}`, { textDocument: named(document), ...more }));
  const languages = vscode.languages;
  context.subscriptions.push(
    diagnostics,
    vscode.workspace.onDidOpenTextDocument(open),
    vscode.workspace.onDidChangeTextDocument(({ document }) => when(document, "textDocument/didChange",
      { textDocument: { ...named(document), version: document.version }, contentChanges: [{ text: document.getText() }] })),
    vscode.workspace.onDidSaveTextDocument((it) => when(it, "textDocument/didSave", { textDocument: named(it) })),
    vscode.workspace.onDidCloseTextDocument((it) => when(it, "textDocument/didClose", { textDocument: named(it) })),
    languages.registerHoverProvider(LANGUAGE, { provideHover: (document, position) => ask(document, "hover", { position }).then((it) =>
      it && new vscode.Hover(new vscode.MarkdownString(it.contents.value), range(it.range))) }),
    languages.registerDefinitionProvider(LANGUAGE, { provideDefinition: (document, position) => ask(document, "definition", { position }).then((it) =>
      it && location(it)) }),
    languages.registerReferenceProvider(LANGUAGE, { provideReferences: (document, position, context) => ask(document, "references",
      { position, context }).then((found) => found.map(location)) }),
    languages.registerDocumentSymbolProvider(LANGUAGE, { provideDocumentSymbols: (document) => ask(document, "documentSymbol", {}).then((found) =>
      found.map((it) => new vscode.DocumentSymbol(it.name, it.detail, it.kind - 1, range(it.range), range(it.selectionRange)))) }),
    languages.registerCompletionItemProvider(LANGUAGE, { provideCompletionItems: (document, position) => ask(document, "completion", { position }).then((found) =>
      found.map((it) => Object.assign(new vscode.CompletionItem(it.label, it.kind - 1), { detail: it.detail }))) }, "."),
    languages.registerRenameProvider(LANGUAGE, { provideRenameEdits: (document, position, newName) => ask(document, "rename",
      { position, newName }).then(workspaceEdit) }),
    languages.registerCodeActionsProvider(LANGUAGE, { provideCodeActions: (document, where) => ask(document, "codeAction",
      { range: { start: where.start, end: where.end }, context: { diagnostics: [] } }).then((found) => found.map((it) =>
      Object.assign(new vscode.CodeAction(it.title, vscode.CodeActionKind.QuickFix), { edit: workspaceEdit(it.edit) }))) }),
    languages.registerDocumentFormattingEditProvider(LANGUAGE, { provideDocumentFormattingEdits: (document) => ask(document, "formatting",
      { options: {} }).then((found) => found.map(edit)) }));
  vscode.workspace.textDocuments.forEach(open);
}

function deactivate() {
  if (server) server.ask("shutdown", null).then(() => server.tell("exit", null), () => {});
}

module.exports = { activate, deactivate };
