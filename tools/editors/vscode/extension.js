// Visual Studio Code speaks with tools/lsp.py: one child process, its messages, and what the editor asks for (docs/EDITORS.md). No dependencies.
"use strict";
const vscode = require("vscode");
const path = require("path");
const fs = require("fs");
const { spawn } = require("child_process");

const CPP = { language: "cpp", scheme: "file" };

// A connection to the server: requests have an answer, or none after the server's end.
class Connection {
  constructor(command, heard) {
    this.waiting = new Map();
    this.count = 0;
    this.held = Buffer.alloc(0);
    this.heard = heard;
    this.child = spawn(command, [], { stdio: ["pipe", "pipe", "ignore"] });
    this.child.on("error", (why) => { vscode.window.showErrorMessage(`tapa: ${command}: ${why.message}`); this.close(); });
    this.child.on("exit", () => this.close());
    this.child.stdin.on("error", () => {});
    this.child.stdout.on("data", (piece) => this.take(piece));
  }
  close() {
    for (const answer of this.waiting.values()) answer(null);
    this.waiting.clear();
    this.child = null;
  }
  send(message) {
    if (!this.child) return;
    const body = Buffer.from(JSON.stringify({ jsonrpc: "2.0", ...message }));
    this.child.stdin.write(Buffer.concat([Buffer.from(`Content-Length: ${body.length}\r\n\r\n`), body]));
  }
  note(method, params) { this.send({ method, params }); }
  ask(method, params) {
    if (!this.child) return Promise.resolve(null);
    const id = ++this.count;
    this.send({ id, method, params });
    return new Promise((answer) => this.waiting.set(id, answer));
  }
  take(piece) {
    this.held = Buffer.concat([this.held, piece]);
    for (;;) {
      const end = this.held.indexOf("\r\n\r\n");
      if (end < 0) return;
      const length = parseInt(this.held.slice(0, end).toString().split(":")[1], 10), begin = end + 4;
      if (this.held.length < begin + length) return;
      const message = JSON.parse(this.held.slice(begin, begin + length).toString());
      this.held = this.held.slice(begin + length);
      if (message.method) this.heard(message.method, message.params);
      else if (this.waiting.has(message.id)) {
        this.waiting.get(message.id)(message.error ? { refused: message.error.message } : message.result);
        this.waiting.delete(message.id);
      }
    }
  }
}

const at = (document, position) => ({ textDocument: { uri: document.uri.toString() }, position: { line: position.line, character: position.character } });
const range = (it) => new vscode.Range(it.start.line, it.start.character, it.end.line, it.end.character);
const location = (it) => new vscode.Location(vscode.Uri.parse(it.uri), range(it.range));
// Kinds of items count from 1 in the protocol, and from 0 in the editor.
const item = (it) => Object.assign(new vscode.CompletionItem(it.label, it.kind - 1), { detail: it.detail, documentation: it.documentation, insertText: it.insertText, sortText: it.sortText });

function diagnostic(it) {
  const found = new vscode.Diagnostic(range(it.range), it.message, vscode.DiagnosticSeverity.Error);
  found.source = it.source;
  found.code = it.codeDescription ? { value: it.code, target: vscode.Uri.parse(it.codeDescription.href) } : it.code;
  return found;
}

function providers(server) {
  const asked = async (method, document, position, more) => {
    const found = await server.ask(`textDocument/${method}`, { ...at(document, position), ...more });
    if (found && found.refused) throw new Error(found.refused);
    return found;
  };
  return [
    vscode.languages.registerHoverProvider(CPP, { provideHover: async (document, position) => {
      const found = await asked("hover", document, position);
      return found ? new vscode.Hover(new vscode.MarkdownString(found.contents.value)) : null;
    } }),
    vscode.languages.registerDefinitionProvider(CPP, { provideDefinition: async (document, position) => {
      const found = await asked("definition", document, position);
      return found ? location(found) : null;
    } }),
    vscode.languages.registerReferenceProvider(CPP, { provideReferences: async (document, position, context) =>
      (await asked("references", document, position, { context: { includeDeclaration: context.includeDeclaration } }) || []).map(location) }),
    vscode.languages.registerRenameProvider(CPP, { provideRenameEdits: async (document, position, newName) => {
      const found = await asked("rename", document, position, { newName }), edit = new vscode.WorkspaceEdit();
      for (const uri of Object.keys(found ? found.changes : {})) for (const it of found.changes[uri]) edit.replace(vscode.Uri.parse(uri), range(it.range), it.newText);
      return edit;
    } }),
    vscode.languages.registerCompletionItemProvider(CPP, { provideCompletionItems: async (document, position) => {
      const found = await asked("completion", document, position);
      return found ? found.items.map(item) : [];
    } }, ".", ":", "(", ","),
  ];
}

function activate(context) {
  const settings = vscode.workspace.getConfiguration("tapa");
  const beside = path.join(fs.realpathSync(__dirname), "..", "..", "lsp.py");
  const shown = vscode.languages.createDiagnosticCollection("tapa");
  const server = new Connection(settings.get("server") || beside, (method, params) => {
    if (method === "textDocument/publishDiagnostics") shown.set(vscode.Uri.parse(params.uri), params.diagnostics.map(diagnostic));
    if (method === "window/showMessage") vscode.window.showWarningMessage(params.message);
  });
  const isOurs = (document) => document.languageId === "cpp" && document.uri.scheme === "file";
  const named = (document) => ({ textDocument: { uri: document.uri.toString(), version: document.version } });
  const opened = (document) => isOurs(document) && server.note("textDocument/didOpen", { textDocument: { ...named(document).textDocument, languageId: "cpp", text: document.getText() } });
  const changed = (event) => isOurs(event.document) && event.contentChanges.length &&
    server.note("textDocument/didChange", { ...named(event.document), contentChanges: [{ text: event.document.getText() }] });
  server.ask("initialize", { processId: process.pid, rootUri: null, initializationOptions: { top: settings.get("top") || null }, capabilities: { textDocument: { hover: { contentFormat: ["markdown"] } } } });
  server.note("initialized", {});
  vscode.workspace.textDocuments.forEach(opened);
  context.subscriptions.push(
    shown, ...providers(server), vscode.workspace.onDidOpenTextDocument(opened), vscode.workspace.onDidChangeTextDocument(changed),
    vscode.workspace.onDidSaveTextDocument((document) => isOurs(document) && server.note("textDocument/didSave", named(document))),
    vscode.workspace.onDidCloseTextDocument((document) => isOurs(document) && server.note("textDocument/didClose", named(document))),
    { dispose: () => { server.ask("shutdown", null); server.note("exit", null); } },
  );
}

module.exports = { activate, deactivate: () => {} };
