// Stands in for Visual Studio Code: activates the extension, opens a source, asks for what the editor asks for, and prints what comes of it.
"use strict";
const Module = require("module");
const fs = require("fs");
const [, , extension, source] = process.argv;
const text = fs.readFileSync(source, "utf8"), handlers = {}, provided = {};
class Plain { constructor(...parts) { this.parts = parts; } }
const uri = (it) => ({ scheme: "file", toString: () => it });
const document = { uri: uri("file://" + source), languageId: "cpp", version: 1, getText: () => text };
const provider = (name) => (_, it) => { provided[name] = it; return {}; };
const on = (name) => (it) => { handlers[name] = it; return {}; };
const vscode = {
  Range: Plain, Location: Plain, Hover: Plain, MarkdownString: Plain, Diagnostic: Plain, DiagnosticSeverity: { Error: 0 }, Uri: { parse: uri },
  CompletionItem: class { constructor(label, kind) { this.label = label; this.kind = kind; } },
  WorkspaceEdit: class { constructor() { this.count = 0; } replace() { this.count += 1; } },
  window: { showErrorMessage: console.log, showWarningMessage: console.log },
  languages: {
    createDiagnosticCollection: () => ({ set: (_, found) => diagnosed(found) }),
    registerHoverProvider: provider("hover"), registerDefinitionProvider: provider("definition"), registerReferenceProvider: provider("references"),
    registerRenameProvider: provider("rename"), registerCompletionItemProvider: provider("completion"),
  },
  workspace: {
    getConfiguration: () => ({ get: () => "" }), textDocuments: [document],
    onDidOpenTextDocument: on("open"), onDidChangeTextDocument: on("change"), onDidSaveTextDocument: on("save"), onDidCloseTextDocument: on("close"),
  },
};
const load = Module._load;
Module._load = (name, ...more) => (name === "vscode" ? vscode : load(name, ...more));
const context = { subscriptions: [] };
async function diagnosed(found) {
  for (const it of found) console.log(`diagnostic ${it.parts[0].parts[0]} ${it.code.value}: ${it.parts[1]}`);
  const before = text.slice(0, text.indexOf("/*q of Pair*/") + 13), lines = before.split("\n");
  const place = { line: lines.length - 1, character: lines[lines.length - 1].length };
  console.log("hover", (await provided.hover.provideHover(document, place)).parts[0].parts[0]);
  console.log("definition", (await provided.definition.provideDefinition(document, place)).parts[1].parts[0]);
  console.log("references", (await provided.references.provideReferences(document, place, { includeDeclaration: true })).length);
  console.log("edits", (await provided.rename.provideRenameEdits(document, place, "data")).count);
  await provided.rename.provideRenameEdits(document, place, "n").catch((why) => console.log("refused", why.message));
  console.log("items", (await provided.completion.provideCompletionItems(document, place)).length > 10);
  for (const it of context.subscriptions) if (it.dispose) it.dispose();
}
require(extension).activate(context);
