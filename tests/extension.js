// Runs editors/extension.js in a stand-in for VS Code: extension.js COMMAND TEXT, where TEXT is a profile with a slip. Prints what came of it, as JSON.
"use strict";

const Module = require("module");
const path = require("path");

const [command, text] = process.argv.slice(2);
const uri = { toString: () => "file:///slip.fn" };
const handlers = {}, registered = {}, shown = [];
let told;
const first = new Promise((answer) => { told = answer; });

class Plain { constructor(...values) { this.values = values; } }
const handler = (name) => (it) => { handlers[name] = it; return { dispose() {} }; };
const position = (line, character) => ({ line, character });
const vscode = {
  Range: class { constructor(a, b, c, d) { Object.assign(this, { start: position(a, b), end: position(c, d) }); } },
  Location: Plain, Diagnostic: Plain, DiagnosticRelatedInformation: Plain, Hover: Plain, MarkdownString: Plain, SnippetString: Plain, DocumentSymbol: Plain,
  FoldingRange: Plain, TextEdit: Plain, CompletionItem: Plain, FoldingRangeKind: { Comment: 1 },
  CompletionItemKind: { Function: 2 }, SymbolKind: { Method: 5, Field: 7 },
  Uri: { parse: (it) => ({ toString: () => it }) },
  window: { showInformationMessage: (it) => shown.push(it) },
  workspace: { getConfiguration: () => ({ get: () => command }), textDocuments: [], onDidOpenTextDocument: handler("open"), onDidChangeTextDocument: handler("change"),
               onDidSaveTextDocument: handler("save"), onDidCloseTextDocument: handler("close") },
  languages: { createDiagnosticCollection: () => ({ set: (_, diagnostics) => told(diagnostics), dispose() {} }) },
};
for (const it of ["Hover", "Definition", "Reference", "DocumentSymbol", "FoldingRange", "DocumentFormattingEdit", "CompletionItem"])
  vscode.languages[`register${it}Provider`] = (_, provider) => { registered[it] = Object.values(provider)[0]; return { dispose() {} }; };

const load = Module._load;
Module._load = (name, ...rest) => (name === "vscode" ? vscode : load(name, ...rest));
const extension = require(path.join(__dirname, "..", "editors", "extension.js"));

async function main() {
  const context = { subscriptions: [] };
  await extension.activate(context);
  const document = { uri, languageId: "rohcfn", version: 1, getText: () => text };
  handlers.open(document);
  const faults = (await first).map((it) => ({ range: it.values[0], message: it.values[1], severity: it.values[2], code: it.code }));
  const second = new Promise((answer) => { told = answer; });
  const slip = text.indexOf("iregular");
  const line = text.slice(0, slip).split("\n").length - 1, column = slip - text.lastIndexOf("\n", slip) - 1;
  document.version = 2;
  handlers.change({ document, contentChanges: [{ range: { start: position(line, column), end: position(line, column) }, text: "i" }] });
  handlers.change({ document, contentChanges: [{ range: { start: position(line, column), end: position(line, column + 2) }, text: "i" }] });
  handlers.change({ document, contentChanges: [{ range: { start: position(line, column + 1), end: position(line, column + 1) }, text: "r" }] });
  const mended = (await second).length;
  const at = position(line, column + 3);
  const found = {
    faults, mended, shown,
    hover: (await registered.Hover(document, at)).values[0].values[0],
    offers: (await registered.CompletionItem(document, at)).map((it) => it.values[0]),
    symbols: (await registered.DocumentSymbol(document)).map((it) => it.values[0]),
    folds: (await registered.FoldingRange(document)).length,
    edits: (await registered.DocumentFormattingEdit(document, { tabSize: 2, insertSpaces: true })).length,
    references: (await registered.Reference(document, position(2, 60), { includeDeclaration: true })).length,
    subscriptions: context.subscriptions.length,
  };
  handlers.close(document);
  await extension.deactivate();
  console.log(JSON.stringify(found));
}

main().catch((why) => { console.error(why); process.exit(1); });
