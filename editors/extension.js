// The language client of VS Code: it starts `rohcfn lsp` and hands over what both say. Plain JavaScript without a build step and without packages.
"use strict";

const childProcess = require("child_process");
const vscode = require("vscode");

const LANGUAGE = "rohcfn";
const SEVERITIES = [0, 0, 1, 2, 3]; // those of VS Code for those of the protocol, which count from 1
const SYMBOLS = { 3: "Namespace", 6: "Method", 8: "Field", 14: "Constant", 23: "Struct" };
const OFFERS = { 2: "Method", 3: "Function", 5: "Field", 6: "Variable", 14: "Keyword", 21: "Constant" };

// Takes octets as they come, and calls with each message in them.
class Reader {
  constructor(take) {
    this.take = take;
    this.waiting = Buffer.alloc(0);
  }

  add(octets) {
    this.waiting = Buffer.concat([this.waiting, octets]);
    for (;;) {
      const end = this.waiting.indexOf("\r\n\r\n");
      const found = end < 0 ? null : /^Content-Length: (\d+)/m.exec(this.waiting.toString("latin1", 0, end));
      if (!found || this.waiting.length < end + 4 + Number(found[1])) return;
      const last = end + 4 + Number(found[1]);
      const body = this.waiting.toString("utf8", end + 4, last);
      this.waiting = this.waiting.subarray(last);
      this.take(JSON.parse(body));
    }
  }
}

// A session with the server.
class Client {
  constructor(command, shown, said) {
    this.number = 0;
    this.asked = new Map();
    this.shown = shown;
    this.said = said;
    this.running = childProcess.spawn(command, ["lsp", "--stdio"], { stdio: ["pipe", "pipe", "ignore"] });
    this.running.on("error", (why) => this.over(`${command} can't be started (${why.message}); the setting rohcfn.command names it`));
    this.running.on("exit", (status) => this.over(`the language server ended with status ${status}`));
    this.running.stdin.on("error", () => {});
    const reader = new Reader((message) => this.take(message));
    this.running.stdout.on("data", (octets) => reader.add(octets));
  }

  over(words) {
    if (!this.ended) this.said(words);
    this.ended = true;
    for (const answer of this.asked.values()) answer(null);
    this.asked.clear();
  }

  send(message) {
    if (this.ended) return;
    const body = Buffer.from(JSON.stringify({ jsonrpc: "2.0", ...message }));
    this.running.stdin.write(Buffer.concat([Buffer.from(`Content-Length: ${body.length}\r\n\r\n`), body]));
  }

  tell(method, params) {
    this.send({ method, params });
  }

  ask(method, params) {
    if (this.ended) return Promise.resolve(null);
    const id = ++this.number;
    return new Promise((answer) => {
      this.asked.set(id, answer);
      this.send({ id, method, params });
    });
  }

  take(message) {
    if (message.method === "textDocument/publishDiagnostics") this.shown(message.params);
    else if (message.method === "window/showMessage") this.said(message.params.message);
    else if (this.asked.has(message.id)) {
      this.asked.get(message.id)("result" in message ? message.result : null);
      this.asked.delete(message.id);
    }
  }

  async end() {
    const ended = this.ask("shutdown");
    this.said = () => {};
    await ended;
    this.tell("exit");
  }
}

const rangeOf = (it) => new vscode.Range(it.start.line, it.start.character, it.end.line, it.end.character);
const ofRange = (it) => ({ start: ofPosition(it.start), end: ofPosition(it.end) });
const ofPosition = (it) => ({ line: it.line, character: it.character });
const locationOf = (it) => new vscode.Location(vscode.Uri.parse(it.uri), rangeOf(it.range));
const named = (document) => ({ textDocument: { uri: document.uri.toString() } });
const placed = (document, position) => ({ ...named(document), position: ofPosition(position) });

function diagnosticOf(it) {
  const found = new vscode.Diagnostic(rangeOf(it.range), it.message, SEVERITIES[it.severity]);
  found.source = it.source;
  found.code = it.code;
  found.relatedInformation = (it.relatedInformation || []).map((one) => new vscode.DiagnosticRelatedInformation(locationOf(one.location), one.message));
  return found;
}

function offerOf(it) {
  const found = new vscode.CompletionItem(it.label, vscode.CompletionItemKind[OFFERS[it.kind]]);
  found.detail = it.detail;
  if (it.insertText) found.insertText = new vscode.SnippetString(it.insertText);
  if (it.documentation) found.documentation = new vscode.MarkdownString(it.documentation.value);
  return found;
}

function symbolOf(it) {
  const found = new vscode.DocumentSymbol(it.name, it.detail || "", vscode.SymbolKind[SYMBOLS[it.kind]], rangeOf(it.range), rangeOf(it.selectionRange));
  found.children = (it.children || []).map(symbolOf);
  return found;
}

// What VS Code asks, and how the server is asked it.
function providers(client) {
  const ask = (method, params) => client.ask(`textDocument/${method}`, params);
  return {
    Hover: {
      provideHover: async (document, position) => {
        const it = await ask("hover", placed(document, position));
        return it && new vscode.Hover(new vscode.MarkdownString(it.contents.value), it.range && rangeOf(it.range));
      },
    },
    Definition: {
      provideDefinition: async (document, position) => {
        const it = await ask("definition", placed(document, position));
        return it && locationOf(it);
      },
    },
    Reference: {
      provideReferences: async (document, position, context) =>
        ((await ask("references", { ...placed(document, position), context })) || []).map(locationOf),
    },
    DocumentSymbol: {
      provideDocumentSymbols: async (document) => ((await ask("documentSymbol", named(document))) || []).map(symbolOf),
    },
    FoldingRange: {
      provideFoldingRanges: async (document) =>
        ((await ask("foldingRange", named(document))) || []).map(
          (it) => new vscode.FoldingRange(it.startLine, it.endLine, it.kind === "comment" ? vscode.FoldingRangeKind.Comment : undefined)),
    },
    DocumentFormattingEdit: {
      provideDocumentFormattingEdits: async (document, options) =>
        ((await ask("formatting", { ...named(document), options })) || []).map((it) => new vscode.TextEdit(rangeOf(it.range), it.newText)),
    },
  };
}

let client;

// Begins the session, and hands over what is open, what changes and what is asked.
async function activate(context) {
  const shown = vscode.languages.createDiagnosticCollection(LANGUAGE);
  client = new Client(vscode.workspace.getConfiguration(LANGUAGE).get("command") || "rohcfn",
    (params) => shown.set(vscode.Uri.parse(params.uri), params.diagnostics.map(diagnosticOf)), (words) => vscode.window.showInformationMessage(words));
  const able = { publishDiagnostics: { relatedInformation: true }, documentSymbol: { hierarchicalDocumentSymbolSupport: true }, completion: { completionItem: { snippetSupport: true } } };
  await client.ask("initialize", { processId: process.pid, rootUri: null, capabilities: { textDocument: able } });
  client.tell("initialized", {});

  const isOurs = (document) => document.languageId === LANGUAGE;
  const open = (document) =>
    isOurs(document) && client.tell("textDocument/didOpen", { textDocument: { uri: document.uri.toString(), languageId: LANGUAGE, version: document.version, text: document.getText() } });
  const change = ({ document, contentChanges }) =>
    isOurs(document) && contentChanges.length > 0 && client.tell("textDocument/didChange", {
      textDocument: { uri: document.uri.toString(), version: document.version },
      contentChanges: contentChanges.map((it) => ({ range: ofRange(it.range), text: it.text })),
    });
  vscode.workspace.textDocuments.forEach(open);
  context.subscriptions.push(shown,
    vscode.workspace.onDidOpenTextDocument(open),
    vscode.workspace.onDidChangeTextDocument(change),
    vscode.workspace.onDidSaveTextDocument((document) => isOurs(document) && client.tell("textDocument/didSave", named(document))),
    vscode.workspace.onDidCloseTextDocument((document) => isOurs(document) && client.tell("textDocument/didClose", named(document))),
    ...Object.entries(providers(client)).map(([name, it]) => vscode.languages[`register${name}Provider`]({ language: LANGUAGE }, it)),
    vscode.languages.registerCompletionItemProvider({ language: LANGUAGE }, {
      provideCompletionItems: async (document, position) => {
        const found = await client.ask("textDocument/completion", placed(document, position));
        return found ? found.items.map(offerOf) : [];
      },
    }, ".", "="));
}

const deactivate = () => client && client.end();

module.exports = { activate, deactivate, Reader };
