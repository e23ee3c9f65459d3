// The texts that are open: the server is sent each, and each change.
'use strict';

const vscode = require('vscode');
const { SOURCES } = require('./features');
const values = require('./values');

// The protocol's number for a server that wants the whole text with each change; another one takes the ranges that change.
const FULL = 1;

const partOf = ({ range, text }) => ({ range: values.fromRange(range), text });

class Texts {
  constructor(server, { textDocumentSync }) {
    this.server = server;
    this.kind = textDocumentSync?.change ?? textDocumentSync;
    this.open = new Set();
  }

  // Sends all that is open, and what comes.
  follow() {
    vscode.workspace.textDocuments.forEach((text) => this.opened(text));
    return vscode.Disposable.from(
      vscode.workspace.onDidOpenTextDocument((text) => this.opened(text)),
      vscode.workspace.onDidChangeTextDocument((event) => this.changed(event)),
      vscode.workspace.onDidCloseTextDocument((text) => this.closed(text)));
  }

  opened(text) {
    const uri = text.uri.toString();
    if (!vscode.languages.match(SOURCES, text) || this.open.has(uri)) return;
    this.open.add(uri);
    const { languageId, version } = text;
    this.server.notify('textDocument/didOpen', { textDocument: { uri, languageId, version, text: text.getText() } });
  }

  // The editor's changes are in the order from the last place to the first, so each one's range holds when those before it are made.
  changed({ document, contentChanges }) {
    const uri = document.uri.toString();
    if (!this.open.has(uri) || contentChanges.length === 0) return;
    const changes = this.kind === FULL ? [{ text: document.getText() }] : contentChanges.map(partOf);
    this.server.notify('textDocument/didChange', { textDocument: { uri, version: document.version }, contentChanges: changes });
  }

  closed(text) {
    if (this.open.delete(text.uri.toString())) this.server.notify('textDocument/didClose', values.fromText(text));
  }
}

module.exports = { Texts };
