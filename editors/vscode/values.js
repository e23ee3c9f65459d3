// Values of the protocol as values of the editor, and back. The protocol counts kinds from 1, the editor from 0.
'use strict';

const vscode = require('vscode');

// A value, a list or nothing, as a list.
const listed = (value) => (value === null || value === undefined ? [] : [value].flat());

// ---- To the server

const fromPosition = ({ line, character }) => ({ line, character });
const fromRange = ({ start, end }) => ({ start: fromPosition(start), end: fromPosition(end) });
const fromText = (text) => ({ textDocument: { uri: text.uri.toString() } });
const fromPlace = (text, position) => ({ ...fromText(text), position: fromPosition(position) });
const fromPart = (text, range) => ({ ...fromText(text), range: fromRange(range) });
const fromMark = ({ range, message, severity, code, source }) => (
  { range: fromRange(range), message, severity: severity + 1, code, source });

// ---- To the editor

const toPosition = ({ line, character }) => new vscode.Position(line, character);
const toRange = ({ start, end }) => new vscode.Range(toPosition(start), toPosition(end));
const toLocation = ({ uri, range }) => new vscode.Location(vscode.Uri.parse(uri), toRange(range));
const toEdit = ({ range, newText }) => new vscode.TextEdit(toRange(range), newText);

function toMark(told) {
  const mark = new vscode.Diagnostic(toRange(told.range), told.message, (told.severity || 1) - 1);
  mark.code = told.code;
  mark.source = told.source;
  mark.tags = told.tags;
  mark.relatedInformation = listed(told.relatedInformation).map(
    ({ location, message }) => new vscode.DiagnosticRelatedInformation(toLocation(location), message));
  return mark;
}

// Markdown, or plain text as it stands.
function toMarkdown(told) {
  const shown = new vscode.MarkdownString();
  if (typeof told === 'string') return shown.appendMarkdown(told);
  if (told.language) return shown.appendCodeblock(told.value, told.language);
  return told.kind === 'markdown' ? shown.appendMarkdown(told.value) : shown.appendCodeblock(told.value, 'plaintext');
}

const toDocumentation = (told) => (told && typeof told === 'object' ? toMarkdown(told) : told);

const toHover = (told) => new vscode.Hover(listed(told.contents).map(toMarkdown), told.range && toRange(told.range));

function toCompletion(told) {
  const item = new vscode.CompletionItem(told.label, told.kind && told.kind - 1);
  item.detail = told.detail;
  item.documentation = toDocumentation(told.documentation);
  item.sortText = told.sortText;
  item.filterText = told.filterText;
  item.insertText = told.insertText;
  if (told.textEdit) {
    item.insertText = told.textEdit.newText;
    item.range = toRange(told.textEdit.range);
  }
  return item;
}

function toSymbol(told) {
  const ranges = [told.range, told.selectionRange].map(toRange);
  const symbol = new vscode.DocumentSymbol(told.name, told.detail || '', told.kind - 1, ...ranges);
  symbol.children = listed(told.children).map(toSymbol);
  return symbol;
}

function toHint(told) {
  const label = typeof told.label === 'string' ? told.label : told.label.map(({ value }) => value).join('');
  const hint = new vscode.InlayHint(toPosition(told.position), label, told.kind);
  hint.paddingLeft = told.paddingLeft;
  hint.paddingRight = told.paddingRight;
  return hint;
}

const toHighlight = ({ range, kind }) => new vscode.DocumentHighlight(toRange(range), (kind || 1) - 1);

const FOLD_KINDS = { comment: 'Comment', imports: 'Imports', region: 'Region' };
const toFold = ({ startLine, endLine, kind }) => (
  new vscode.FoldingRange(startLine, endLine, vscode.FoldingRangeKind[FOLD_KINDS[kind]]));

const toTokens = ({ data }) => new vscode.SemanticTokens(Uint32Array.from(data));

function toSignature(told) {
  const signature = new vscode.SignatureInformation(told.label, toDocumentation(told.documentation));
  signature.activeParameter = told.activeParameter;
  signature.parameters = listed(told.parameters).map(
    ({ label, documentation }) => new vscode.ParameterInformation(label, toDocumentation(documentation)));
  return signature;
}

function toSignatureHelp(told) {
  const help = new vscode.SignatureHelp();
  help.signatures = told.signatures.map(toSignature);
  help.activeSignature = told.activeSignature || 0;
  help.activeParameter = told.activeParameter || 0;
  return help;
}

// The edits of a text, if it is still the one that they are meant for.
function editsOf({ textDocument: { uri, version }, edits }) {
  const text = vscode.workspace.textDocuments.find((one) => one.uri.toString() === vscode.Uri.parse(uri).toString());
  if (typeof version === 'number' && text && text.version !== version) throw new Error('the text has changed meanwhile');
  return [vscode.Uri.parse(uri), edits.map(toEdit)];
}

function toWorkspaceEdit({ changes, documentChanges }) {
  const edit = new vscode.WorkspaceEdit();
  for (const change of documentChanges || []) edit.set(...editsOf(change));
  if (!documentChanges) for (const [uri, edits] of Object.entries(changes || {})) edit.set(vscode.Uri.parse(uri), edits.map(toEdit));
  return edit;
}

function toAction(told) {
  const action = new vscode.CodeAction(told.title, told.kind ? vscode.CodeActionKind.Empty.append(told.kind) : undefined);
  action.edit = told.edit && toWorkspaceEdit(told.edit);
  action.isPreferred = told.isPreferred;
  return action;
}

module.exports = {
  listed, fromPosition, fromRange, fromText, fromPlace, fromPart, fromMark, toPosition, toRange, toLocation, toEdit, toMark, toHover,
  toCompletion, toSymbol, toHint, toHighlight, toFold, toTokens, toSignatureHelp, toWorkspaceEdit, toAction,
};
