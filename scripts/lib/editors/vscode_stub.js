// A model of VS Code for an extension that it runs: so much of the module `vscode` as the extension of `editors` needs, with the checks
// that the editor makes.
//
//   node vscode_stub.js FOLDER PROGRAM
//
// FOLDER is the extension, PROGRAM the setting compass.path. Each line of the input is an order in JSON, {"do": NAME, ..}; each is
// answered by a line, {"result": ..} or {"error": ..}. What the extension starts is counted as well.
'use strict';

const childProcess = require('child_process');
const fs = require('fs');
const Module = require('module');
const path = require('path');
const readline = require('readline');

const [folder, program] = process.argv.slice(2).map((each) => path.resolve(each));
const manifest = JSON.parse(fs.readFileSync(path.join(folder, 'package.json'), 'utf8'));
const settings = { compass: { path: program } };

// ---- Values, as the editor makes them

function must(isSo, told) {
  if (!isSo) throw new Error(told);
}

class Position {
  constructor(line, character) {
    must(line >= 0 && character >= 0, 'a position below 0');
    Object.assign(this, { line, character });
  }

  isBehind(other) {
    return this.line > other.line || (this.line === other.line && this.character > other.character);
  }
}

class Range {
  constructor(...given) {
    const [a, b] = given.length === 4 ? [new Position(given[0], given[1]), new Position(given[2], given[3])] : given;
    must(a instanceof Position && b instanceof Position, 'a range of what is no position');
    [this.start, this.end] = a.isBehind(b) ? [b, a] : [a, b];
  }

  contains(other) {
    return !this.start.isBehind(other.start) && !other.end.isBehind(this.end);
  }
}

class Uri {
  static parse(text) {
    must(/^[a-z-]+:/.test(text), `no URI: ${text}`);
    return Object.assign(new Uri(), { text, scheme: text.split(':')[0] });
  }

  toString() { return this.text; }

  toJSON() { return this.text; }
}

class Disposable {
  constructor(end) { this.end = end; }

  static from(...all) { return new Disposable(() => all.forEach((each) => each.dispose())); }

  dispose() { this.end(); }
}

class MarkdownString {
  constructor() { this.value = ''; }

  appendMarkdown(text) {
    this.value += text;
    return this;
  }

  appendCodeblock(text, language = '') {
    return this.appendMarkdown(`\n\`\`\`${language}\n${text}\n\`\`\`\n`);
  }
}

class DocumentSymbol {
  constructor(name, detail, kind, range, selectionRange) {
    must(name && range.contains(selectionRange), `a symbol without a name, or its place isn't in its range: ${name}`);
    Object.assign(this, { name, detail, kind, range, selectionRange, children: [] });
  }
}

class WorkspaceEdit {
  constructor() { this.files = {}; }

  set(uri, edits) {
    must(uri instanceof Uri && edits.every((each) => each instanceof plain.TextEdit), 'edits of no text');
    this.files[uri] = edits;
  }
}

class Kind {
  constructor(value) { this.value = value; }

  append(part) { return new Kind(this.value ? `${this.value}.${part}` : part); }
}

// Classes that keep what they are given, by these names; `ranges` must be ranges.
const made = (...names) => class {
  constructor(...given) {
    names.forEach((name, place) => {
      must(name !== 'range' || given[place] === undefined || given[place] instanceof Range, 'what is no range');
      must(name !== 'location' || given[place] instanceof plain.Location, 'what is no location');
      this[name] = given[place];
    });
  }
};
const plain = {
  Location: made('uri', 'range'),
  TextEdit: made('range', 'newText'),
  Diagnostic: made('range', 'message', 'severity'),
  DiagnosticRelatedInformation: made('location', 'message'),
  Hover: made('contents', 'range'),
  CompletionItem: made('label', 'kind'),
  InlayHint: made('position', 'label', 'kind'),
  DocumentHighlight: made('range', 'kind'),
  FoldingRange: made('start', 'end', 'kind'),
  SemanticTokens: made('data'),
  SemanticTokensLegend: made('tokenTypes', 'tokenModifiers'),
  SignatureHelp: made(),
  SignatureInformation: made('label', 'documentation'),
  ParameterInformation: made('label', 'documentation'),
  CodeAction: made('title', 'kind'),
};

// ---- Texts

const texts = new Map();

class Text {
  constructor(uri, languageId, text) {
    Object.assign(this, { uri: Uri.parse(uri), languageId, version: 1, text });
  }

  getText() { return this.text; }

  // How many characters stand before a position, which is put into the text where it lies behind a line.
  before({ line, character }) {
    const lines = this.text.split('\n');
    if (line >= lines.length) return this.text.length;
    return lines.slice(0, line).reduce((sum, each) => sum + each.length + 1, 0) + Math.min(character, lines[line].length);
  }

  // Changes of one moment are told from the last to the first.
  change(changes) {
    const told = changes.map(({ range, text }) => ({ range: new Range(...range), text }))
      .sort((a, b) => (a.range.start.isBehind(b.range.start) ? -1 : 1));
    for (const { range, text } of told) {
      this.text = this.text.slice(0, this.before(range.start)) + text + this.text.slice(this.before(range.end));
    }
    this.version += 1;
    fire('change', { document: this, contentChanges: told });
  }
}

// ---- The module

const listeners = { open: new Set(), change: new Set(), close: new Set(), configuration: new Set() };
const providers = new Map();
const commands = new Map();
const shown = [];
let choice;
let marks = null;

function fire(name, event) {
  [...listeners[name]].forEach((each) => each(event));
}

const listener = (name) => (take) => {
  listeners[name].add(take);
  return new Disposable(() => listeners[name].delete(take));
};

const provider = (name) => (selector, each, ...more) => {
  must(!providers.has(name), `${name} is registered already`);
  providers.set(name, { selector, each, more });
  return new Disposable(() => providers.delete(name));
};

const command = (name, run) => {
  must(manifest.contributes.commands.some((each) => each.command === name), `package.json has no ${name}`);
  commands.set(name, run);
  return new Disposable(() => commands.delete(name));
};

// What can't be used once it is gone.
class Once {
  constructor() { this.isThere = true; }

  check() { must(this.isThere, 'it is disposed'); }

  dispose() { this.isThere = false; }
}

class Marks extends Once {
  constructor() {
    super();
    this.all = new Map();
  }

  set(uri, each) {
    this.check();
    must(uri instanceof Uri && each.every((one) => one instanceof plain.Diagnostic), 'marks of no text');
    this.all.set(uri.toString(), each);
  }

  clear() {
    this.check();
    this.all.clear();
  }
}

class Channel extends Once {
  append() { this.check(); }

  appendLine() { this.check(); }
}

const fits = ({ language, scheme }, text) => text.languageId === language && text.uri.scheme === scheme;
const languages = {
  match: (selectors, text) => (selectors.some((each) => fits(each, text)) ? 10 : 0),
  createDiagnosticCollection: () => { marks = new Marks(); return marks; },
};
for (const name of [
  'Hover', 'CompletionItem', 'Definition', 'Reference', 'DocumentHighlight', 'DocumentSymbol', 'InlayHints', 'FoldingRange', 'Rename',
  'DocumentFormattingEdit', 'DocumentRangeFormattingEdit', 'SignatureHelp', 'CodeActions', 'DocumentSemanticTokens',
  'DocumentRangeSemanticTokens',
]) languages[`register${name}Provider`] = provider(name);

const vscode = {
  ...plain, Position, Range, Uri, Disposable, MarkdownString, DocumentSymbol, WorkspaceEdit, languages,
  CodeActionKind: { Empty: new Kind('') },
  FoldingRangeKind: { Comment: 1, Imports: 2, Region: 3 },
  window: {
    createOutputChannel: () => new Channel(),
    showErrorMessage: async (message) => { shown.push(message); return choice; },
  },
  workspace: {
    get textDocuments() { return [...texts.values()]; },
    getConfiguration: (section) => ({ get: (name) => settings[section][name] }),
    onDidOpenTextDocument: listener('open'),
    onDidChangeTextDocument: listener('change'),
    onDidCloseTextDocument: listener('close'),
    onDidChangeConfiguration: listener('configuration'),
  },
  commands: {
    registerCommand: command,
    registerTextEditorCommand: command,
    executeCommand: async (name) => { shown.push(name); },
  },
};
const load = Module._load;
Module._load = (name, ...rest) => (name === 'vscode' ? vscode : load(name, ...rest));

// What the extension starts, and how it ended.
const started = [];
const { spawn } = childProcess;
childProcess.spawn = (...given) => {
  const child = spawn(...given);
  const each = { pid: child.pid, words: given[1], ended: null };
  started.push(each);
  child.on('exit', (status, signal) => { each.ended = signal || status; });
  return child;
};

// ---- Orders

const extension = require(path.join(folder, manifest.main));
const context = { subscriptions: [] };

// An argument of a provider: a text by its URI, a position or a range by its numbers, else itself.
function argument(given) {
  if (texts.has(given)) return texts.get(given);
  if (!Array.isArray(given)) return given;
  return given.length === 2 ? new Position(...given) : new Range(...given);
}

const orders = {
  activate: () => extension.activate(context),
  // the editor takes the extension's things away at once, and waits for the end
  deactivate: async () => {
    const end = extension.deactivate();
    context.subscriptions.forEach((each) => each.dispose());
    await end;
  },
  open: ({ uri, text, language = 'compass' }) => {
    texts.set(uri, new Text(uri, language, text));
    fire('open', texts.get(uri));
  },
  change: ({ uri, changes }) => texts.get(uri).change(changes),
  text: ({ uri }) => texts.get(uri).text,
  close: ({ uri }) => {
    const text = texts.get(uri);
    texts.delete(uri);
    fire('close', text);
  },
  marks: ({ uri }) => marks.all.get(uri) || [],
  providers: () => [...providers].map(([name, { more }]) => [name, more]),
  ask: ({ provider: name, method, given }) => providers.get(name).each[method](...given.map(argument)),
  command: ({ name, given = [] }) => commands.get(name)(...given),
  // the places where a command for a text puts what
  typed: ({ name, at }) => {
    const found = [];
    commands.get(name)({ selections: at.map((each) => ({ active: new Position(...each) })) }, {
      insert: ({ line, character }, text) => found.push([line, character, text]),
    });
    return found;
  },
  configure: ({ path: value }) => {
    settings.compass.path = value;
    fire('configuration', { affectsConfiguration: (name) => name === 'compass.path' });
  },
  choose: ({ choice: value }) => { choice = value; },
  shown: () => shown,
  forget: () => { shown.length = 0; },
  started: () => started,
};

// An order that isn't done by then is told to be none.
const MOST_WAIT = 10_000;
const late = () => new Promise((_, reject) => { setTimeout(() => reject(new Error('there is no answer')), MOST_WAIT).unref(); });

process.on('unhandledRejection', (error) => shown.push(`unhandled: ${error.stack}`));
process.on('uncaughtException', (error) => shown.push(`uncaught: ${error.stack}`));
readline.createInterface({ input: process.stdin }).on('line', async (line) => {
  const order = JSON.parse(line);
  let answer;
  try {
    answer = { result: (await Promise.race([orders[order.do](order), late()])) ?? null };
  } catch (error) {
    answer = { error: error.message };
  }
  process.stdout.write(`${JSON.stringify(answer)}\n`);
}).on('close', () => process.exit());
