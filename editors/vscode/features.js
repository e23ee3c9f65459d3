// What the editor may ask: a provider for each capability that the server tells. Where it tells none, or refuses, there is no answer.
'use strict';

const vscode = require('vscode');
const values = require('./values');

const { languages } = vscode;
// Sources of files, and new ones. Other texts are none that is edited, as an older state of a file beside its new one.
const SOURCES = ['file', 'untitled'].map((scheme) => ({ language: 'compass', scheme }));

// What `initialize` tells of the editor. Its positions count units of UTF-16.
const CAPABILITIES = {
  general: { positionEncodings: ['utf-16'] },
  workspace: { workspaceEdit: { documentChanges: true } },
  textDocument: {
    synchronization: {},
    publishDiagnostics: { relatedInformation: true, tagSupport: { valueSet: [1, 2] }, versionSupport: true },
    // rows are shown as they stand: a block of Markdown would colour them as lines of a source
    hover: { contentFormat: ['plaintext', 'markdown'] },
    completion: { completionItem: { documentationFormat: ['markdown', 'plaintext'] } },
    definition: {},
    references: {},
    documentHighlight: {},
    documentSymbol: { hierarchicalDocumentSymbolSupport: true },
    inlayHint: {},
    rename: { prepareSupport: true },
    formatting: {},
    rangeFormatting: {},
    foldingRange: { lineFoldingOnly: true },
    signatureHelp: { signatureInformation: { parameterInformation: { labelOffsetSupport: true }, activeParameterSupport: true } },
    codeAction: { codeActionLiteralSupport: { codeActionKind: { valueSet: ['quickfix'] } }, isPreferredSupport: true },
    semanticTokens: {
      requests: { full: true, range: true },
      formats: ['relative'],
      tokenTypes: ['keyword', 'macro', 'parameter', 'variable', 'namespace', 'property', 'number', 'string', 'comment'],
      tokenModifiers: ['definition', 'readonly'],
    },
  },
};

// Asks, and makes a value of the answer; nothing where there is none.
async function asked(server, method, params, make) {
  const told = await server.ask(`textDocument/${method}`, params).catch(() => null);
  return told === null || told === undefined ? undefined : make(told);
}

// The same of an answer that is a list.
const askedList = (server, method, params, make) => asked(server, method, params, (told) => values.listed(told).map(make));

// For each capability what registers a provider, by what the server tells of it.
const PROVIDERS = {
  hoverProvider: (server) => languages.registerHoverProvider(SOURCES, {
    provideHover: (text, place) => asked(server, 'hover', values.fromPlace(text, place), values.toHover),
  }),

  completionProvider: (server, { triggerCharacters = [] }) => languages.registerCompletionItemProvider(SOURCES, {
    provideCompletionItems: (text, place) => asked(server, 'completion', values.fromPlace(text, place),
      (told) => values.listed(told.items || told).map(values.toCompletion)),
  }, ...triggerCharacters),

  definitionProvider: (server) => languages.registerDefinitionProvider(SOURCES, {
    provideDefinition: (text, place) => askedList(server, 'definition', values.fromPlace(text, place), values.toLocation),
  }),

  referencesProvider: (server) => languages.registerReferenceProvider(SOURCES, {
    provideReferences: (text, place, { includeDeclaration }) => askedList(server, 'references',
      { ...values.fromPlace(text, place), context: { includeDeclaration } }, values.toLocation),
  }),

  documentHighlightProvider: (server) => languages.registerDocumentHighlightProvider(SOURCES, {
    provideDocumentHighlights: (text, place) => askedList(server, 'documentHighlight', values.fromPlace(text, place), values.toHighlight),
  }),

  documentSymbolProvider: (server) => languages.registerDocumentSymbolProvider(SOURCES, {
    provideDocumentSymbols: (text) => askedList(server, 'documentSymbol', values.fromText(text), values.toSymbol),
  }),

  inlayHintProvider: (server) => languages.registerInlayHintsProvider(SOURCES, {
    provideInlayHints: (text, range) => askedList(server, 'inlayHint', values.fromPart(text, range), values.toHint),
  }),

  foldingRangeProvider: (server) => languages.registerFoldingRangeProvider(SOURCES, {
    provideFoldingRanges: (text) => askedList(server, 'foldingRange', values.fromText(text), values.toFold),
  }),

  documentFormattingProvider: (server) => languages.registerDocumentFormattingEditProvider(SOURCES, {
    provideDocumentFormattingEdits: (text, options) => askedList(server, 'formatting',
      { ...values.fromText(text), options }, values.toEdit),
  }),

  documentRangeFormattingProvider: (server) => languages.registerDocumentRangeFormattingEditProvider(SOURCES, {
    provideDocumentRangeFormattingEdits: (text, range, options) => askedList(server, 'rangeFormatting',
      { ...values.fromPart(text, range), options }, values.toEdit),
  }),

  signatureHelpProvider: (server, { triggerCharacters = [], retriggerCharacters = [] }) => languages.registerSignatureHelpProvider(
    SOURCES,
    { provideSignatureHelp: (text, place) => asked(server, 'signatureHelp', values.fromPlace(text, place), values.toSignatureHelp) },
    { triggerCharacters, retriggerCharacters }),

  codeActionProvider: (server) => languages.registerCodeActionsProvider(SOURCES, {
    provideCodeActions: (text, range, { diagnostics }) => askedList(server, 'codeAction',
      { ...values.fromPart(text, range), context: { diagnostics: diagnostics.map(values.fromMark) } }, values.toAction),
  }),

  semanticTokensProvider: (server, { legend, full, range }) => {
    const names = new vscode.SemanticTokensLegend(legend.tokenTypes, legend.tokenModifiers);
    const whole = {
      provideDocumentSemanticTokens: (text) => asked(server, 'semanticTokens/full', values.fromText(text), values.toTokens),
    };
    const part = {
      provideDocumentRangeSemanticTokens: (text, its) => asked(server, 'semanticTokens/range', values.fromPart(text, its), values.toTokens),
    };
    return vscode.Disposable.from(
      ...(full ? [languages.registerDocumentSemanticTokensProvider(SOURCES, whole, names)] : []),
      ...(range ? [languages.registerDocumentRangeSemanticTokensProvider(SOURCES, part, names)] : []));
  },

  // Here a refusal is shown: the editor says why nothing is renamed.
  renameProvider: (server, { prepareProvider }) => languages.registerRenameProvider(SOURCES, {
    provideRenameEdits: async (text, place, newName) => values.toWorkspaceEdit(
      await server.ask('textDocument/rename', { ...values.fromPlace(text, place), newName })),
    ...(prepareProvider ? { prepareRename: (text, place) => prepared(server, text, place) } : {}),
  }),
};

async function prepared(server, text, place) {
  const told = await server.ask('textDocument/prepareRename', values.fromPlace(text, place));
  if (!told) throw new Error('no name stands here');
  return told.range ? { range: values.toRange(told.range), placeholder: told.placeholder } : values.toRange(told);
}

// Registers what the server can do.
function registered(server, capabilities) {
  return Object.entries(PROVIDERS).filter(([name]) => capabilities[name]).map(([name, register]) => register(server, capabilities[name]));
}

module.exports = { CAPABILITIES, SOURCES, registered };
