// Starts `compass server`, ends it, and starts it again where it ended by itself. What it tells is shown.
'use strict';

const vscode = require('vscode');
const { Connection } = require('./connection');
const { CAPABILITIES, registered } = require('./features');
const { Texts } = require('./texts');
const values = require('./values');

// A server that ended by itself is started again, but not if it did so this often within so many milliseconds.
const MOST_ENDS = 4;
const SPAN = 60_000;
// By custom operations begin in column 11, operands in 18, comments in 30; then each eighth. The editor counts from 0.
const STOPS = [10, 17, 29];

// What the extension has as long as it is active, and the server that runs.
let marks;
let notes;
let running = null;
let ends = [];
let turn = Promise.resolve();

class Running {
  constructor() {
    this.program = vscode.workspace.getConfiguration('compass').get('path') || 'compass';
    this.owned = [];
    // what comes of a server that was told to end is for nobody
    const heard = (take) => (...told) => { if (running === this) take(...told); };
    this.server = new Connection(this.program, {
      notified: heard((method, params) => { if (method === 'textDocument/publishDiagnostics') show(params); }),
      wrote: heard((text) => notes.append(text)),
      ended: heard((error) => this.ended(error)),
    });
  }

  async begin() {
    const params = { processId: process.pid, clientInfo: { name: 'vscode' }, rootUri: null, capabilities: CAPABILITIES };
    const { capabilities } = await this.server.ask('initialize', params);
    if (running !== this) return;
    this.server.notify('initialized', {});
    this.owned = [...registered(this.server, capabilities), new Texts(this.server, capabilities).follow()];
  }

  // Without a server there are no marks, and nothing is asked.
  release() {
    running = null;
    for (const each of this.owned) each.dispose();
    marks.clear();
  }

  // It ended by itself, or was never there.
  ended(error) {
    this.release();
    notes.appendLine(`${this.program}: ${error.message}`);
    if (error.code) tell(unstarted(this.program, error), 'Settings');
    else startAgain(error);
  }
}

function show({ uri, version, diagnostics }) {
  const place = vscode.Uri.parse(uri);
  const text = vscode.workspace.textDocuments.find((one) => one.uri.toString() === place.toString());
  // marks of an older text: those of the text as it is are on their way
  if (text && typeof version === 'number' && version < text.version) return;
  marks.set(place, diagnostics.map(values.toMark));
}

// Why there is no server.
function unstarted(program, { code }) {
  const why = code === 'ENOENT' ? `There is no program ${program}` : `${program} can't be started: ${code}`;
  return `${why}. Put it into your PATH, or set compass.path to it.`;
}

function startAgain({ message }) {
  const now = Date.now();
  ends = [...ends.filter((time) => now - time < SPAN), now];
  if (ends.length < MOST_ENDS) start();
  else tell(`${message}, ${MOST_ENDS} times within a minute. It isn't started again.`, 'Start');
}

async function tell(message, choice) {
  const chosen = await vscode.window.showErrorMessage(`COMPASS: ${message}`, choice);
  if (chosen === 'Settings') vscode.commands.executeCommand('workbench.action.openSettings', 'compass.path');
  if (chosen === 'Start') restart();
}

function start() {
  const one = new Running();
  running = one;
  // a server that ends before it answers is told of by `ended`
  one.begin().catch((error) => { if (running === one) refused(one, error); });
}

// The program that was started isn't a server that we know.
function refused({ program }, error) {
  tell(`${program} refuses to begin: ${error.message}.`, 'Settings');
  stop();
}

async function stop() {
  const last = running;
  if (!last) return;
  last.release();
  await last.server.leave();
}

// One after another: the last one's server stays.
function restart() {
  turn = turn.then(stop).then(() => {
    ends = [];
    start();
  });
  return turn;
}

// Puts blanks up to the next stop.
function tab({ selections }, edit) {
  for (const { active } of selections) {
    const stop = STOPS.find((each) => each > active.character) || active.character + 8 - ((active.character - 29) % 8);
    edit.insert(active, ' '.repeat(stop - active.character));
  }
}

function activate(context) {
  marks = vscode.languages.createDiagnosticCollection('compass');
  notes = vscode.window.createOutputChannel('COMPASS');
  context.subscriptions.push(
    marks,
    notes,
    vscode.commands.registerCommand('compass.restart', restart),
    vscode.commands.registerTextEditorCommand('compass.tab', tab),
    vscode.workspace.onDidChangeConfiguration((event) => { if (event.affectsConfiguration('compass.path')) restart(); }));
  start();
}

module.exports = { activate, deactivate: stop };
