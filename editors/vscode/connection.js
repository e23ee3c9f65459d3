// A `compass server` that runs: the messages to it and from it, by the Language Server Protocol over its input and output.
'use strict';

const { spawn } = require('child_process');

const HEAD_END = '\r\n\r\n';
const LENGTH = /^content-length: *(\d+) *$/im;
// The protocol's number for a request that the other side doesn't know.
const UNKNOWN_METHOD = -32601;
// How long a server that is told to end may take for it, in milliseconds.
const MOST_WAIT = 1000;

class Connection {
  // Starts the program. `heard` is told what comes: `notified(method, params)`; `wrote(text)`, which is no message; and, once, why
  // nothing comes any more: `ended(error)`.
  constructor(program, heard) {
    this.heard = heard;
    this.answers = new Map();
    this.lastId = 0;
    this.input = Buffer.alloc(0);
    this.isOpen = true;
    this.gone = new Promise((resolve) => { this.isGone = resolve; });
    this.child = spawn(program, ['server'], { windowsHide: true });
    this.child.on('error', (error) => this.close(error));
    this.child.on('close', (status, signal) => this.close(new Error(`the server ended by ${signal || `status ${status}`}`)));
    // `close` tells of a server that reads no more
    this.child.stdin.on('error', () => {});
    this.child.stderr.on('data', (bytes) => heard.wrote(bytes.toString()));
    this.child.stdout.on('data', (bytes) => this.read(bytes));
  }

  // Tells the server something.
  notify(method, params) {
    this.send({ method, params });
  }

  // Asks the server. The promise is broken where it refuses, or ends before it answers.
  ask(method, params) {
    if (!this.isOpen) return Promise.reject(new Error('there is no server'));
    this.lastId += 1;
    const id = this.lastId;
    return new Promise((resolve, reject) => {
      this.answers.set(id, { resolve, reject });
      this.send({ id, method, params });
    });
  }

  // Ends the server: it is told to, and killed where it stays.
  async leave() {
    if (!this.isOpen) return;
    const timer = setTimeout(() => this.child.kill(), MOST_WAIT);
    this.ask('shutdown').catch(() => {});
    this.notify('exit');
    await this.gone;
    clearTimeout(timer);
  }

  // ---- What comes and goes

  send(message) {
    if (!this.isOpen) return;
    const body = Buffer.from(JSON.stringify({ jsonrpc: '2.0', ...message }));
    this.child.stdin.write(Buffer.concat([Buffer.from(`Content-Length: ${body.length}${HEAD_END}`), body]));
  }

  read(bytes) {
    this.input = Buffer.concat([this.input, bytes]);
    try {
      for (let message = this.next(); message; message = this.next()) this.take(message);
    } catch (error) {
      this.close(error);
      this.child.kill();
    }
  }

  // Takes the next message out of the input; null where it hasn't come whole.
  next() {
    const head = this.input.indexOf(HEAD_END);
    if (head < 0) return null;
    const length = LENGTH.exec(this.input.toString('latin1', 0, head));
    if (!length) throw new Error('the server writes what is no message');
    const start = head + HEAD_END.length;
    const end = start + Number(length[1]);
    if (this.input.length < end) return null;
    const message = JSON.parse(this.input.toString('utf8', start, end));
    this.input = this.input.subarray(end);
    return message;
  }

  take(message) {
    if (!message.method) this.settle(message);
    else if (message.id === undefined) this.heard.notified(message.method, message.params);
    else this.send({ id: message.id, error: { code: UNKNOWN_METHOD, message: 'unknown method' } });
  }

  settle({ id, result, error }) {
    const answer = this.answers.get(id);
    this.answers.delete(id);
    if (!answer) return;
    if (error) answer.reject(new Error(error.message));
    else answer.resolve(result);
  }

  // Nothing comes any more.
  close(error) {
    if (!this.isOpen) return;
    this.isOpen = false;
    for (const { reject } of this.answers.values()) reject(error);
    this.answers.clear();
    this.isGone();
    this.heard.ended(error);
  }
}

module.exports = { Connection };
