'use strict';
// A client of a language server over standard input and output: JSON-RPC 2.0 messages, each behind a header with its length.
// It knows nothing of VS Code.
const {spawn} = require('child_process');

class Client {
  /**
   * Starts a server. `command` is a list of words. `on.notice(method, params)` takes what the server tells,
   * `on.request(method, params)` answers what it asks, and `on.end(words)` is called once when it is gone.
   */
  constructor(command, on) {
    this._on = on;
    this._waiting = new Map();
    this._number = 0;
    this._rest = Buffer.alloc(0);
    this._isOver = false;
    this._process = spawn(command[0], command.slice(1), {stdio: ['pipe', 'pipe', 'ignore']});
    this._process.on('error', error => this._end(`${command[0]} can't be started: ${error.message}`));
    this._process.on('exit', (status, signal) => this._end(`${command[0]} has ended (${signal || `status ${status}`})`));
    this._process.stdin.on('error', () => {});
    this._process.stdout.on('data', part => this._take(part));
  }

  /** The answer to a request, as a promise. */
  ask(method, params) {
    if (this._isOver) return Promise.reject(new Error('the server is gone'));
    const id = ++this._number;
    return new Promise((done, failed) => {
      this._waiting.set(id, {done, failed});
      this._send({id, method, params});
    });
  }

  /** Tells the server something. */
  tell(method, params) {
    if (!this._isOver) this._send({method, params});
  }

  /** Has the server end. */
  async stop() {
    if (this._isOver) return;
    this._on = {...this._on, end: () => {}};
    await this.ask('shutdown').catch(() => {});
    this.tell('exit');
    this._process.stdin.end();
  }

  _send(message) {
    const body = Buffer.from(JSON.stringify({jsonrpc: '2.0', ...message}));
    this._process.stdin.write(`Content-Length: ${body.length}\r\n\r\n`);
    this._process.stdin.write(body);
  }

  _take(part) {
    this._rest = Buffer.concat([this._rest, part]);
    for (;;) {
      const end = this._rest.indexOf('\r\n\r\n');
      if (end < 0) return;
      const length = /content-length: *(\d+)/i.exec(this._rest.toString('latin1', 0, end));
      if (!length) {
        this._process.kill();
        return;
      }
      const last = end + 4 + Number(length[1]);
      if (this._rest.length < last) return;
      const message = JSON.parse(this._rest.toString('utf8', end + 4, last));
      this._rest = this._rest.subarray(last);
      this._handle(message);
    }
  }

  _handle(message) {
    if (message.method === undefined) {
      const one = this._waiting.get(message.id);
      this._waiting.delete(message.id);
      if (!one) return;
      if (message.error) one.failed(new Error(message.error.message));
      else one.done(message.result);
    } else if (message.id === undefined) {
      this._on.notice(message.method, message.params);
    } else {
      Promise.resolve(this._on.request(message.method, message.params)).then(
        result => this._send({id: message.id, result: result === undefined ? null : result}),
        error => this._send({id: message.id, error: {code: -32603, message: String(error)}}));
    }
  }

  _end(words) {
    if (this._isOver) return;
    this._isOver = true;
    for (const one of this._waiting.values()) one.failed(new Error(words));
    this._waiting.clear();
    this._on.end(words);
  }
}

module.exports = {Client};
