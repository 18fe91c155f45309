'use strict';
// As much of the module `vscode` as editors/vscode uses, over files that are kept in memory.

class Position { constructor(line, character) { Object.assign(this, {line, character}); } }
class Range {
  constructor(a, b, c, d) {
    this.start = a instanceof Position ? a : new Position(a, b);
    this.end = b instanceof Position ? b : new Position(c, d);
  }
}
class Uri {
  constructor(text) { this._text = text; }
  static parse(text) { return new Uri(text); }
  toString() { return this._text; }
}
class Diagnostic { constructor(range, message, severity) { Object.assign(this, {range, message, severity}); } }
class MarkdownString { appendCodeblock(text, language) { this.value = `\`\`\`${language}\n${text}\n\`\`\``; return this; } }
class Hover { constructor(contents) { this.contents = contents; } }
class CodeLens { constructor(range, command) { Object.assign(this, {range, command}); } }
class CodeAction { constructor(title, kind) { Object.assign(this, {title, kind}); } }
class WorkspaceEdit {
  constructor() { this.changes = []; }
  createFile(uri, options) { this.changes.push({create: uri.toString(), options}); }
  replace(uri, range, text) { this.changes.push({uri: uri.toString(), range, text}); }
}
class EventEmitter {
  constructor() { this._all = []; this.event = what => { this._all.push(what); return {dispose() {}}; }; }
  fire(value) { this._all.forEach(what => what(value)); }
  dispose() {}
}

/** A file that is open; positions are units of UTF-16, as VS Code has them. */
class Document {
  constructor(uri, text) { Object.assign(this, {uri: new Uri(uri), languageId: 'fortran', version: 1, _text: text}); }
  getText() { return this._text; }
  _offset(place) {
    const lines = this._text.split('\n').slice(0, place.line);
    return Math.min(lines.reduce((sum, line) => sum + line.length + 1, 0) + place.character, this._text.length);
  }
  replace(range, text) {
    this._text = this._text.slice(0, this._offset(range.start)) + text + this._text.slice(this._offset(range.end));
    this.version += 1;
    changes.fire({document: this, contentChanges: [{text}]});
  }
}

const opens = new EventEmitter(), changes = new EventEmitter(), closes = new EventEmitter();
const said = [], providers = {}, commands = {}, marks = new Map(), created = new Map(), settings = {};

const workspace = {
  textDocuments: [],
  onDidOpenTextDocument: opens.event, onDidChangeTextDocument: changes.event, onDidCloseTextDocument: closes.event,
  getConfiguration: () => ({get: (name, otherwise) => settings[name] || otherwise}),
  async applyEdit(edit) {
    for (const one of edit.changes) {
      if (one.create) {
        if (created.has(one.create)) return false;
        created.set(one.create, new Document(one.create, ''));
      } else {
        (created.get(one.uri) || workspace.textDocuments.find(file => file.uri.toString() === one.uri)).replace(one.range, one.text);
      }
    }
    return true;
  },
};
const window = {
  activeTextEditor: undefined,
  async showTextDocument(uri) { said.push(`shown ${uri}`); },
  async showErrorMessage(words) { said.push(words); },
  async showWarningMessage(words) { said.push(words); },
  async showInformationMessage(words) { said.push(words); },
};
const languages = {
  match: (_, document) => (/\.(f|f90)$/.test(document.uri.toString()) ? 10 : 0),
  createDiagnosticCollection: () => ({
    set: (uri, found) => marks.set(uri.toString(), found), clear: () => marks.clear(), dispose() {},
  }),
};
for (const kind of ['Hover', 'CodeLens', 'CodeActions']) {
  languages[`register${kind}Provider`] = (_, provider) => { providers[kind] = provider; return {dispose() {}}; };
}

function open(uri, text) {
  const document = new Document(uri, text);
  workspace.textDocuments.push(document);
  window.activeTextEditor = {document};
  opens.fire(document);
  return document;
}

module.exports = {
  Position, Range, Uri, Diagnostic, MarkdownString, Hover, CodeLens, CodeAction, WorkspaceEdit, EventEmitter,
  CodeActionKind: {RefactorRewrite: 'refactor.rewrite'}, workspace, window, languages,
  commands: {registerCommand: (name, does) => { commands[name] = does; return {dispose() {}}; }},
  stub: {open, said, providers, commands, marks, created, settings},
};
