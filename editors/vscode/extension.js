'use strict';
// pedx in VS Code: what its language server says of files of Fortran, and the steps that ped accepts.
const vscode = require('vscode');
const {Client} = require('./client');

const SUFFIXES = 'f,for,ftn,f77,f90,f95,f03,f08,f18';
const SELECTOR = [{scheme: 'file', pattern: `**/*.{${SUFFIXES},${SUFFIXES.toUpperCase()}}`}];
const EXPORT = 'pedx.omp';

let client = null;
let diagnostics = null;
let lenses = null;
const known = new Set();

const isOurs = document => vscode.languages.match(SELECTOR, document) > 0;
const place = position => ({line: position.line, character: position.character});
const range = one => new vscode.Range(one.start.line, one.start.character, one.end.line, one.end.character);
const named = document => ({uri: document.uri.toString()});

function start() {
  const command = vscode.workspace.getConfiguration('pedx').get('command', ['pedx', 'serve']);
  client = new Client(command, {notice, request: requested, end: ended});
  const capabilities = {workspace: {applyEdit: true, workspaceEdit: {documentChanges: true, resourceOperations: ['create']}}};
  client.ask('initialize', {processId: process.pid, rootUri: null, capabilities})
    .then(() => client.tell('initialized', {}), () => {});
  vscode.workspace.textDocuments.forEach(opened);
}

function ended(words) {
  client = null;
  known.clear();
  diagnostics.clear();
  vscode.window.showErrorMessage(`pedx: ${words}. The setting pedx.command names the server; "pedx: restart" starts it again.`);
}

async function stop() {
  const last = client;
  client = null;
  known.clear();
  diagnostics.clear();
  if (last) await last.stop();
}

// --- What the server tells and asks -------------------------------------------------------------------------------------

function notice(method, params) {
  if (method === 'textDocument/publishDiagnostics') {
    diagnostics.set(vscode.Uri.parse(params.uri), params.diagnostics.map(marked));
    lenses.fire();
  } else if (method === 'window/showMessage') {
    const show = params.type <= 2 ? vscode.window.showWarningMessage : vscode.window.showInformationMessage;
    show(params.message);
  }
}

function marked(one) {
  const made = new vscode.Diagnostic(range(one.range), one.message, one.severity - 1);
  made.source = one.source;
  if (one.code) made.code = one.code;
  return made;
}

async function requested(method, params) {
  if (method !== 'workspace/applyEdit') throw new Error(`no ${method}`);
  const edit = edited(params.edit);
  const applied = await vscode.workspace.applyEdit(edit);
  const created = (params.edit.documentChanges || []).find(one => one.kind === 'create');
  if (applied && created) await vscode.window.showTextDocument(vscode.Uri.parse(created.uri));
  if (!applied && created) vscode.window.showWarningMessage(`pedx: ${created.uri} is there already`);
  return {applied};
}

/** An edit of the protocol as one of VS Code. */
function edited(one) {
  const made = new vscode.WorkspaceEdit();
  for (const [uri, changes] of Object.entries(one.changes || {})) put(made, uri, changes);
  for (const change of one.documentChanges || []) {
    if (change.kind === 'create') made.createFile(vscode.Uri.parse(change.uri), change.options);
    else put(made, change.textDocument.uri, change.edits);
  }
  return made;
}

function put(made, uri, changes) {
  for (const change of changes) made.replace(vscode.Uri.parse(uri), range(change.range), change.newText);
}

// --- Open files ---------------------------------------------------------------------------------------------------------

function opened(document) {
  if (!client || !isOurs(document)) return;
  known.add(document.uri.toString());
  client.tell('textDocument/didOpen', {textDocument: {
    ...named(document), languageId: document.languageId, version: document.version, text: document.getText(),
  }});
}

function changed(event) {
  const document = event.document;
  if (!client || !known.has(document.uri.toString()) || !event.contentChanges.length) return;
  client.tell('textDocument/didChange', {
    textDocument: {...named(document), version: document.version}, contentChanges: [{text: document.getText()}],
  });
}

function closed(document) {
  if (client && known.delete(document.uri.toString())) client.tell('textDocument/didClose', {textDocument: named(document)});
}

// --- What VS Code asks --------------------------------------------------------------------------------------------------

/** The answer to a request about an open file; what an unknown file or a server that is gone answers is nothing. */
async function answer(document, method, params, nothing) {
  if (!client || !known.has(document.uri.toString())) return nothing;
  try {
    return await client.ask(method, {textDocument: named(document), ...params});
  } catch (error) {
    return nothing;
  }
}

const hovers = {
  async provideHover(document, position) {
    const told = await answer(document, 'textDocument/hover', {position: place(position)}, null);
    return told ? new vscode.Hover(new vscode.MarkdownString().appendCodeblock(told.contents.value, 'text')) : null;
  },
};

const verdicts = {
  async provideCodeLenses(document) {
    const found = await answer(document, 'textDocument/codeLens', {}, []);
    return found.map(one => new vscode.CodeLens(range(one.range), {title: one.command.title, command: ''}));
  },
};

const steps = {
  async provideCodeActions(document, where) {
    const found = await answer(document, 'textDocument/codeAction', {
      range: {start: place(where.start), end: place(where.end)}, context: {diagnostics: []},
    }, []);
    return found.map(one => {
      const made = new vscode.CodeAction(one.title, vscode.CodeActionKind.RefactorRewrite);
      made.edit = edited(one.edit);
      return made;
    });
  },
};

async function exported() {
  const editor = vscode.window.activeTextEditor;
  if (!client || !editor || !known.has(editor.document.uri.toString())) {
    vscode.window.showWarningMessage('pedx: no file of Fortran is open here');
    return;
  }
  try {
    await client.ask('workspace/executeCommand', {command: EXPORT, arguments: [editor.document.uri.toString()]});
  } catch (error) {
    vscode.window.showWarningMessage(`pedx: ${error.message}`);
  }
}

function activate(context) {
  diagnostics = vscode.languages.createDiagnosticCollection('pedx');
  lenses = new vscode.EventEmitter();
  verdicts.onDidChangeCodeLenses = lenses.event;
  context.subscriptions.push(
    diagnostics, lenses,
    vscode.workspace.onDidOpenTextDocument(opened),
    vscode.workspace.onDidChangeTextDocument(changed),
    vscode.workspace.onDidCloseTextDocument(closed),
    vscode.languages.registerHoverProvider(SELECTOR, hovers),
    vscode.languages.registerCodeLensProvider(SELECTOR, verdicts),
    vscode.languages.registerCodeActionsProvider(SELECTOR, steps, {providedCodeActionKinds: [vscode.CodeActionKind.RefactorRewrite]}),
    vscode.commands.registerCommand(EXPORT, exported),
    vscode.commands.registerCommand('pedx.restart', async () => { await stop(); start(); }),
  );
  start();
}

module.exports = {activate, deactivate: stop};
