'use strict';
// Plays a user of editors/vscode over a real server, and prints what the user sees, as JSON.
//     node drive.js FOLDER-OF-THE-EXTENSION COMMAND-AS-JSON TEXT
const Module = require('module');
const vscode = require('./stub.js');
const [folder, command, text] = process.argv.slice(2);

const load = Module._load;
Module._load = (name, ...rest) => (name === 'vscode' ? vscode : load(name, ...rest));
const {activate, deactivate} = require(`${folder}/extension.js`);
const {stub} = vscode;
const URI = 'file:///p.f';

/** Waits until something is so; a server may take its time. */
async function until(is) {
  const end = Date.now() + 60000;
  while (!is()) {
    if (Date.now() > end) throw new Error(`${is} didn't come`);
    await new Promise(done => setTimeout(done, 10));
  }
}

async function play() {
  stub.settings.command = JSON.parse(command);
  activate({subscriptions: []});
  let fired = 0;
  stub.providers.CodeLens.onDidChangeCodeLenses(() => { fired += 1; });
  const document = stub.open(URI, text);
  const told = {};
  await until(() => stub.marks.has(URI));
  told.before = stub.marks.get(URI).length;
  told.lenses = (await stub.providers.CodeLens.provideCodeLenses(document)).map(one => `${one.range.start.line}: ${one.command.title}`);
  told.hover = (await stub.providers.Hover.provideHover(document, new vscode.Position(2, 14))).contents.value;
  told.nothing = await stub.providers.Hover.provideHover(document, new vscode.Position(0, 0));
  const at = new vscode.Range(4, 8, 4, 8);
  const actions = await stub.providers.CodeActions.provideCodeActions(document, at);
  told.actions = actions.map(one => one.title);
  await vscode.workspace.applyEdit(actions.find(one => one.title === 'ped: privatise 3 K').edit);
  told.text = document.getText();
  await stub.commands['pedx.omp']();
  await stub.commands['pedx.omp']();
  told.created = Object.fromEntries([...stub.created].map(([uri, one]) => [uri, one.getText()]));
  document.replace(new vscode.Range(1, 0, 2, 0), '      DO I = (2, 10\n');
  await until(() => stub.marks.get(URI).length > 0);
  told.after = stub.marks.get(URI).map(one => [one.code, one.severity, one.range.start.line, one.source]);
  told.fired = fired > 1;
  stub.settings.command = ['/nowhere/pedx'];
  await stub.commands['pedx.restart']();
  await until(() => stub.said.some(words => words.includes('/nowhere/pedx')));
  told.said = stub.said;
  told.gone = await stub.providers.CodeLens.provideCodeLenses(document);
  await deactivate();
  console.log(JSON.stringify(told));
}

play().catch(error => { console.error(error); process.exit(1); });
