// Reads editors/vscode as Visual Studio Code would, over a small substitute for its module `vscode`. It is called as
// `node vscode.js`, with $RPP_TOP the repository and $RPP_FOLDER a folder to write in. It writes a line `ok NAME` or
// `FAILED NAME: why` for each trial into `said`.
'use strict';
const assert = require('assert');
const fs = require('fs');
const path = require('path');
const Module = require('module');

const top = process.env.RPP_TOP;
const home = path.join(top, 'editors', 'vscode');
const said = [];
const events = {};
const provided = {};
const told = new Map();

class Position { constructor(line, character) { Object.assign(this, { line, character }); } }
class Range { constructor(start, end) { Object.assign(this, { start, end }); } }
class Kept { constructor(...given) { this.given = given; } }
const kept = () => class extends Kept {};
const event = name => heard => { events[name] = heard; return { dispose() {} }; };
const register = name => (first, provider) => { provided[name] = provider || first; return { dispose() {} }; };
const shown = [];
const languages = new Proxy({}, { get: (_, name) => name === 'createDiagnosticCollection'
  ? () => ({ set: (uri, all) => told.set(uri.text, all), delete: uri => told.delete(uri.text), clear: () => told.clear(), dispose() {} })
  : register(name) });
const vscode = {
  Position, Range, languages,
  Uri: { parse: text => ({ text, toString: () => text }) },
  TextEdit: { replace: (range, newText) => ({ range, newText }) },
  WorkspaceEdit: class { set(uri, edits) { this.uri = uri.text; this.edits = edits; } },
  DocumentSymbol: class { constructor(name, detail, kind) { Object.assign(this, { name, detail, kind }); } },
  CompletionItem: class { constructor(label, kind) { Object.assign(this, { label, kind }); } },
  Diagnostic: class { constructor(range, message, severity) { Object.assign(this, { range, message, severity }); } },
  Location: kept(), SnippetString: kept(), Hover: kept(), MarkdownString: kept(), FoldingRange: kept(), DocumentHighlight: kept(),
  CodeLens: kept(), SymbolInformation: kept(), SemanticTokens: kept(), SemanticTokensLegend: kept(), SignatureHelp: kept(),
  SignatureInformation: kept(), ParameterInformation: kept(), CodeAction: kept(), CodeActionKind: { QuickFix: 'quickfix' },
  DebugAdapterExecutable: kept(), FoldingRangeKind: { Comment: 1 },
  window: { createOutputChannel: () => ({ appendLine: it => shown.push(it), show() {}, dispose() {} }),
    showErrorMessage: it => said.push(`FAILED message: ${it}`), showWarningMessage: it => said.push(`FAILED message: ${it}`) },
  commands: { registerCommand: (name, action) => { provided[name] = action; return { dispose() {} }; } },
  debug: {
    registerDebugAdapterDescriptorFactory: register('descriptor'),
    registerDebugConfigurationProvider: register('configuration'),
  },
  workspace: {
    textDocuments: [],
    getConfiguration: () => ({ get: () => path.join(top, 'rpp') }),
    onDidOpenTextDocument: event('open'), onDidChangeTextDocument: event('change'), onDidCloseTextDocument: event('close'),
    onDidChangeConfiguration: event('configuration'),
  },
};
const load = Module._load;
Module._load = (name, ...rest) => name === 'vscode' ? vscode : load(name, ...rest);

const text = (name, version, content) => ({ languageId: 'rpp', version, uri: vscode.Uri.parse(`file:///${name}`), getText: () => content });
const until = async holds => {
  for (let left = 1200; left && !holds(); left--) await new Promise(done => setTimeout(done, 50));
  return holds();
};
const attempt = async (name, action) => {
  try {
    await action();
    said.push(`ok ${name}`);
  } catch (error) {
    said.push(`FAILED ${name}: ${error.message.replace(/\n/g, ' ')}`);
  }
};
const wrong = 'class P\n  int x\nmethod main()\n  x += 1\n  x += x\n';

async function manifest() {
  const it = JSON.parse(fs.readFileSync(path.join(home, 'package.json')));
  const files = [it.main, ...it.contributes.languages.map(l => l.configuration).filter(Boolean), ...it.contributes.grammars.map(g => g.path)];
  files.forEach(file => assert(fs.existsSync(path.join(home, file)), file));
  const grammar = JSON.parse(fs.readFileSync(path.join(home, 'pisa.tmLanguage.json')));
  const first = line => grammar.patterns.map(p => [new RegExp(p.match).exec(line), p]).filter(([m]) => m).sort((a, b) => a[0].index - b[0].index)[0];
  const [match, rule] = first('NAME 40 ADD');
  assert.deepStrictEqual([...match].slice(1), ['NAME', '40', 'ADD']);
  assert.strictEqual(rule.captures['3'].name, 'variable.other.pisa');
  assert.strictEqual(first('MARK 1 4 28')[1].name, 'storage.type.pisa');
}

async function diagnostics() {
  events.open(text('a.rpp', 1, wrong));
  assert(await until(() => told.has('file:///a.rpp')), 'no message came');
  const [it] = told.get('file:///a.rpp');
  assert.deepStrictEqual([it.range.start.line, it.range.start.character, it.severity, it.code.value], [4, 2, 0, 16]);
  events.change({ document: text('a.rpp', 2, wrong.replace('x += x', 'x  += 2')) });
  assert(await until(() => told.get('file:///a.rpp').length === 0), 'the change was not checked');
}

async function answers() {
  const document = text('a.rpp', 2, ''), place = new Position(3, 2);
  const [location] = await provided.registerDefinitionProvider.provideDefinition(document, place);
  assert.deepStrictEqual(location.given[1].start, new Position(1, 6));
  const hover = await provided.registerHoverProvider.provideHover(document, place);
  assert.match(hover.given[0].given[0], /field of class `P`/);
  assert.strictEqual((await provided.registerReferenceProvider.provideReferences(document, place, { includeDeclaration: true })).length, 3);
  const [symbol] = await provided.registerDocumentSymbolProvider.provideDocumentSymbols(document);
  assert.deepStrictEqual([symbol.name, symbol.kind, symbol.children.map(it => it.name)], ['P', 4, ['x', 'main']]);
  const items = await provided.registerCompletionItemProvider.provideCompletionItems(document, place);
  assert(items.some(it => it.label === 'from' && it.insertText));
  assert.strictEqual((await provided.registerFoldingRangeProvider.provideFoldingRanges(document)).length, 2);
  const edits = await provided.registerDocumentFormattingEditProvider.provideDocumentFormattingEdits(document, {});
  assert.deepStrictEqual(edits.map(it => it.newText), ['\n\n', ' ']);
}

async function more() {
  const content = 'class P\n  int x\nmethod main()\n  local int v = 5\n  call f(v)\n  x = v\n  delocal int v = 6\nmethod f(int n)\n  n += 1\n';
  const place = new Position(4, 9);
  const document = text('c.rpp', 1, content);
  events.open(document);
  assert(await until(() => told.has('file:///c.rpp')), 'no message came');
  const help = await provided.registerSignatureHelpProvider.provideSignatureHelp(document, place);
  assert.strictEqual(help.signatures[0].given[0], 'f(int n)');
  const tokens = await provided.registerDocumentSemanticTokensProvider.provideDocumentSemanticTokens(document);
  assert.deepStrictEqual([...tokens.given[0]].slice(0, 5), [0, 6, 1, 0, 1]);
  const diagnostics = told.get('file:///c.rpp');
  const [action] = await provided.registerCodeActionsProvider.provideCodeActions(document, new Range(place, place), { diagnostics });
  assert.deepStrictEqual([action.given[0], action.edit.edits[0].newText], ['Write `+=`', '+=']);
  const [symbol] = await provided.registerWorkspaceSymbolProvider.provideWorkspaceSymbols('mai');
  assert.strictEqual(symbol.given[0], 'main');
  const lenses = await provided.registerCodeLensProvider.provideCodeLenses(document);
  events.change({ document: text('c.rpp', 2, content.replace('x = v', 'x += v')) });
  await provided[lenses[0].given[1].command](...lenses[0].given[1].arguments);
  assert.match(shown.join(''), /^x = 6\nlive 0/);
}

async function renaming() {
  const document = text('a.rpp', 2, ''), place = new Position(3, 2), { prepareRename, provideRenameEdits } = provided.registerRenameProvider;
  assert.strictEqual((await prepareRename(document, place)).placeholder, 'x');
  await assert.rejects(prepareRename(document, new Position(3, 4)));
  assert.strictEqual((await provideRenameEdits(document, place, 'total')).edits.length, 3);
  await assert.rejects(provideRenameEdits(document, place, 'class'), /must be a name/);
}

async function debugging() {
  const { platform } = process, adapter = () => provided.descriptor.createDebugAdapterDescriptor().given;
  assert.deepStrictEqual(adapter(), [path.join(top, 'rpp'), ['dap']]);
  Object.defineProperty(process, 'platform', { value: 'win32' });
  assert.deepStrictEqual(adapter(), ['cmd.exe', ['/d', '/c', path.join(top, 'rpp'), 'dap']]);
  Object.defineProperty(process, 'platform', { value: platform });
  assert.strictEqual(provided.configuration.resolveDebugConfiguration(undefined, {}).program, '${file}');
}

async function restarting() {
  const document = text('b.rpp', 1, wrong);
  vscode.workspace.textDocuments = [document];
  provided['rpp.restart']();
  assert(await until(() => (told.get('file:///b.rpp') || []).length === 1), 'no message came');
}

(async () => {
  const context = { subscriptions: [] };
  await attempt('manifest', manifest);
  await attempt('activation', async () => require(path.join(home, 'extension.js')).activate(context));
  await attempt('diagnostics', diagnostics);
  await attempt('answers', answers);
  await attempt('more', more);
  await attempt('renaming', renaming);
  await attempt('debugging', debugging);
  await attempt('restarting', restarting);
  context.subscriptions.forEach(it => it.dispose());
  fs.writeFileSync(path.join(process.env.RPP_FOLDER, 'said'), said.join('\n') + '\n');
  setTimeout(() => process.exit(0), 500);
})();
