// Visual Studio Code's clients for ROOPL++: of the language server `rpp lsp`, and of the debug adapter `rpp dap`.
'use strict';
const vscode = require('vscode');
const { spawn } = require('child_process');

const LANGUAGE = 'rpp';
const command = () => vscode.workspace.getConfiguration('rpp').get('command') || 'rpp';
// What starts the command with an argument. On Windows npm's command is a script, which only the shell starts.
const started = word => (process.platform === 'win32' ? ['cmd.exe', ['/d', '/c', command(), word]] : [command(), [word]]);

// The messages of a language server: requests wait for their answers, all else goes to `heard`.
class Connection {
  constructor(heard, ended) {
    this.heard = heard;
    this.waiting = new Map();
    this.last = 0;
    this.unread = Buffer.alloc(0);
    this.server = spawn(...started('lsp'), { stdio: ['pipe', 'pipe', 'ignore'] });
    this.server.stdout.on('data', piece => this.read(piece));
    this.server.stdin.on('error', () => {});
    this.server.on('error', error => this.end(ended, error.message));
    this.server.on('exit', status => this.end(ended, `status ${status}`));
  }

  end(ended, why) {
    if (!this.isOver) ended(why);
    this.isOver = true;
    this.waiting.forEach(each => each.reject(new Error(why)));
    this.waiting.clear();
  }

  close() {
    if (this.isOver) return;
    this.isOver = true;
    this.request('shutdown').catch(() => {});
    this.notify('exit');
    this.server.stdin.end();
  }

  read(piece) {
    this.unread = Buffer.concat([this.unread, piece]);
    for (;;) {
      const head = this.unread.indexOf('\r\n\r\n');
      if (head < 0) return;
      const length = /Content-Length: *(\d+)/i.exec(this.unread.toString('latin1', 0, head));
      const end = head + 4 + (length ? +length[1] : 0);
      if (this.unread.length < end) return;
      const body = this.unread.toString('utf8', head + 4, end);
      this.unread = this.unread.subarray(end);
      if (length) this.take(JSON.parse(body));
    }
  }

  take(message) {
    const asked = this.waiting.get(message.id);
    if (message.method !== undefined || !asked) return this.heard(message);
    this.waiting.delete(message.id);
    if (message.error) asked.reject(new Error(message.error.message));
    else asked.resolve(message.result);
  }

  write(message) {
    const body = Buffer.from(JSON.stringify({ jsonrpc: '2.0', ...message }));
    this.server.stdin.write(`Content-Length: ${body.length}\r\n\r\n`);
    this.server.stdin.write(body);
  }

  notify(method, params) {
    this.write({ method, params });
  }

  request(method, params) {
    const id = ++this.last;
    return new Promise((resolve, reject) => {
      this.waiting.set(id, { resolve, reject });
      this.write({ id, method, params });
    });
  }
}

// Places and kinds: the protocol counts both as the editor does, but kinds from 1 on.
const toPosition = it => new vscode.Position(it.line, it.character);
const toRange = it => new vscode.Range(toPosition(it.start), toPosition(it.end));
const toLocation = it => new vscode.Location(vscode.Uri.parse(it.uri), toRange(it.range));
const toEdit = it => vscode.TextEdit.replace(toRange(it.range), it.newText);
const at = (document, position) => ({
  textDocument: { uri: document.uri.toString() },
  ...(position && { position: { line: position.line, character: position.character } }),
});

function toSymbol(it) {
  const made = new vscode.DocumentSymbol(it.name, it.detail, it.kind - 1, toRange(it.range), toRange(it.selectionRange));
  made.children = it.children.map(toSymbol);
  return made;
}

function toItem(it) {
  const made = new vscode.CompletionItem(it.label, it.kind - 1);
  made.detail = it.detail;
  if (it.insertText) made.insertText = new vscode.SnippetString(it.insertText);
  return made;
}

function toDiagnostic(it) {
  const made = new vscode.Diagnostic(toRange(it.range), it.message, it.severity - 1);
  made.source = it.source;
  made.code = it.codeDescription ? { value: it.code, target: vscode.Uri.parse(it.codeDescription.href) } : it.code;
  return made;
}

function toSignatures(it) {
  const made = new vscode.SignatureHelp();
  made.signatures = it.signatures.map(each => {
    const shown = new vscode.SignatureInformation(each.label, each.documentation);
    shown.parameters = each.parameters.map(one => new vscode.ParameterInformation(one.label));
    return shown;
  });
  made.activeSignature = it.activeSignature;
  made.activeParameter = it.activeParameter;
  return made;
}

function toAction(it, diagnostics) {
  const made = new vscode.CodeAction(it.title, vscode.CodeActionKind.QuickFix);
  made.edit = toWorkspaceEdit(it.edit);
  made.isPreferred = it.isPreferred;
  made.diagnostics = diagnostics;
  return made;
}

// What an action is asked for, in the words of the protocol.
const asked = it => ({
  range: { start: it.range.start, end: it.range.end }, severity: it.severity + 1, message: it.message, source: it.source,
  code: it.code && it.code.value !== undefined ? it.code.value : it.code,
});

function toWorkspaceEdit(it) {
  const made = new vscode.WorkspaceEdit();
  for (const [uri, edits] of Object.entries(it.changes)) made.set(vscode.Uri.parse(uri), edits.map(toEdit));
  return made;
}

// The client of the language server: the texts that are open, what is said of them, and what the editor asks.
class Client {
  constructor() {
    this.told = vscode.languages.createDiagnosticCollection(LANGUAGE);
    this.runs = vscode.window.createOutputChannel('ROOPL++');
    this.start();
  }

  start() {
    this.connection = new Connection(
      message => this.heard(message),
      why => vscode.window.showErrorMessage(`${command()} lsp ended: ${why}. The setting rpp.command names the command.`));
    const able = { textDocument: { completion: { completionItem: { snippetSupport: true } } } };
    const workspaceFolders = (vscode.workspace.workspaceFolders || []).map(it => ({ uri: it.uri.toString(), name: it.name }));
    this.ready = this.connection.request('initialize', { processId: process.pid, rootUri: null, workspaceFolders, capabilities: able })
      .then(() => this.connection.notify('initialized', {}));
    this.ready.catch(() => {});
    vscode.workspace.textDocuments.forEach(it => this.opened(it));
  }

  restart() {
    this.connection.close();
    this.told.clear();
    this.start();
  }

  dispose() {
    this.connection.close();
    this.told.dispose();
    this.runs.dispose();
  }

  heard(message) {
    if (message.method === 'textDocument/publishDiagnostics') {
      this.told.set(vscode.Uri.parse(message.params.uri), message.params.diagnostics.map(toDiagnostic));
    } else if (message.method === 'window/showMessage' && message.params.type < 3) {
      vscode.window.showWarningMessage(message.params.message);
    }
  }

  tell(document, method, params) {
    if (document.languageId === LANGUAGE) this.ready.then(() => this.connection.notify(method, params)).catch(() => {});
  }

  opened(document) {
    const it = { uri: document.uri.toString(), languageId: LANGUAGE, version: document.version, text: document.getText() };
    this.tell(document, 'textDocument/didOpen', { textDocument: it });
  }

  changed(document) {
    const it = { uri: document.uri.toString(), version: document.version };
    this.tell(document, 'textDocument/didChange', { textDocument: it, contentChanges: [{ text: document.getText() }] });
  }

  closed(document) {
    this.tell(document, 'textDocument/didClose', at(document));
  }

  // Asks the server, and turns an answer that is there into the editor's form.
  async ask(method, params, form, part = 'textDocument') {
    await this.ready;
    const answer = await this.connection.request(`${part}/${method}`, params);
    return answer ? form(answer) : undefined;
  }

  // Runs a text by a command of a lens, and shows what the program said.
  async run(name, uri) {
    await this.ask('executeCommand', { command: name, arguments: [uri] }, said => this.runs.appendLine(`${said}\n`), 'workspace');
    this.runs.show(true);
  }

  each(method, params, form) {
    return this.ask(method, params, answer => answer.map(form));
  }
}

// What the editor can ask, each by one request.
function providers(client) {
  const { languages } = vscode;
  const toHighlight = it => new vscode.DocumentHighlight(toRange(it.range));
  const toFold = it => new vscode.FoldingRange(it.startLine, it.endLine, it.kind === 'comment' ? vscode.FoldingRangeKind.Comment : undefined);
  const toHover = it => new vscode.Hover(new vscode.MarkdownString(it.contents.value), toRange(it.range));
  const toLens = it => new vscode.CodeLens(toRange(it.range), it.command);
  const toFound = it => new vscode.SymbolInformation(it.name, it.kind - 1, it.containerName || '', toLocation(it.location));
  const legend = new vscode.SemanticTokensLegend(['class', 'method', 'property', 'parameter', 'variable'], ['declaration']);
  const toTokens = it => new vscode.SemanticTokens(new Uint32Array(it.data));
  const prepared = it => ({ range: toRange(it.range), placeholder: it.placeholder });
  return [
    languages.registerHoverProvider(LANGUAGE, { provideHover: (d, p) => client.ask('hover', at(d, p), toHover) }),
    languages.registerDefinitionProvider(LANGUAGE, { provideDefinition: (d, p) => client.each('definition', at(d, p), toLocation) }),
    languages.registerReferenceProvider(LANGUAGE, {
      provideReferences: (d, p, context) => client.each('references', { ...at(d, p), context }, toLocation),
    }),
    languages.registerDocumentHighlightProvider(LANGUAGE, {
      provideDocumentHighlights: (d, p) => client.each('documentHighlight', at(d, p), toHighlight),
    }),
    languages.registerDocumentSymbolProvider(LANGUAGE, { provideDocumentSymbols: d => client.each('documentSymbol', at(d), toSymbol) }),
    languages.registerFoldingRangeProvider(LANGUAGE, { provideFoldingRanges: d => client.each('foldingRange', at(d), toFold) }),
    languages.registerRenameProvider(LANGUAGE, {
      provideRenameEdits: (d, p, newName) => client.ask('rename', { ...at(d, p), newName }, toWorkspaceEdit),
      prepareRename: async (d, p) => {
        const found = await client.ask('prepareRename', at(d, p), prepared);
        if (!found) throw new Error('Nothing that has a declaration is named here.');
        return found;
      },
    }),
    languages.registerCompletionItemProvider(LANGUAGE, { provideCompletionItems: (d, p) => client.each('completion', at(d, p), toItem) }, ':'),
    languages.registerSignatureHelpProvider(
      LANGUAGE, { provideSignatureHelp: (d, p) => client.ask('signatureHelp', at(d, p), toSignatures) }, '(', ','),
    languages.registerDocumentSemanticTokensProvider(
      LANGUAGE, { provideDocumentSemanticTokens: d => client.ask('semanticTokens/full', at(d), toTokens) }, legend),
    languages.registerCodeLensProvider(LANGUAGE, { provideCodeLenses: d => client.each('codeLens', at(d), toLens) }),
    languages.registerCodeActionsProvider(LANGUAGE, {
      provideCodeActions: (d, range, context) => client.each(
        'codeAction', { ...at(d), range: { start: range.start, end: range.end }, context: { diagnostics: context.diagnostics.map(asked) } },
        it => toAction(it, context.diagnostics)),
    }),
    languages.registerWorkspaceSymbolProvider({
      provideWorkspaceSymbols: query => client.ask('symbol', { query }, all => all.map(toFound), 'workspace'),
    }),
    languages.registerDocumentFormattingEditProvider(LANGUAGE, {
      provideDocumentFormattingEdits: (d, options) => client.each('formatting', { ...at(d), options }, toEdit),
    }),
  ];
}

// The debug adapter: the editor's own client calls it; F5 without a configuration debugs the file that is shown.
function debugging() {
  return [
    vscode.debug.registerDebugAdapterDescriptorFactory(LANGUAGE, {
      createDebugAdapterDescriptor: () => new vscode.DebugAdapterExecutable(...started('dap')),
    }),
    vscode.debug.registerDebugConfigurationProvider(LANGUAGE, {
      resolveDebugConfiguration: (_, given) => given.type
        ? given
        : { type: LANGUAGE, request: 'launch', name: 'Debug both ways', program: '${file}', stopOnEntry: true },
    }),
  ];
}

exports.activate = context => {
  const client = new Client();
  context.subscriptions.push(
    client,
    vscode.workspace.onDidOpenTextDocument(it => client.opened(it)),
    vscode.workspace.onDidChangeTextDocument(it => client.changed(it.document)),
    vscode.workspace.onDidCloseTextDocument(it => client.closed(it)),
    vscode.workspace.onDidChangeConfiguration(it => it.affectsConfiguration('rpp.command') && client.restart()),
    vscode.commands.registerCommand('rpp.restart', () => client.restart()),
    ...['rpp.run', 'rpp.thereAndBack'].map(name => vscode.commands.registerCommand(name, uri => client.run(name, uri))),
    ...providers(client),
    ...debugging());
};
exports.deactivate = () => {};
