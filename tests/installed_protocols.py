#!/usr/bin/env python3
"""Speaks with the installed `rpp lsp` and `rpp dap` as an editor does, and prints `ok NAME` or `FAILED NAME: why` for each trial.

    installed_protocols FOLDER          # where sources are written

It uses the command on the path, and nothing of this repository."""
import json
import os
import subprocess
import sys

SOURCE = 'class P\n  int x\nmethod main()\n  x += 1\n  local int m = 2\n    call add(m)\n  delocal int m = 2\nmethod add(int n)\n  x  +=  n\n'
TIDY = 'class P\n  int x\n\nmethod main()\n  x += 1\n  local int m = 2\n    call add(m)\n  delocal int m = 2\n\nmethod add(int n)\n  x += n\n'
# Each refused text, and what it becomes by the first quick fix.
REFUSED, MENDED = 'class P\n  int x\nmethod main()\n  x = 1\n', 'class P\n  int x\nmethod main()\n  x += 1\n'
FILM = 'class P\n  int x\nmethod main()\n  x += 1\n  x += 2\n  x += 3\n'


class Server:
    """A running command that speaks in messages with a length in front."""

    def __init__(self, *words):
        self.process = subprocess.Popen(['rpp', *words], stdin=subprocess.PIPE, stdout=subprocess.PIPE)
        self.last, self.kept = 0, []

    def send(self, message):
        text = json.dumps(message).encode()
        self.process.stdin.write(b'Content-Length: %d\r\n\r\n%s' % (len(text), text))
        self.process.stdin.flush()

    def next(self):
        length = 0
        while True:
            line = self.process.stdout.readline()
            if not line:
                raise EOFError('it has ended')
            if not line.strip():
                return json.loads(self.process.stdout.read(length))
            if line.lower().startswith(b'content-length:'):
                length = int(line.split(b':')[1])

    def wait(self, fits):
        """The first message that fits; the others are kept."""
        for at, message in enumerate(self.kept):
            if fits(message):
                return self.kept.pop(at)
        while True:
            message = self.next()
            if fits(message):
                return message
            self.kept.append(message)

    def ends(self):
        self.process.stdin.close()
        return self.process.wait(60)


class Language(Server):
    def __init__(self, folder):
        super().__init__('lsp')
        self.uri = f'file://{folder}/served.rpp'
        self.folder = folder

    def tell(self, method, **parameters):
        self.send({'jsonrpc': '2.0', 'method': method, 'params': parameters})

    def ask(self, method, **parameters):
        self.last += 1
        number = self.last
        self.send({'jsonrpc': '2.0', 'id': number, 'method': method, 'params': parameters})
        return self.wait(lambda it: it.get('id') == number and 'method' not in it)['result']

    def asked(self, what, line=None, character=0, **more):
        if line is not None:
            more['position'] = {'line': line, 'character': character}
        return self.ask(f'textDocument/{what}', textDocument={'uri': self.uri}, **more)

    def open(self, text, version):
        """Gives the text, and returns the diagnostics of this version."""
        if version == 1:
            self.tell('textDocument/didOpen', textDocument={'uri': self.uri, 'languageId': 'rpp', 'version': 1, 'text': text})
        else:
            self.tell('textDocument/didChange', textDocument={'uri': self.uri, 'version': version}, contentChanges=[{'text': text}])
        return self.wait(lambda it: it.get('method') == 'textDocument/publishDiagnostics' and it['params'].get('version') == version)['params']['diagnostics']


def spot(at):
    return at['line'], at['character']


def edited(text, edits):
    """The text after edits of whole ranges, the last one first."""
    lines = text.split('\n')
    offset = lambda at: sum(len(line) + 1 for line in lines[:at['line']]) + at['character']
    for each in sorted(edits, key=lambda it: spot(it['range']['start']), reverse=True):
        text = text[:offset(each['range']['start'])] + each['newText'] + text[offset(each['range']['end']):]
    return text


def language(folder):
    """Names of trials, what was found, and what must be found."""
    it = Language(folder)
    able = it.ask('initialize', processId=None, rootUri=f'file://{folder}', capabilities={})['capabilities']
    it.tell('initialized')
    yield 'initialize', able['hoverProvider'], True
    yield 'no diagnostics', it.open(SOURCE, 1), []
    yield 'hover', 'field of class `P`' in json.dumps(it.asked('hover', 3, 2)), True
    found = it.asked('completion', 5, 9)
    names = {each['label'] for each in (found['items'] if isinstance(found, dict) else found)}
    yield 'completion', {'add', 'main'} <= names, True
    yield 'symbols', [each['name'] for each in it.asked('documentSymbol')], ['P']
    yield 'definition', spot(it.asked('definition', 5, 10)[0]['range']['start']), (7, 7)
    yield 'formatting', edited(SOURCE, it.asked('formatting', options={'tabSize': 2, 'insertSpaces': True})), TIDY
    yield 'code lenses', [each['range']['start']['line'] for each in it.asked('codeLens')], [2, 2]
    tokens = it.asked('semanticTokens/full')['data']
    legend = able['semanticTokensProvider']['legend']['tokenTypes']
    yield 'semantic tokens', (tokens[:3], legend[tokens[3]]), ([0, 6, 1], 'class')
    yield 'signature', it.asked('signatureHelp', 5, 13)['signatures'][0]['label'], 'add(int n)'
    with open(f'{folder}/other.rpp', 'w', encoding='utf-8') as out:
        out.write('class Other\n  int y\nmethod main()\n  y += 1\n')
    yield 'workspace symbols', [each['name'] for each in it.ask('workspace/symbol', query='Other')], ['Other']
    found = it.open(REFUSED, 2)
    yield 'diagnostics', [(spot(each['range']['start']), each['code']) for each in found], [((3, 4), 3)]
    fixes = it.asked('codeAction', range=found[0]['range'], context={'diagnostics': found})
    yield 'quick fix', edited(REFUSED, next(iter(fixes[0]['edit']['changes'].values()))), MENDED
    it.ask('shutdown')
    it.tell('exit')
    yield 'end of the language server', it.ends(), 0


class Debugger(Server):
    def __init__(self):
        super().__init__('dap')

    def ask(self, command, **arguments):
        self.last += 1
        number = self.last
        self.send({'seq': number, 'type': 'request', 'command': command, 'arguments': arguments})
        return self.wait(lambda it: it['type'] == 'response' and it['request_seq'] == number).get('body', {})

    def event(self, name):
        return self.wait(lambda it: it['type'] == 'event' and it['event'] == name).get('body', {})

    def line(self):
        return self.ask('stackTrace', threadId=1)['stackFrames'][0]['line']

    def moved(self, command):
        self.ask(command, threadId=1)
        self.event('stopped')
        return self.line()


def debugger(folder):
    source = f'{folder}/run.rpp'
    with open(source, 'w', encoding='utf-8') as out:
        out.write(FILM)
    it = Debugger()
    yield 'steps back', it.ask('initialize', adapterID='rpp', linesStartAt1=True, columnsStartAt1=True)['supportsStepBack'], True
    it.ask('launch', program=source, stopOnEntry=True)
    it.event('initialized')
    yield 'breakpoint', it.ask('setBreakpoints', source={'path': source}, breakpoints=[{'line': 6}])['breakpoints'][0]['verified'], True
    it.ask('configurationDone')
    it.event('stopped')
    yield 'both ways', [it.line()] + [it.moved(each) for each in ('next', 'continue', 'stepBack', 'reverseContinue')], [4, 5, 6, 5, 4]
    it.moved('continue')
    yield 'value', it.ask('evaluate', expression='x * 10', frameId=1)['result'], '30'
    it.ask('disconnect')
    yield 'end of the debug adapter', it.ends(), 0


def main():
    folder = os.path.realpath(sys.argv[1])
    for trials in (language, debugger):
        try:
            for name, found, wanted in trials(folder):
                print(f'ok {name}' if found == wanted else f'FAILED {name}: {found!r} and not {wanted!r}')
        except Exception as error:  # pylint: disable=broad-except
            print(f'FAILED {trials.__name__}: {type(error).__name__} {error}')


if __name__ == '__main__':
    main()
