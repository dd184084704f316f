"""A client of the two protocols for tests: it starts `rpp WORD`, sends what a test says, and waits for answers."""
import os
import subprocess
import sys
from typing import Any, Callable, Dict, List

from rpp.program import TOP
from rpp.protocol import Inbox, Outbox

from .base import HANGS


class Client:
    """A running server; `heard` has all messages of it that were not yet asked for."""

    def __init__(self, *words: str, **environment: str):
        self.process = subprocess.Popen(
            [sys.executable, os.path.join(TOP, 'rpp'), *words],
            stdin=subprocess.PIPE,
            stdout=subprocess.PIPE,
            env={**os.environ, **environment},
        )
        self.heard: List[Dict[str, Any]] = []
        self.last = 0
        self.inbox = Inbox(self.process.stdout.fileno())
        self.outbox = Outbox(self.process.stdin)

    def write(self, message: Dict[str, Any]):
        self.outbox.send(message)

    def wait(self, fits: Callable[[Dict[str, Any]], bool]) -> Dict[str, Any]:
        """The first message that fits; the others are kept."""
        for number, message in enumerate(self.heard):
            if fits(message):
                return self.heard.pop(number)
        while True:
            message = self.inbox.next(HANGS)
            if not message:
                raise EOFError('the server ended' if message is None else 'the server says nothing')
            if fits(message):
                return message
            self.heard.append(message)

    def end(self) -> int:
        """Closes its input, and gives the status with which the server ends."""
        self.process.stdin.close()
        status = self.process.wait(timeout=HANGS)
        self.process.stdout.close()
        return status


class LanguageClient(Client):
    """A client of the language server."""

    def __init__(self, **environment: str):
        super().__init__('lsp', **environment)

    def tell(self, method: str, parameters: Any):
        self.write({'jsonrpc': '2.0', 'method': method, 'params': parameters})

    def answer(self, method: str, parameters: Any) -> Dict[str, Any]:
        """The whole answer to a request."""
        self.last += 1
        number = self.last
        self.write({'jsonrpc': '2.0', 'id': number, 'method': method, 'params': parameters})
        return self.wait(lambda it: it.get('id') == number and 'method' not in it)

    def ask(self, method: str, parameters: Any) -> Any:
        found = self.answer(method, parameters)
        if 'error' in found:
            raise AssertionError(found['error'])
        return found['result']

    def begin(self):
        able = {'textDocument': {'completion': {'completionItem': {'snippetSupport': True}}}}
        found = self.ask('initialize', {'processId': None, 'rootUri': None, 'capabilities': able})
        self.tell('initialized', {})
        return found

    def open(self, uri: str, text: str):
        it = {'uri': uri, 'languageId': 'rpp', 'version': 1, 'text': text}
        self.tell('textDocument/didOpen', {'textDocument': it})

    def change(self, uri: str, text: str, version: int):
        it = {'uri': uri, 'version': version}
        self.tell('textDocument/didChange', {'textDocument': it, 'contentChanges': [{'text': text}]})

    def diagnostics(self, uri: str, version: int) -> List[Dict[str, Any]]:
        """What is said of this version of a text."""
        name = 'textDocument/publishDiagnostics'
        of = lambda it: (it.get('method'), *(it.get('params', {}).get(each) for each in ('uri', 'version')))
        return self.wait(lambda it: of(it) == (name, uri, version))['params']['diagnostics']


class DebugClient(Client):
    """A client of the debug adapter."""

    def __init__(self, **environment: str):
        super().__init__('dap', **environment)

    def answer(self, command: str, **arguments: Any) -> Dict[str, Any]:
        """The whole answer to a request."""
        self.last += 1
        number = self.last
        self.write({'seq': number, 'type': 'request', 'command': command, 'arguments': arguments})
        return self.wait(lambda it: it['type'] == 'response' and it['request_seq'] == number)

    def ask(self, command: str, **arguments: Any) -> Dict[str, Any]:
        found = self.answer(command, **arguments)
        if not found['success']:
            raise AssertionError(found['message'])
        return found.get('body', {})

    def event(self, name: str) -> Dict[str, Any]:
        return self.wait(lambda it: it['type'] == 'event' and it['event'] == name).get('body', {})

    def begin(self, source: str, lines=(), **more: Any):
        """A session up to its first stop: the program, breakpoints on lines, and what else `launch` is to have."""
        self.ask('initialize', clientID='test', adapterID='rpp', linesStartAt1=True, columnsStartAt1=True)
        self.ask('launch', program=source, **more)
        self.event('initialized')
        found = self.ask('setBreakpoints', source={'path': source}, breakpoints=[{'line': each} for each in lines])
        self.ask('configurationDone')
        return found['breakpoints'], self.event('stopped')

    def moved(self, command: str, **arguments: Any) -> Dict[str, Any]:
        """Where the run stops after a request that moves."""
        self.ask(command, threadId=1, **arguments)
        return self.event('stopped')

    def line(self) -> int:
        return self.ask('stackTrace', threadId=1)['stackFrames'][0]['line']

    def scope(self, word: str, frame: int = 1) -> Dict[str, str]:
        """The variables of the scope whose name begins so."""
        found = next(each for each in self.ask('scopes', frameId=frame)['scopes'] if each['name'].startswith(word))
        shown = self.ask('variables', variablesReference=found['variablesReference'])['variables']
        return {each['name']: each['value'] for each in shown}
