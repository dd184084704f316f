"""A language server: what the program's `check` says of each open text, and help in writing one.

It checks nothing itself. Whether a text is accepted, also after a rename, is what the program says."""
import gc
import ntpath
import os
import pathlib
import sys
import time
from typing import Any, Callable, Dict, List, Optional
from urllib.parse import unquote, urlsplit

from .checking import Refusal, first_refusal, message_of, page_of, spoken
from .editing import Analysis, Item, Symbol
from .explain import Message
from .features import KINDS, MODIFIERS, Folders, coloured, main_method, named, signature
from .formatter import layout_edits
from .glance import Glance
from .hovers import hover_text
from .lint import warnings
from .places import Text
from .protocol import Broken, Inbox, Outbox
from .running import run_text
from .tokens import is_name

# (so many seconds without a message, and a changed text is checked)
QUIET = 0.1
# (a long text is 100,000 objects, none of them garbage; Python would look at all of them several times for one answer)
OBJECTS = 200_000
SYMBOL_KINDS = {'class': 5, 'method': 6, 'field': 8}
ITEM_KINDS = {'class': 7, 'method': 2, 'field': 5, 'variable': 6, 'keyword': 14}
# The commands of the lenses.
RUN, RUN_BACK = 'rpp.run', 'rpp.thereAndBack'
NO_METHOD, BAD_PARAMETERS, FAILED, NOT_BEGUN, INTERNAL = -32601, -32602, -32803, -32002, -32603


class Refused(Exception):
    """A request that is answered with an error and a sentence."""

    def __init__(self, code: int, message: str):
        super().__init__(message)
        self.code = code


class Document:
    """An open text, its places, and what is in it, found when it is first asked for."""

    def __init__(self, text: str, version: Any):
        self.text = text.encode('utf-8', 'replace')
        self.version = version
        self.places = Text(self.text)
        self.message: Optional[Message] = None
        self._found: Optional[Analysis] = None
        self._glance: Optional[Glance] = None

    @property
    def found(self) -> Analysis:
        """The whole text with its names."""
        if self._found is None:
            self._found = Analysis(self.text)
        return self._found

    def look(self, at: int) -> Analysis:
        """The text with the statements around a byte, which is all that a keystroke asks for."""
        if self._found is not None:
            return self._found
        if self._glance is None or not self._glance.is_of(at):
            self._glance = Glance(self.text, at)
        return self._glance

    def point(self, at: int) -> Dict[str, int]:
        line, character = self.places.position(at)
        return {'line': line, 'character': character}

    def range(self, begin: int, end: int) -> Dict[str, Any]:
        return {'start': self.point(begin), 'end': self.point(end)}

    def token_range(self, at: int, text: Optional[Analysis] = None) -> Dict[str, Any]:
        """The range of a token of the text, or of a look at it; a token has only ASCII and is in one line."""
        token = (text or self.found).source.tokens[at]
        begin = self.point(token.at)
        return {'start': begin, 'end': {**begin, 'character': begin['character'] + len(token.text)}}

    def offset(self, position: Dict[str, int]) -> int:
        return self.places.position_offset(position['line'], position['character'])


class Server:
    def __init__(self, inbox: Inbox, outbox: Outbox):
        self.inbox = inbox
        self.outbox = outbox
        self.documents: Dict[str, Document] = {}
        self.waiting: List[str] = []
        self.has_snippets = False
        self.has_begun = False
        self.is_down = False
        self.has_complained = False
        self.folders = Folders()

    # ---- messages

    def send(self, **body):
        self.outbox.send({'jsonrpc': '2.0', **body})

    def serve(self) -> int:
        """Answers until `exit` or the end of the stream. A text is checked when no message has come for a moment."""
        gc.set_threshold(OBJECTS)
        quiet_at = 0.0
        while True:
            left = max(0.0, quiet_at - time.monotonic()) if self.waiting else None
            try:
                message = self.inbox.next(left)
            except Broken as error:
                print(f'rpp lsp: {error}', file=sys.stderr)
                return 1
            if message is None or message.get('method') == 'exit':
                return 0 if self.is_down else 1
            if not message:
                self.judge(self.waiting.pop(0))
                continue
            before = list(self.waiting)
            self.handle(message)
            if self.waiting != before:
                quiet_at = time.monotonic() + QUIET

    def handle(self, message: Dict[str, Any]):
        method, number = message.get('method'), message.get('id')
        parameters = message.get('params') or {}
        if method is None:
            return
        if number is None:
            if method in NOTIFICATIONS and self.has_begun:
                NOTIFICATIONS[method](self, parameters)
            return
        try:
            if not self.has_begun and method != 'initialize':
                raise Refused(NOT_BEGUN, 'the server is not initialized')
            if method not in REQUESTS:
                raise Refused(NO_METHOD, f'no method {method}')
            self.send(id=number, result=REQUESTS[method](self, parameters))
        except Refused as error:
            self.send(id=number, error={'code': error.code, 'message': str(error)})
        except Exception as error:  # pylint: disable=broad-except
            print(f'rpp lsp: {method}: {error!r}', file=sys.stderr)
            self.send(id=number, error={'code': INTERNAL, 'message': repr(error)})

    # ---- the life of the server and of its texts

    def initialize(self, parameters):
        able = parameters.get('capabilities') or {}
        item = ((able.get('textDocument') or {}).get('completion') or {}).get('completionItem') or {}
        self.has_snippets = bool(item.get('snippetSupport'))
        self.has_begun = True
        roots = [each['uri'] for each in parameters.get('workspaceFolders') or []] or [parameters.get('rootUri')]
        self.folders.paths = [path_of(each) for each in roots if each]
        return {
            'serverInfo': {'name': 'rpp lsp'},
            'capabilities': {
                'positionEncoding': 'utf-16',
                'textDocumentSync': {'openClose': True, 'change': 1},
                'hoverProvider': True,
                'documentSymbolProvider': True,
                'definitionProvider': True,
                'referencesProvider': True,
                'documentHighlightProvider': True,
                'renameProvider': {'prepareProvider': True},
                'completionProvider': {'triggerCharacters': [':']},
                'signatureHelpProvider': {'triggerCharacters': ['(', ',']},
                'semanticTokensProvider': {'legend': {'tokenTypes': KINDS, 'tokenModifiers': MODIFIERS}, 'full': True},
                'codeActionProvider': {'codeActionKinds': ['quickfix']},
                'codeLensProvider': {},
                'executeCommandProvider': {'commands': [RUN, RUN_BACK]},
                'workspaceSymbolProvider': True,
                'foldingRangeProvider': True,
                'documentFormattingProvider': True,
            },
        }

    def shutdown(self, _):
        self.is_down = True

    def opened(self, parameters):
        it = parameters['textDocument']
        self.take(it['uri'], it['text'], it.get('version'))

    def changed(self, parameters):
        it = parameters['textDocument']
        for each in parameters['contentChanges'][-1:]:
            # (only whole texts are asked for)
            self.take(it['uri'], each['text'], it.get('version'))

    def take(self, uri: str, text: str, version: Any):
        self.documents[uri] = Document(text, version)
        self.waiting = [each for each in self.waiting if each != uri] + [uri]

    def closed(self, parameters):
        uri = parameters['textDocument']['uri']
        self.documents.pop(uri, None)
        self.waiting = [each for each in self.waiting if each != uri]
        self.send(method='textDocument/publishDiagnostics', params={'uri': uri, 'diagnostics': []})

    def document(self, parameters) -> Document:
        uri = parameters['textDocument']['uri']
        if uri not in self.documents:
            raise Refused(BAD_PARAMETERS, f'{uri} is not open')
        return self.documents[uri]

    # ---- what the program says

    def judge(self, uri: str):
        document = self.documents[uri]
        verdict = first_refusal(document.text)
        if verdict.trouble:
            if not self.has_complained:
                self.send(method='window/showMessage', params={'type': 2, 'message': verdict.trouble})
            self.has_complained = True
        document.message = message_of(document.text, verdict.refusal) if verdict.refusal else None
        if verdict.refusal:
            shown = [self.diagnostic(document, verdict.refusal, document.message)]
        else:
            shown = [] if verdict.trouble else self.remarks(document)
        told = {'uri': uri, 'diagnostics': shown}
        if document.version is not None:
            told['version'] = document.version
        self.send(method='textDocument/publishDiagnostics', params=told)

    def remarks(self, document: Document):
        """What is accepted and hardly meant."""
        return [{'range': document.range(each.begin, each.end), 'severity': 2, 'code': each.name, 'source': 'rpp', 'message': each.sentence,
                 **({'tags': [1]} if each.name == 'Unused' else {})} for each in warnings(document.found)]

    def diagnostic(self, document: Document, refusal: Refusal, message: Message):
        shown = {
            'range': self.refused_range(document, refusal.at),
            'severity': 1,
            'code': refusal.number,
            'source': 'rpp',
            'message': f'{refusal.name}: {spoken(message)}',
        }
        page = page_of(refusal)
        return {**shown, 'codeDescription': {'href': page}} if page else shown

    def refused_range(self, document: Document, at: int):
        """The token at the place; at the end of the text, the last token, since an editor has a line to show there."""
        tokens = document.found.source.tokens
        here = next((each for each in tokens if each.at <= at < each.end), None)
        if here is None and tokens and at >= tokens[-1].end:
            here = tokens[-1]
        return document.range(here.at, here.end) if here else document.range(at, at + 1)

    # ---- answers

    def pointed(self, parameters):
        """The document, and the token that is pointed to, where it is a name with a meaning."""
        document = self.document(parameters)
        at = document.found.names.token_at(document.offset(parameters['position']))
        return document, at if at in document.found.names.meaning else None

    def hover(self, parameters):
        document = self.document(parameters)
        offset = document.offset(parameters['position'])
        text = document.look(offset)
        at = text.names.token_at(offset)
        told = hover_text(text, at) if at is not None else ''
        return {'contents': {'kind': 'markdown', 'value': told}, 'range': document.token_range(at, text)} if told else None

    def symbols(self, parameters):
        document = self.document(parameters)
        text = document.look(0)

        def shown(each: Symbol):
            return {
                'name': each.name,
                'detail': each.detail,
                'kind': SYMBOL_KINDS[each.kind],
                'range': document.range(each.begin, each.end),
                'selectionRange': document.token_range(each.name_at, text),
                'children': [shown(inner) for inner in each.children if inner.name],
            }

        return [shown(each) for each in text.symbols()]

    def definition(self, parameters):
        document, at = self.pointed(parameters)
        if at is None:
            return None
        declared = document.found.names.meaning[at].name_at
        return [{'uri': parameters['textDocument']['uri'], 'range': document.token_range(declared)}]

    def references(self, parameters):
        document, at = self.pointed(parameters)
        if at is None:
            return None
        names, uri = document.found.names, parameters['textDocument']['uri']
        is_with = (parameters.get('context') or {}).get('includeDeclaration', True)
        places = [each for each in names.places(names.meaning[at]) if is_with or not names.is_declaring(each)]
        return [{'uri': uri, 'range': document.token_range(each)} for each in places]

    def highlights(self, parameters):
        document, at = self.pointed(parameters)
        if at is None:
            return None
        names = document.found.names
        return [{'range': document.token_range(each)} for each in names.places(names.meaning[at])]

    def prepare_rename(self, parameters):
        document, at = self.pointed(parameters)
        if at is None:
            return None
        return {'range': document.token_range(at), 'placeholder': document.found.source.tokens[at].text}

    def rename(self, parameters):
        document, at = self.pointed(parameters)
        name, uri = parameters.get('newName', ''), parameters['textDocument']['uri']
        if at is None:
            raise Refused(FAILED, 'there is no name with a declaration here')
        if not is_name(name):
            raise Refused(BAD_PARAMETERS, f"{name} must be a name: a letter, then letters, digits, _ or ', and no keyword")
        found = document.found
        edits = found.renamed(at, name)
        if not found.keeps_meaning(edits):
            raise Refused(FAILED, f'{name} has another meaning at one of these places')
        renamed = found.with_edits(edits)
        after = first_refusal(renamed)
        if after.refusal and not first_refusal(document.text).refusal:
            why = f'{after.refusal.name}: {message_of(renamed, after.refusal).sentence}'
            raise Refused(FAILED, f'the renamed text would be refused: {why}')
        changes = [{'range': document.token_range(each), 'newText': text} for each, text in sorted(edits.items())]
        return {'changes': {uri: changes}}

    def completion(self, parameters):
        document = self.document(parameters)
        offset = document.offset(parameters['position'])
        return [self.shown_item(each) for each in document.look(offset).completions(offset)]

    def shown_item(self, each: Item):
        shown = {'label': each.label, 'kind': ITEM_KINDS[each.kind], 'detail': each.detail}
        if each.insert and self.has_snippets:
            shown.update(insertText=each.insert, insertTextFormat=2)
        return shown

    def folds(self, parameters):
        document, made = self.document(parameters), []
        for kind, first, last in document.found.folds():
            begin, end = document.places.row(first), document.places.row(last)
            if end > begin:
                made.append({'startLine': begin, 'endLine': end, 'kind': kind})
        return made

    def format(self, parameters):
        document = self.document(parameters)
        edits = layout_edits(document.text, document.found.source)
        return [{'range': document.range(begin, end), 'newText': text.decode()} for begin, end, text in edits]

    def signature(self, parameters):
        document = self.document(parameters)
        offset = document.offset(parameters['position'])
        found = signature(document.look(offset), offset)
        if found is None:
            return None
        shown = {'label': found.heading, 'parameters': [{'label': list(each)} for each in found.parameters]}
        if found.remark:
            shown['documentation'] = found.remark
        return {'signatures': [shown], 'activeSignature': 0, 'activeParameter': found.active}

    def semantic_tokens(self, parameters):
        """Five numbers for each name: lines and columns from the last one, its length, its kind, and whether it is declared."""
        document, data = self.document(parameters), []
        line = column = 0
        for each in coloured(document.found):
            token = document.found.source.tokens[each.at]
            point = document.places.position(token.at)
            data += [point.line - line, point.character - (column if point.line == line else 0), len(token.text), each.kind,
                     int(each.is_declaring)]
            line, column = point.line, point.character
        return {'data': data}

    def lenses(self, parameters):
        """Above `main`, commands that run the text."""
        document, uri = self.document(parameters), parameters['textDocument']['uri']
        text = document.look(0)
        main = main_method(text)
        if main is None:
            return []
        where = document.token_range(main.first, text)
        return [{'range': where, 'command': {'title': title, 'command': command, 'arguments': [uri]}}
                for title, command in (('run', RUN), ('there and back', RUN_BACK))]

    def execute(self, parameters):
        """Runs an open text, and shows what the program said."""
        command, uri = parameters['command'], (parameters.get('arguments') or [''])[0]
        if command not in (RUN, RUN_BACK):
            raise Refused(BAD_PARAMETERS, f'no command {command}')
        document = self.document({'textDocument': {'uri': uri}})
        said = run_text(document.text, os.path.basename(path_of(uri)), command == RUN_BACK)
        self.send(method='window/showMessage', params={'type': 3, 'message': said})
        return said

    def actions(self, parameters):
        """The edits that the message of the refusal has."""
        document, uri = self.document(parameters), parameters['textDocument']['uri']
        shown = [each for each in (parameters.get('context') or {}).get('diagnostics', []) if each.get('severity') == 1]
        message = document.message
        if message is None or not message.edits or not shown:
            return []
        changes = [{'range': document.range(each.begin, each.end), 'newText': each.text} for each in message.edits]
        return [{'title': message.title, 'kind': 'quickfix', 'isPreferred': True, 'diagnostics': shown, 'edit': {'changes': {uri: changes}}}]

    def workspace_symbols(self, parameters):
        """Declarations of the open texts, and of the sources in the folders of the editor."""
        query, found = parameters.get('query', ''), []
        opened = {path_of(uri): uri for uri in self.documents}
        for uri, document in self.documents.items():
            found += workspace_symbols(Glance(document.text), document.places, uri, query)
        for path in self.folders.sources():
            text = self.folders.read(path) if path not in opened else None
            if text is not None:
                found += workspace_symbols(text, Text(text.whole), uri_of(path), query)
        return found


def workspace_symbols(text: Glance, places: Text, uri: str, query: str) -> List[Dict[str, Any]]:
    """The declarations of one text whose names have the letters of the query."""
    point = lambda at: places.position(at)._asdict()
    return [{'name': each.name, 'kind': SYMBOL_KINDS[each.kind], **({'containerName': owner} if owner else {}),
             'location': {'uri': uri, 'range': {'start': point(each.begin), 'end': point(each.end)}}} for each, owner in named(text, query)]


def path_of(uri: str) -> str:
    """The path of the URI of a file; on Windows `c:\\a.rpp` for `file:///c:/a.rpp`, and a share for one with a host."""
    found = urlsplit(uri)
    path = unquote(found.path)
    if os.name != 'nt':
        return path
    return ntpath.normpath(f'//{found.netloc}{path}' if found.netloc else path[1:] if ntpath.splitdrive(path[1:])[0] else path)


def uri_of(path: str) -> str:
    return pathlib.Path(path).as_uri()


REQUESTS: Dict[str, Callable] = {
    'initialize': Server.initialize,
    'shutdown': Server.shutdown,
    'textDocument/hover': Server.hover,
    'textDocument/documentSymbol': Server.symbols,
    'textDocument/definition': Server.definition,
    'textDocument/references': Server.references,
    'textDocument/documentHighlight': Server.highlights,
    'textDocument/prepareRename': Server.prepare_rename,
    'textDocument/rename': Server.rename,
    'textDocument/completion': Server.completion,
    'textDocument/foldingRange': Server.folds,
    'textDocument/formatting': Server.format,
    'textDocument/signatureHelp': Server.signature,
    'textDocument/semanticTokens/full': Server.semantic_tokens,
    'textDocument/codeLens': Server.lenses,
    'textDocument/codeAction': Server.actions,
    'workspace/symbol': Server.workspace_symbols,
    'workspace/executeCommand': Server.execute,
}
NOTIFICATIONS: Dict[str, Callable] = {
    'textDocument/didOpen': Server.opened,
    'textDocument/didChange': Server.changed,
    'textDocument/didClose': Server.closed,
}
