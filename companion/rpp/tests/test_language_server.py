"""Whole sessions of the language server, by a scripted client over its standard input."""
import os
import unittest
from unittest import mock

from rpp.language_server import path_of
from rpp.program import TOP, Program
from rpp.tokens import cut

from .protocol_client import LanguageClient

URI = 'file:///texts/list.rpp'
OTHER = 'file:///texts/other.rpp'
# What this text means was worked out by hand; line 13 is refused: its value is what it changes.
TEXT = """// A cell and its owner.
class Cell
  int value  // what it holds
// Adds n.
method put(int n)
  value += n

class Main
  Cell cell
  int x
method main()
  local int k = 0
    new Cell cell
    k += 1  k += k
    call cell::put(x)
  delocal int k = 0
"""
RIGHT = TEXT.replace('k += k', 'k -= 1')


def span(line, begin, end):
    return {'start': {'line': line, 'character': begin}, 'end': {'line': line, 'character': end}}


def at(line, character, **more):
    return {'textDocument': {'uri': URI}, 'position': {'line': line, 'character': character}, **more}


def words(text):
    return [each.text for each in cut(text.encode())[0]]


def applied(text, edits):
    """The text with these edits, which do not overlap."""
    lines = text.split('\n')
    starts = [sum(len(each) + 1 for each in lines[:number]) for number in range(len(lines) + 1)]
    place = lambda it: min(starts[it['line']] + it['character'], len(text))
    for each in sorted(edits, key=lambda it: place(it['range']['start']), reverse=True):
        text = text[: place(each['range']['start'])] + each['newText'] + text[place(each['range']['end']) :]
    return text


class Session(unittest.TestCase):
    def setUp(self):
        self.client = LanguageClient()
        self.able = self.client.begin()['capabilities']

    def tearDown(self):
        self.client.ask('shutdown', None)
        self.client.tell('exit', None)
        self.assertEqual(self.client.end(), 0)

    def ranges(self, method, parameters):
        found = self.client.ask(method, parameters)
        return [each['range'] for each in found]

    def test_what_is_wrong(self):
        client = self.client
        client.open(URI, TEXT)
        found = client.diagnostics(URI, 1)
        self.assertEqual([(each['range'], each['code'], each['severity']) for each in found], [(span(13, 12, 13), 16, 1)])
        self.assertRegex(found[0]['message'], r'^SelfUpdate: `k` must not occur in its own value.*\nFix: ')
        client.change(URI, RIGHT, 2)
        self.assertEqual(client.diagnostics(URI, 2), [])
        for version, text, code, place in (
            (3, RIGHT + '  x += 3000000000\n', 2, span(16, 7, 17)),
            (4, RIGHT.replace('k += 1', 'k += 1;'), 1, span(13, 10, 11)),
            (5, 'class P\n  int x\nmethod main()\n  x += // \U0001d11e \u00f6\n', 3, span(3, 4, 6)),
            (6, 'class P\n  int x\n// no method\n', 11, span(1, 6, 7)),
            (7, 'class P\n  int x\nmethod main()\n  x += \u00f6\n', 1, span(3, 7, 8)),
        ):
            client.change(URI, text, version)
            found = [(each['code'], each['range']) for each in client.diagnostics(URI, version)]
            self.assertEqual(found, [(code, place)], text)

    def test_the_last_of_many_changes_is_judged(self):
        client = self.client
        client.open(URI, TEXT)
        for version in range(2, 40):
            client.change(URI, RIGHT if version % 2 else TEXT, version)
        self.assertEqual(client.diagnostics(URI, 39), [])
        told = [each for each in client.heard if each.get('method') == 'textDocument/publishDiagnostics']
        self.assertLess(len(told), 10)

    def test_two_texts(self):
        client = self.client
        client.open(URI, TEXT)
        client.open(OTHER, RIGHT)
        self.assertEqual((len(client.diagnostics(URI, 1)), client.diagnostics(OTHER, 1)), (1, []))
        client.tell('textDocument/didClose', {'textDocument': {'uri': URI}})
        name = 'textDocument/publishDiagnostics'
        closed = client.wait(lambda it: it.get('method') == name and it['params']['uri'] == URI)
        self.assertEqual(closed['params']['diagnostics'], [])
        self.assertIn('error', client.answer('textDocument/hover', at(1, 7)))

    def test_names(self):
        client = self.client
        client.open(URI, TEXT)
        self.assertEqual(self.ranges('textDocument/definition', at(14, 17)), [span(4, 7, 10)])
        self.assertEqual(self.ranges('textDocument/definition', at(8, 3)), [span(1, 6, 10)])
        self.assertEqual(self.ranges('textDocument/definition', at(13, 4)), [span(11, 12, 13)])
        self.assertIsNone(client.ask('textDocument/definition', at(13, 7)))
        every = [span(11, 12, 13), span(13, 4, 5), span(13, 12, 13), span(13, 17, 18), span(15, 14, 15)]
        with_it, without = {'includeDeclaration': True}, {'includeDeclaration': False}
        self.assertEqual(self.ranges('textDocument/references', at(11, 12, context=with_it)), every)
        self.assertEqual(self.ranges('textDocument/references', at(11, 12, context=without)), every[1:])
        self.assertEqual(self.ranges('textDocument/documentHighlight', at(15, 15)), every)

    def test_rename(self):
        client, program = self.client, Program.found()
        client.open(URI, RIGHT)
        prepared = client.ask('textDocument/prepareRename', at(8, 9))
        self.assertEqual(prepared, {'range': span(8, 7, 11), 'placeholder': 'cell'})
        self.assertIsNone(client.ask('textDocument/prepareRename', at(13, 7)))
        for place, name, count in (((4, 8), 'store', 2), ((1, 7), 'Box', 3), ((2, 7), "v'", 2), ((11, 12), 'times', 4)):
            edits = client.ask('textDocument/rename', at(*place, newName=name))['changes'][URI]
            made = applied(RIGHT, edits)
            changed = [new for old, new in zip(words(RIGHT), words(made)) if old != new]
            self.assertEqual((len(edits), changed), (count, [name] * count))
            with program.folder() as folder:
                self.assertEqual(program.call('check', folder.write('made.rpp', made)).output, 'accepted\n', name)
        for place, name in (((9, 6), 'k'), ((10, 8), 'begin'), ((1, 7), 'Main'), ((9, 6), 'method'), ((9, 6), '2x'),
                            ((13, 7), 'y')):
            self.assertIn('error', client.answer('textDocument/rename', at(*place, newName=name)), name)

    def test_hover(self):
        client = self.client
        client.open(URI, TEXT)
        shown = lambda line, character: client.ask('textDocument/hover', at(line, character))
        self.assertEqual(shown(14, 16)['range'], span(14, 15, 18))
        for place, parts in (
            ((14, 16), ['method put(int n)', 'Adds n.', 'class `Cell`']),
            ((5, 3), ['int value', 'field of class `Cell`', 'what it holds']),
            ((12, 9), ['class Cell', '`int value`', '`put(int n)`']),
            ((13, 4), ['int k', 'local']),
            ((11, 3), ['local T x = a s delocal T x = b', '3 Delocal', "inverse: `local T x = b s' delocal T x = a`"]),
            ((13, 7), ['y += e', '16 SharedArray', 'inverse: `y -= e`']),
            ((14, 5), ['call y::q(x, z)', '5 Nil, 14 TooDeep, 15 Touched at the end', '`uncall y::q(x, z)`']),
            ((12, 5), ['new c y', '4 NotNil, 8 HeapFull', 'inverse: `delete c y`']),
        ):
            told = shown(*place)['contents']['value']
            for part in parts:
                self.assertIn(part, told, place)
        self.assertIsNone(shown(0, 5))

    def test_outline_and_folds(self):
        client = self.client
        client.open(URI, TEXT)
        outline = client.ask('textDocument/documentSymbol', at(0, 0))
        inner = lambda it: [(each['name'], each['kind'], each['detail']) for each in it['children']]
        shape = [(it['name'], it['kind'], inner(it)) for it in outline]
        self.assertEqual(shape, [('Cell', 5, [('value', 8, 'int'), ('put', 6, '(int n)')]),
                                 ('Main', 5, [('cell', 8, 'Cell'), ('x', 8, 'int'), ('main', 6, '()')])])
        self.assertEqual(outline[0]['children'][1]['selectionRange'], span(4, 7, 10))
        self.assertEqual(outline[1]['range']['start'], {'line': 7, 'character': 0})
        self.assertEqual(outline[1]['range']['end'], {'line': 15, 'character': 19})
        folds = [(it['startLine'], it['endLine']) for it in client.ask('textDocument/foldingRange', at(0, 0))]
        self.assertEqual(folds, [(1, 5), (4, 5), (7, 15), (10, 15), (11, 14)])

    def test_completion(self):
        client = self.client
        client.open(URI, TEXT.replace('cell::put(x)', 'cell::'))
        found = client.ask('textDocument/completion', at(14, 15))
        self.assertEqual([(it['label'], it['detail']) for it in found], [('put', '(int n) of Cell')])
        starts = {it['label']: it for it in client.ask('textDocument/completion', at(12, 4))}
        self.assertEqual(starts['from']['insertTextFormat'], 2)
        self.assertLess({'if', 'k', 'x', 'cell'}, set(starts))

    def test_layout(self):
        client = self.client
        client.open(URI, RIGHT)
        wanted = RIGHT.replace('// Adds', '\n// Adds').replace('method main', '\nmethod main')
        made = applied(RIGHT, client.ask('textDocument/formatting', at(0, 0)))
        self.assertEqual(made, wanted)
        client.change(URI, made, 2)
        self.assertEqual(client.ask('textDocument/formatting', at(0, 0)), [])
        short = 'class P method main() skip'
        client.change(URI, short, 3)
        made = applied(short, client.ask('textDocument/formatting', at(0, 0)))
        self.assertEqual(made, 'class P\n\nmethod main()\n  skip\n')
        for version, broken in enumerate(('class P method  main() x +=', 'class P\nmethod  main() skip;'), 4):
            client.change(URI, broken, version)
            self.assertEqual(client.ask('textDocument/formatting', at(0, 0)), [])

    def test_every_example(self):
        client = self.client
        for name in sorted(os.listdir(os.path.join(TOP, 'examples'))):
            if name.endswith('.rpp'):
                with open(os.path.join(TOP, 'examples', name), encoding='utf-8') as file:
                    client.open(f'file:///{name}', file.read())
                wrong = [each for each in client.diagnostics(f'file:///{name}', 1) if each['severity'] == 1]
                self.assertEqual(wrong, [], name)


class Life(unittest.TestCase):
    def test_what_is_no_request(self):
        client = LanguageClient()
        self.assertEqual(client.answer('textDocument/hover', at(0, 0))['error']['code'], -32002)
        client.begin()
        self.assertEqual(client.answer('textDocument/nothing', {})['error']['code'], -32601)
        client.tell('$/cancelRequest', {'id': 1})
        self.assertEqual(client.answer('textDocument/hover', at(0, 0))['error']['code'], -32602)
        client.tell('exit', None)
        self.assertEqual(client.end(), 1)

    def test_without_a_program(self):
        client = LanguageClient(ROOPLPP_PROGRAM=os.path.join(TOP, 'README.md'))
        client.begin()
        client.open(URI, TEXT)
        said = client.wait(lambda it: it.get('method') == 'window/showMessage')['params']['message']
        self.assertIn('ROOPLPP_PROGRAM', said)
        self.assertEqual(client.diagnostics(URI, 1), [])
        self.assertEqual(len(client.ask('textDocument/definition', at(14, 17))), 1)
        client.ask('shutdown', None)
        client.tell('exit', None)
        self.assertEqual(client.end(), 0)
        self.assertFalse([it for it in client.heard if it.get('method') == 'window/showMessage'])


class Paths(unittest.TestCase):
    """The paths of URIs, as editors write them."""

    def test_here(self):
        with mock.patch('rpp.language_server.os.name', 'posix'):
            self.assertEqual(path_of('file:///home/a%20b/list.rpp'), '/home/a b/list.rpp')

    def test_windows(self):
        with mock.patch('rpp.language_server.os.name', 'nt'):
            for uri, path in {'file:///c:/texts/list.rpp': r'c:\texts\list.rpp', 'file:///c%3A/a%20b/list.rpp': r'c:\a b\list.rpp',
                              'file://host/share/list.rpp': r'\\host\share\list.rpp', 'untitled:Untitled-1': 'Untitled-1'}.items():
                self.assertEqual(path_of(uri), path)
