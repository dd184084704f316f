"""What the language server shows besides names: quick fixes, colours, signatures, lenses, symbols of a folder, warnings; and how long an
answer takes after a keystroke."""
import glob
import json
import os
import unittest

from rpp.editing import Analysis
from rpp.formatter import formatted, layout_edits
from rpp.glance import Glance
from rpp.lint import warnings
from rpp.tokens import cut

from .base import EXAMPLES, Case
from .pace import long_text, loops
from .protocol_client import LanguageClient
from .test_language_server import RIGHT, URI, applied, at, span

ASSIGNED = 'class P\n  int x\nmethod main()\n  x = 5\n'
CALLS = """class P
  int x
  C c
method main()
  call c::two(x, )
class C
// Adds both.
method two(int first, int[] rest)
  skip
"""
TOKENS = 20_000
# In loops of pace.py: twice what was measured. A loop takes some 17 ms on a machine where nothing else runs.
FORMATTED, ANSWERED = 5, 3

WARNED = [
    ('class P int x int y method main() if x & 1 = 0 then y += 1 else skip fi y = 1', 'Order', 'this is `x & (1 = 0)`'),
    ('class P int x int y method main() y += x | 4 < 2', 'Order', 'this is `x | (4 < 2)`'),
    ('class P int x int y method main() y += 0 <= x <= 10', 'Chain', 'This is `(0 <= x) <= 10`, which compares 0 or 1. Write `0 <= x && x <= 10`.'),
    ('class P int x int y method main() if x = y = 0 then skip else skip fi x = 0', 'Chain', 'Write `x = y && y = 0`.'),
    ('class P int x int y method main() x += y // 2\n', 'Comment', '`//` begins a comment, so this value is only `y`: there is no quotient.'),
    ('class P int x int y method main() local int h = y + 1 // y\n x += h delocal int h = y + 1', 'Comment', 'only `y + 1`'),
    ('class P int x int y method main() x += 1', 'Unused', 'The field `y` is never used.'),
    ('class P int x method main() local int t = 0 x += 1 delocal int t = 0', 'Unused', 'The local `t` is never used.'),
    ('class P int x method main() x += 1 method f() x += 1', 'Unused', 'The method `f` is never used.'),
    ('class P int x method main() x += 1 class Q int y method f() y += 1', 'Unused', 'The class `Q` is never used.'),
    ('class P int x int y method main() from x = 0 do x += 1 loop skip until y = 3', 'Loop', 'Nothing in this loop changes `y = 3`'),
]
NOT_WARNED = [
    'class P int x int y method main() y += (x & 1) = 0',
    'class P int x int y method main() y += x = 1 & x = 2',
    'class P int x int y method main() y += (0 <= x) <= 10',
    'class P int x int y method main() y += 0 <= x = x <= 10',
    'class P int x int y method main() x += y // 1\n y += 3 // 2\n y += x // 2 of them\n y += x\n// 2\n y += x // count\n y += x  // 2\n',
    'class P int x int y method main() y += x > 1 & (x | 4)',
    'class P int x int y method main() call f() uncall f() method f() x += y',
    'class P int x method main() from x = 0 do call f() loop skip until x = 3 method f() x += 1',
    'class P int[] a method main() new int[3] a from a[0] = 0 do a[0] += 1 loop skip until a[0] = 3',
    'class P C c method main() construct C t skip destruct t new C c call c::f() class C int x method f() x += 1',
    'class P A a B b method main() new A a new B b call a::f() class A int x method f() x += 1 class B inherits A method f() x += 2',
]


class Session(unittest.TestCase):
    def setUp(self):
        self.client = LanguageClient()
        self.able = self.client.begin()['capabilities']

    def tearDown(self):
        self.client.ask('shutdown', None)
        self.client.tell('exit', None)
        self.assertEqual(self.client.end(), 0)

    def test_quick_fix(self):
        self.client.open(URI, ASSIGNED)
        found = self.client.diagnostics(URI, 1)
        self.assertIn('assignment by `=` would lose its old value', found[0]['message'])
        asked = {'textDocument': {'uri': URI}, 'range': span(3, 4, 4), 'context': {'diagnostics': found}}
        actions = self.client.ask('textDocument/codeAction', asked)
        self.assertEqual([each['title'] for each in actions], ['Write `+=`'])
        self.assertEqual(applied(ASSIGNED, actions[0]['edit']['changes'][URI]), ASSIGNED.replace('x = 5', 'x += 5'))
        self.client.change(URI, ASSIGNED.replace('x = 5', 'x += 5'), 2)
        self.assertEqual(self.client.diagnostics(URI, 2), [])
        self.assertEqual(self.client.ask('textDocument/codeAction', asked), [])

    def test_quick_fixes_of_names_and_forms(self):
        """What is wrong is put right by the edit: a name, a type, a call as in Java, an exchange as in Python."""
        right = CALLS.replace('call c::two(x, )', 'call c::two(x, a)').replace('  C c\n', '  C c\n  int[] a\n')
        for version, (old, new, title) in enumerate((
                ('class C', 'class D', None), ('  C c\n', '  Cc c\n', 'Write `C`'), ('c::two', 'c::twoo', 'Write `two`'),
                ('(x, a)', '(X, a)', 'Write `x`'), ('(x, a)', '(x a)', 'Write `,`'), ('call c::two(x, a)', 'c.two(x, a)', 'Write `::`'),
                ('(int first', '(first: int', 'Write `int first`'), ('  skip\n', '  rest, first = first, rest\n', 'Write `<=>`')), 1):
            text = right.replace(old, new)
            (self.client.open(URI, text) if version == 1 else self.client.change(URI, text, version))
            asked = {'textDocument': {'uri': URI}, 'range': span(0, 0, 0), 'context': {'diagnostics': self.client.diagnostics(URI, version)}}
            actions = self.client.ask('textDocument/codeAction', asked)
            with self.subTest(new=new):
                self.assertEqual([each['title'] for each in actions], [title] if title else [])
                if title and '<=>' not in title:
                    self.assertEqual(applied(text, actions[0]['edit']['changes'][URI]), right)
                elif title:
                    self.assertEqual(applied(text, actions[0]['edit']['changes'][URI]), right.replace('skip', 'rest <=> first'))

    def test_colours_of_names(self):
        self.client.open(URI, RIGHT)
        legend = self.able['semanticTokensProvider']['legend']['tokenTypes']
        data = self.client.ask('textDocument/semanticTokens/full', {'textDocument': {'uri': URI}})['data']
        lines, line, column, shown = RIGHT.split('\n'), 0, 0, []
        for down, right, length, kind, declared in zip(*[iter(data)] * 5):
            line, column = line + down, right + (0 if down else column)
            shown.append((lines[line][column:column + length], legend[kind], declared))
        self.assertEqual(shown[:4], [('Cell', 'class', 1), ('value', 'property', 1), ('put', 'method', 1), ('n', 'parameter', 1)])
        self.assertIn(('k', 'variable', 0), shown)
        self.assertIn(('put', 'method', 0), shown)

    def test_signature(self):
        self.client.open(URI, CALLS)
        for column, active in ((14, 0), (17, 1)):
            found = self.client.ask('textDocument/signatureHelp', at(4, column))
            shown = found['signatures'][0]
            self.assertEqual((shown['label'], found['activeParameter']), ('two(int first, int[] rest)', active))
            begin, end = shown['parameters'][active]['label']
            self.assertEqual(shown['label'][begin:end], ['int first', 'int[] rest'][active])
            self.assertEqual(shown['documentation'], 'Adds both.')
        self.assertIsNone(self.client.ask('textDocument/signatureHelp', at(1, 5)))
        self.assertIsNone(self.client.ask('textDocument/signatureHelp', at(7, 14)))

    def test_lenses(self):
        self.client.open(URI, 'class P\n  int x\nmethod main()\n  x += 5\n')
        lenses = self.client.ask('textDocument/codeLens', {'textDocument': {'uri': URI}})
        self.assertEqual([(each['range']['start']['line'], each['command']['title']) for each in lenses], [(2, 'run'), (2, 'there and back')])
        said = [self.client.ask('workspace/executeCommand', {key: each['command'][key] for key in ('command', 'arguments')})
                for each in lenses]
        self.assertEqual(said[0].split('\n')[:2], ['x = 5', 'live 0'])
        self.assertIn('\nx = 0\nlive 0\nrestored ', said[1])
        self.assertIn('error', self.client.answer('workspace/executeCommand', {'command': 'rpp.other', 'arguments': [URI]}))

    def test_warnings(self):
        for version, (text, name, said) in enumerate(WARNED, 2):
            if version == 2:
                self.client.open(URI, RIGHT)
            self.client.change(URI, text, version)
            found = self.client.diagnostics(URI, version)
            with self.subTest(text=text):
                self.assertEqual([(each['severity'], each['code']) for each in found], [(2, name)])
                self.assertIn(said, found[0]['message'])


class Folder(Case):
    def test_symbols_of_a_folder(self):
        self.write('cell.rpp', 'class Cell\n  int value\nmethod put(int n)\n  value += n\n')
        os.mkdir(os.path.join(self.folder, 'deep'))
        self.write(os.path.join('deep', 'other.rpp'), 'class Putter\n  int x\n')
        self.write('cell.txt', 'class Putty\n')
        client = LanguageClient()
        client.ask('initialize', {'processId': None, 'rootUri': f'file://{self.folder}', 'capabilities': {}})
        client.open('file:///open.rpp', 'class Open\nmethod reput()\n  skip\n')
        found = client.ask('workspace/symbol', {'query': 'PUT'})
        self.assertEqual(sorted((each['name'], each.get('containerName', '')) for each in found), [('Putter', ''), ('put', 'Cell'), ('reput', 'Open')])
        put = next(each for each in found if each['name'] == 'put')['location']
        self.assertEqual((put['uri'], put['range']['start']['line']), (f'file://{self.folder}/cell.rpp', 2))
        client.ask('shutdown', None)
        client.tell('exit', None)
        self.assertEqual(client.end(), 0)


class Lint(Case):
    def test_what_is_not_warned_of(self):
        for text in NOT_WARNED:
            with self.subTest(text=text):
                self.assertEqual(self.program.call('check', self.write('text.rpp', text)).output, 'accepted\n')
                self.assertEqual([each.sentence for each in warnings(Analysis(text.encode()))], [])

    def test_examples_have_few(self):
        found = []
        for path in glob.glob(os.path.join(EXAMPLES, '*.rpp')):
            with open(path, 'rb') as file:
                found += [(os.path.basename(path), each.sentence) for each in warnings(Analysis(file.read()))]
        self.assertLessEqual(len(found), 3, found)

    def test_check(self):
        source = self.write('a.rpp', WARNED[0][0] + '\n')
        done = self.rpp('check', '--lint', source)
        self.assertEqual(done.returncode, 0)
        self.assertIn('a.rpp:1:38: warning: `=` binds more closely than `&`', done.stdout)
        value = json.loads(self.rpp('check', '--lint', '--json', source).stdout)
        self.assertEqual(value['sources'][0]['warnings'][0]['name'], 'Order')


class Speed(unittest.TestCase):
    """What the layout and an answer after a keystroke cost, in a text of 20,000 tokens."""

    @classmethod
    def setUpClass(cls):
        cls.text = long_text().encode()
        assert TOKENS - 1000 < len(cut(cls.text)[0]) < TOKENS + 1000, len(cut(cls.text)[0])

    def takes_at_most(self, most, action):
        taken = loops(action, most)
        self.assertLessEqual(taken, most, f'it takes as long as {taken:.1f} loops')

    def test_layout(self):
        known = Analysis(self.text).source
        self.takes_at_most(FORMATTED, lambda: layout_edits(self.text, known))

    def test_edits_are_the_layout(self):
        for path in [None, *sorted(glob.glob(os.path.join(EXAMPLES, '*.rpp')))]:
            text = self.text
            if path:
                with open(path, 'rb') as file:
                    text = file.read().replace(b'  ', b' ')
            made = text
            for begin, end, new in reversed(layout_edits(text, Analysis(text).source)):
                made = made[:begin] + new + made[end:]
            self.assertEqual(made, formatted(text), path)

    def test_answers_after_a_keystroke(self):
        place = self.text.index(b'n += t + 300')
        for ask in (lambda it: it.completions(place), lambda it: it.symbols(), lambda it: it.names.token_at(place)):
            self.takes_at_most(ANSWERED, lambda: ask(Glance(self.text, place)))

    def test_a_look_says_the_same(self):
        for path in sorted(glob.glob(os.path.join(EXAMPLES, '*.rpp'))):
            with open(path, 'rb') as file:
                text = file.read()
            whole, tokens = Analysis(text), Analysis(text).source.tokens
            shape = lambda it: [(each.kind, each.name, each.begin, each.end, shape(each.children) if each.children else 0) for each in it]
            self.assertEqual(shape(Glance(text).symbols()), shape(whole.symbols()), path)
            for token in tokens[::29]:
                self.assertEqual(Glance(text, token.at).completions(token.at), whole.completions(token.at), (path, token))
