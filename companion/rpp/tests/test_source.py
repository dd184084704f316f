"""The tolerant parser, the names and the layout, against the program and against what was worked out by hand."""
import glob
import os
import random
import unittest

from rpp.editing import Analysis
from rpp.formatter import formatted
from rpp.forms import FORMS, forms_of
from rpp.messages import faults
from rpp.program import TOP, Program
from rpp.source import parsed
from rpp.tokens import KEYWORDS, OPERATORS, cut

EXAMPLES = sorted(glob.glob(os.path.join(TOP, 'examples', '*.rpp')))
GAPS = [b' ', b' ', b' ', b'  ', b'\t', b'\n', b'\n  ', b'\n\n', b'\n\n\n  ', b' // behind\n', b'\n  // alone  \n',
        b'\n//left\n', b'\n\n// two\n  // lines\n\n    ', b'   // wide\r\n']
SIGNS = ['x', 'Node', '3', '(', ')', '[', ']', ',', '::', '+=', '<=>', 'method', 'class', '?']


def read(path):
    with open(path, 'rb') as file:
        return file.read()


def words(text):
    return [each.text for each in cut(text)[0]]


def remarks(text):
    return [each.text.rstrip() for each in cut(text)[1]]


def scattered(text, chance):
    """The tokens of a text with other white space and comments between them."""
    gap = lambda: b''.join(chance.choices(GAPS, k=chance.choice([1, 1, 2])))
    return b''.join(each.encode('latin-1') + gap() for each in words(text))


class Grammar(unittest.TestCase):
    """What the parser takes whole is what the grammar derives, as the program says: no refusal 1 and no refusal 3."""

    def test_damaged_texts(self):
        program, chance = Program.found(), random.Random(5)
        texts = [read(each) for each in EXAMPLES]
        pool = sorted(KEYWORDS | OPERATORS) + SIGNS
        with program.folder() as folder:
            for number in range(250):
                tokens = words(chance.choice(texts))
                for _ in range(chance.choice([0, 1, 1, 2])):
                    at = chance.randrange(len(tokens))
                    tokens[at : at + chance.choice([0, 1, 1])] = chance.choice([[], [chance.choice(pool)]])
                text = ' '.join(tokens)
                said = program.call('check', folder.write('text.rpp', text)).output
                is_derived = not said.startswith(('refused 1 ', 'refused 3 '))
                self.assertEqual(parsed(text.encode()).is_whole, is_derived, f'{number}: {said} {text}')

    def test_any_bytes_are_taken(self):
        chance = random.Random(6)
        for number in range(200):
            text = bytes(chance.choice(b'classmethod if then ( [ ] ) x1 :: += \n//\xff') for _ in range(200))
            self.assertIsNotNone(Analysis(text), number)
        head = b'class A method m() '
        for text in (b'(' * 30000, head + b'if x then ' * 8000, head + b'x += ' + b'a[' * 9000):
            self.assertFalse(Analysis(text).source.is_whole)


class Meaning(unittest.TestCase):
    """Each name of an accepted program means something; which one is worked out by hand."""

    def test_every_name_means_something(self):
        program = Program.found()
        for path in EXAMPLES:
            self.assertEqual(program.call('check', path).output, 'accepted\n', path)
            found = Analysis(read(path))
            named = {at for at, each in enumerate(found.source.tokens) if each.kind == 'name'}
            self.assertEqual(named - set(found.names.meaning), set(), path)

    def test_places(self):
        text = b"""class A
  int x   // one
  B b
method m(int x, B[] c)
  x += 1
  local int y = x
    call c[y]::q(y)
  delocal int y = x
class B inherits A
method m(int z, B[] c)
  x += z
method q(int y)
  y += x
class C
  int x
method main()
  local int x = 3
    x += 1
  delocal int x = 4
  x += 2
"""
        # (each name, how many of them mean what the first of these does, and at which of them it is declared)
        wanted = {('x', 0): [0, 5, 6], ('x', 1): [1, 2, 3, 4], ('y', 0): [0, 1, 2, 3], ('y', 4): [4, 5], ('q', 0): [0, 1],
                  ('m', 0): [0, 1], ('A', 0): [0, 1], ('B', 0): [0, 1, 2, 3], ('x', 7): [7, 11], ('x', 8): [8, 9, 10]}
        found = Analysis(text)
        for (name, first), others in wanted.items():
            every = [at for at, each in enumerate(found.source.tokens) if each.text == name]
            means = found.names.meaning[every[first]]
            self.assertEqual([every.index(at) for at in found.names.places(means)], others, (name, first))

    def test_renames(self):
        text = b'class P\n  int a\n  int b\nmethod main()\n  a += b\n  local int t = 0\n    t += a\n  delocal int t = a\n'
        found = Analysis(text)
        at = found.names.token_at(text.index(b'a +='))
        self.assertEqual(found.with_edits(found.renamed(at, 'sum')).decode(), text.decode().replace(' a', ' sum'))
        self.assertTrue(found.keeps_meaning(found.renamed(at, 'sum')))
        for taken in ('b', 't'):
            self.assertFalse(found.keeps_meaning(found.renamed(at, taken)), taken)


class Forms(unittest.TestCase):
    """Each form says what it does, and is the inverse of its inverse."""

    def test_forms(self):
        for word, form in FORMS.items():
            with self.subTest(word=word):
                self.assertTrue(form.meaning)
                self.assertTrue(form.rules or word == 'skip')
                self.assertLessEqual(set(form.faults), set(faults()))
        for word in ('new', 'new[]', 'copy', 'call', 'call::', 'if', 'local'):
            one = FORMS[word]
            other = next(form for form in FORMS.values() if form.shape.split()[0] == one.inverse.split()[0])
            self.assertEqual(other.inverse.split()[0], one.shape.split()[0])

    def test_words_of_forms(self):
        for word in KEYWORDS - {'class', 'inherits', 'method', 'int', 'nil'}:
            self.assertTrue(forms_of(word), word)


class Layout(unittest.TestCase):
    def check(self, text, name):
        """The layout keeps tokens and comments, and laid out again a text is the same."""
        made = formatted(text)
        self.assertEqual(words(made), words(text), name)
        self.assertEqual(remarks(made), remarks(text), name)
        self.assertEqual(formatted(made), made, name)
        return made

    def test_examples(self):
        for path in EXAMPLES:
            self.check(read(path), path)

    def test_generated(self):
        program = Program.found()
        with program.folder() as folder:
            for seed in range(6):
                out = folder.name('items.rpp')
                self.assertEqual(program.call('generate', seed, 1 + 40 * seed, out).status, 0)
                made = self.check(read(out), seed)
                inverses = []
                for number, text in enumerate((read(out), made)):
                    with open(folder.name('text.rpp'), 'wb') as file:
                        file.write(text)
                    program.call('show-inverse', folder.name('text.rpp'), folder.name(f'inverse{number}.rpp'))
                    inverses.append(read(folder.name(f'inverse{number}.rpp')))
                self.assertEqual(inverses[0], inverses[1], seed)

    def test_scattered(self):
        chance = random.Random(7)
        for number in range(150):
            path = chance.choice(EXAMPLES)
            self.check(scattered(read(path), chance), f'{path} {number}')

    def test_worked_out(self):
        before = b"""// Adds.
class   P  int x  int y // fields
  int[ ] a
method main( )
x+=( 1+y )*2 y<=>x     // both
local Node n=nil   local int k = a [0]
if x=0 then skip else
    // not yet
    call n :: put( x ,y ) fi x=0
  from x=0 do skip loop x-=1 until x = 9


    delocal int k=0 delocal Node n=nil
// the end of m
  method m(int k)
    skip // nothing
"""
        after = b"""// Adds.
class P
  int x  int y  // fields
  int[] a

method main()
  x += (1 + y) * 2  y <=> x     // both
  local Node n = nil
    local int k = a[0]
      if x = 0 then
        skip
      else
        // not yet
        call n::put(x, y)
      fi x = 0
      from x = 0 do skip loop x -= 1 until x = 9

    delocal int k = 0
  delocal Node n = nil

// the end of m
method m(int k)
  skip  // nothing
"""
        self.assertEqual(self.check(before, 'worked out').decode(), after.decode())

    def test_what_is_left_as_it_is(self):
        remark = b'  // a remark, and no class is wrong: \xc3\xb6 \xff x'
        for text in (b'class P method main() x +=', b'class P  method main()\n  x  += 1;\n', remark):
            made = formatted(text)
            self.assertEqual(words(made), words(text))
        self.assertEqual(formatted(b'class P method  main() x +='), b'class P method  main() x +=')
        self.assertEqual(formatted(b''), b'')
        self.assertEqual(formatted(b'class P\r\nmethod main()\r\nskip\r\n'), b'class P\r\n\r\nmethod main()\r\n  skip\r\n')
        self.assertEqual(formatted(b'// one\nclass P\r\nmethod main()\r\nskip // two'),
                         b'// one\r\nclass P\r\n\r\nmethod main()\r\n  skip  // two\r\n')


class Completion(unittest.TestCase):
    TEXT = """class List
  Node head
  int sum
method main()
  local Node fresh = nil
    {}
  delocal Node fresh = nil
method put(int v, Node[] all)
  {}
class Node inherits List
  int value
method fill(int v)
  value += v
"""

    def labels(self, first='', second='', hole=0):
        """What can fill a hole of the text, the other one being filled."""
        parts = self.TEXT.split('{}')
        written = [first, second]
        before = parts[0] + written[0] + (parts[1] + written[1] if hole else '')
        rest = (parts[1] + written[1] if not hole else '') + parts[2]
        return {each.label for each in Analysis((before + rest).encode()).completions(len(before.encode()))}

    def test_by_what_stands_before(self):
        skip = 'skip'
        self.assertEqual(self.labels('call fresh::', skip), {'fill', 'main', 'put'})
        self.assertEqual(self.labels('call fresh::fi', skip), {'fill', 'main', 'put'})
        self.assertEqual(self.labels('skip', 'call all[0]::', 1), {'fill', 'main', 'put'})
        self.assertEqual(self.labels('skip', 'call all::', 1), set())
        self.assertEqual(self.labels('call ', skip), {'main', 'put', 'head', 'fresh'})
        self.assertEqual(self.labels('new ', skip), {'int', 'List', 'Node'})
        self.assertEqual(self.labels('sum += ', skip), {'fresh', 'head', 'sum', 'nil'})
        self.assertEqual(self.labels(skip, 'v += (', 1), {'v', 'all', 'head', 'sum', 'nil'})
        self.assertEqual(self.labels('skip // n', skip), set())
        starts = self.labels('i', skip)
        self.assertTrue({'if', 'from', 'local', 'uncall', 'fresh', 'sum'} <= starts)
        self.assertFalse({'v', 'value', 'int', 'then'} & starts)

    def test_what_closes(self):
        for text, wanted in (('local int k = 0\n k += 1\n', 'delocal int k = '), ('if 1 then skip ', 'else'),
                             ('from 1 do skip loop skip ', 'until'), ('construct P p skip ', 'destruct p'),
                             ('if 1 then skip else skip ', 'fi')):
            whole = f'class P\n  int x\nmethod main()\n  {text}'.encode()
            self.assertIn(wanted, {each.label for each in Analysis(whole).completions(len(whole))}, text)
