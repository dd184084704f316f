"""`rpp run` and `rpp check`, over the examples and over texts that are wrong."""
import glob
import os
import re

from .base import EXAMPLES, LIST, SUMS, Case

# The first line of what is said, worked out by hand from the texts.
REFUSED = [
    ('class P int x method main() x += x', 'bad.rpp:1:29: refused 16 SelfUpdate'),
    ('class P\n  int x\nmethod main()\n\tx += y\n', 'bad.rpp:4:7: refused 13 UnknownName'),
    ('class P\n  int x\nmethod main()\n  if x = 0 then skip fi x = 0\n', 'bad.rpp:4:22: refused 3 Syntax'),
    ('class P\n  int x\nmethod main()\n', 'bad.rpp:3:14: refused 3 Syntax'),
    ('class P\n  int x // é\nmethod go()\n  skip\n', 'bad.rpp:4:7: refused 11 NoMain'),
]
FAULTS = [
    # The statement that fails is the `if` and not the one that began last.
    ('class P\n  int x\nmethod main()\n  if x = 0 then\n    x += 1\n  else skip fi x = 0\n', 'bad.rpp:4:3: fault 1 Fi'),
    ('class P\n  int x\nmethod main()\n  x += 1\n  from x = 0 do skip loop skip until x = 1\n', 'bad.rpp:5:3: fault 2 Loop'),
    ('class P\n  P p\nmethod main()\n  call p::f()\nmethod f()\n  skip\n', 'bad.rpp:4:3: fault 5 Nil'),
    ('class P\n  int[] a\nmethod main()\n  new int[2] a\n  a[2] += 1\n', 'bad.rpp:5:3: fault 9 Index'),
    ('class P\nmethod main()\n  construct C c\n    call c::f()\n  destruct c\nclass C\n  int n\nmethod f()\n  n += 1\n', 'bad.rpp:3:3: fault 7 NotEmpty'),
    ('class P\nmethod main()\n  call f()\nmethod f()\n  call f()\n', 'bad.rpp:5:3: fault 14 TooDeep'),
]


class Runs(Case):
    def test_every_example_runs_with_the_defaults(self):
        for source in sorted(glob.glob(os.path.join(EXAMPLES, '*.rpp'))):
            name = source[:-len('.rpp')]
            with open(name + '.status', encoding='utf-8') as file:
                if int(file.read()) != 0:
                    continue
            with open(name + '.expected', encoding='utf-8') as file:
                wanted = self.report(file.read())
            given = ['--input', name + '.input'] if os.path.isfile(name + '.input') else []
            given += ['--depth', '202'] if os.path.basename(name) == 'deep' else []
            with self.subTest(source=source):
                done = self.rpp('run', source, *given)
                self.assertEqual((done.returncode, self.report(done.stdout)), (0, wanted))

    @staticmethod
    def report(printed):
        """Only the report, without the steps or the cost after it, each array of ints in a line."""
        lines = re.match(r'(?:.*\n)*?live \d+\n', printed)[0]
        fold = lambda found: f'{found[1]}: {" ".join(re.findall("= (.*)", found[2]))}\n'
        return re.sub(r'^(#\d+ int\[.*)\n((?:  \[.*\n)+)', fold, lines, flags=re.M)

    def test_there_and_back(self):
        done = self.rpp('run', os.path.join(EXAMPLES, 'counter.rpp'), 'count=4', '--back')
        lines = done.stdout.split('\n')
        self.assertEqual(lines[:3] + lines[5:8], ['count = 7', 'before = 4', 'live 0', 'count = 4', 'before = 0', 'live 0'])

    def test_words_stand_in_the_place_of_lines(self):
        self.write('in', 'count = 1\nbefore = -2\n')
        done = self.rpp('run', os.path.join(EXAMPLES, 'counter.rpp'), '--input', 'in', 'count=10')
        self.assertEqual(done.stdout.split('\n')[:2], ['count = 13', 'before = 8'])

    def test_inputs_that_are_refused(self):
        counter = os.path.join(EXAMPLES, 'counter.rpp')
        self.write('in', '\ncount = many\n')
        rows = [(['missing=1'], 8, 'the input is refused: 37 UnknownField at line 1: missing = 1'),
                (['--input', 'in'], 8, 'the input is refused: 40 BadInputLine at line 2: count = many'),
                (['--heap', '21'], 8, '--heap 21: it must be a number from 1 to 20; the heap has 2^H words'),
                (['--depth', '0'], 8, '--depth 0: it must be a number from 1 to 8192, the most active calls')]
        for words, status, first in rows:
            with self.subTest(words=words):
                done = self.rpp('run', counter, *words)
                self.assertEqual((done.returncode, done.stdout.split('\n')[0]), (status, first))
        for words in (['count'], ['count=x'], ['count=1', 'count=2']):
            with self.subTest(words=words):
                self.assertEqual(self.rpp('run', counter, *words).returncode, 1)

    def test_the_bound_names_a_larger_one(self):
        done = self.rpp('run', LIST, '--steps', '1000')
        self.assertEqual(done.returncode, 6)
        self.assertIn('it had not ended after 1,000 steps', done.stdout)
        self.assertIn('--steps 10000', done.stdout)

    def test_a_full_heap_or_too_many_calls_names_more(self):
        done = self.rpp('run', LIST, '--heap', '1')
        self.assertEqual(done.returncode, 5)
        self.assertIn('The run had --heap 1; a larger one is --heap 5.', done.stdout)
        for length, said in {100000: 'The run had --heap 12; a larger one is --heap 17.', 1048574: 'a larger one is --heap 20.',
                             1048575: 'No heap is large enough: the largest, --heap 20, has 1,048,576 words.'}.items():
            source = self.write('large.rpp', f'class P int[] a method main() new int[{length}] a')
            self.assertIn(said, self.rpp('run', source).stdout)
        source = self.write('bad.rpp', FAULTS[-1][0])
        self.assertIn('The run had --depth 64; more is --depth 1024.', self.rpp('run', source).stdout)
        self.assertIn('The run had the most calls, --depth 8192.', self.rpp('run', source, '--depth', '8192').stdout)

    def test_a_missing_source(self):
        done = self.rpp('run', 'absent.rpp')
        self.assertEqual((done.returncode, done.stdout), (2, 'absent.rpp: cannot read it: missing\n'))


class Refusals(Case):
    def test_place_line_rule_and_link(self):
        for text, first in REFUSED:
            with self.subTest(text=text):
                self.write('bad.rpp', text)
                done = self.rpp('run', 'bad.rpp')
                self.assertEqual((done.returncode, done.stdout.split('\n')[0]), (3, first))
                self.assertIn('\nSee docs/reference/messages.md#', done.stdout)
                checked = self.rpp('check', 'bad.rpp', '--brief')
                self.assertEqual(checked.returncode, 1)
                self.assertTrue(checked.stdout.startswith(first + ': '))
                self.assertEqual(checked.stdout.count('\n'), 1)

    def test_several_files(self):
        self.write('good.rpp', 'class P method main() skip')
        self.write('bad.rpp', REFUSED[0][0])
        done = self.rpp('check', 'good.rpp', 'bad.rpp', LIST)
        self.assertEqual(done.returncode, 1)
        self.assertTrue(done.stdout.startswith('good.rpp: accepted\nbad.rpp:1:29: refused 16 SelfUpdate: '))
        self.assertTrue(done.stdout.endswith(f'{LIST}: accepted\n'))
        self.assertEqual(self.rpp('check', 'good.rpp', LIST).returncode, 0)
        self.assertEqual(self.rpp('check', 'absent.rpp', 'bad.rpp').returncode, 2)


class Faults(Case):
    def test_the_statement_that_fails(self):
        for text, first in FAULTS:
            with self.subTest(text=text):
                self.write('bad.rpp', text)
                done = self.rpp('run', 'bad.rpp')
                self.assertEqual((done.returncode, done.stdout.split('\n')[0]), (5, first))
                self.assertIn('\nSee docs/reference/messages.md#fault-', done.stdout)

    def test_the_test_with_its_variables(self):
        done = self.rpp('run', SUMS, 'a=4', 'b=8')
        self.assertTrue(done.stdout.startswith(f'{SUMS}:8:3: fault 3 Delocal\n'))
        self.assertIn(f'at that moment:\n{SUMS}:13:21: `sum` is 8 after the block, and must be 0\n', done.stdout)
        self.assertIn('  a = -4\n  b = 8\n  total = 12\n  sum = 8\n', done.stdout)

    def test_the_last_statement_with_its_variables(self):
        self.write('bad.rpp', 'class P\n  int[] a  int n\nmethod main()\n  n += 3\n  new int[2] a\n  a[n] += 1\n')
        done = self.rpp('run', 'bad.rpp')
        self.assertIn('the variables before it:\nbad.rpp:6:3: position 2\n', done.stdout)
        self.assertIn('  a = #2\n  n = 3\n', done.stdout)

    def test_the_calls_around(self):
        self.write('bad.rpp', 'class P\nmethod main()\n  call f()\nmethod f()\n  call f()\n')
        done = self.rpp('run', 'bad.rpp', '--depth', '5')
        self.assertIn('called in P.f at bad.rpp:5:3, 3 times\ncalled in P.main at bad.rpp:3:3\n', done.stdout)


class States(Case):
    def test_a_run_begins_with_the_input(self):
        self.program.call('compile', os.path.join(EXAMPLES, 'counter.rpp'), os.path.join(self.folder, 'c.img'))
        self.write('in', 'count = -4\n')
        done = self.rpp('state', 'c.img', 'in', '-o', 'c.state', '--heap', '3', '--depth', '2')
        self.assertEqual((done.returncode, done.stderr), (0, ''))
        names = [os.path.join(self.folder, name) for name in ('c.img', 'c.state', 'e.state')]
        answer = self.program.call('run', names[0], 3, 2, 1000, *names[1:])
        self.assertTrue(answer.output.startswith('finished\n'))
        self.assertTrue(answer.output.endswith('count = -1\nbefore = -4\n'))

    def test_the_input_is_words(self):
        self.program.call('compile', os.path.join(EXAMPLES, 'counter.rpp'), os.path.join(self.folder, 'c.img'))
        done = self.rpp('state', 'c.img', 'count=-4', '-o', 'c.state', 'before=7')
        self.assertEqual((done.returncode, done.stdout.split('\n')[0]), (0, 'c.state: a start state with 2 numbers'))
        names = [os.path.join(self.folder, name) for name in ('c.img', 'c.state', 'e.state')]
        # (`before += count`, `count += 3`)
        self.assertTrue(self.program.call('run', names[0], 12, 64, 1000, *names[1:]).output.endswith('count = -1\nbefore = 3\n'))

    def test_words_that_are_no_input(self):
        self.program.call('compile', os.path.join(EXAMPLES, 'counter.rpp'), os.path.join(self.folder, 'c.img'))
        source = self.write('c.rpp', 'class P int n method main() n += 1')
        for words, said in ((['c.img', 'count=x'], 'count=x: an input must be NAME=NUMBER, such as n=5, or one file of such lines'),
                            (['c.img', 'count=1', 'c.rpp'], 'c.rpp: an input must be NAME=NUMBER'),
                            (['c.img', 'count=1', 'count=2'], 'names count a second time'),
                            ([source, 'n=3'], f'{source} is a source: name the image that `rooplpp compile {source} IMG` writes')):
            with self.subTest(words=words):
                done = self.rpp('state', *words, '-o', 'c.state')
                self.assertEqual((done.returncode, os.path.exists(os.path.join(self.folder, 'c.state'))), (1, False))
                self.assertIn(said, done.stderr)

    def test_names_that_are_none(self):
        self.program.call('compile', os.path.join(EXAMPLES, 'counter.rpp'), os.path.join(self.folder, 'c.img'))
        self.write('in', 'other = 1\n')
        done = self.rpp('state', 'c.img', 'in', '-o', 'c.state')
        self.assertEqual(done.returncode, 1)
        self.assertIn('names no int field other; it has before, count', done.stderr)
        self.assertFalse(os.path.exists(os.path.join(self.folder, 'c.state')))
