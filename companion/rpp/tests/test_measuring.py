"""`rpp stat`: what runs take, worked out by the rules of docs/reference/language.md; the table, the files and the plot."""
import csv
import json
import re
import unittest
from xml.etree import ElementTree

from rpp.measuring import inputs_of, numbers_of
from rpp.options import Unfit
from rpp.plot import Panel, Series, number, plot, ticks
from rpp.tests.base import Case

TOTAL = '''class Total int n int sum method main()
  local int i = 0
    from i = 0 do skip loop i += 1 sum += i until i = n
  delocal int i = n
'''
ROOM = '''class P int x C a int[] b method main()
  new C a  new int[5] b  delete int[5] b  new int[1] b  call go()
  method go() x += 7
class C int f
'''


class MeasuringTest(Case):
    def rows(self, source: str, *words: str):
        done = self.rpp('stat', self.write('f.rpp', source), *words, '--json', '-')
        self.assertEqual((done.returncode, done.stderr), (0, ''))
        found = json.loads(done.stdout)
        self.assertEqual(found['version'], 1)
        return found['rows']

    def test_cost_and_statements(self):
        # local 1 + 1 + 1, from 1, its first iteration 3 + 1 + 3; and each further iteration 2 + 2 + 3 + 1 + 3
        # the statements are local, from, skip, and 3 in each further iteration
        for row in self.rows(TOTAL, 'n=0..4', '--results', 'sum'):
            n = row['n']
            self.assertEqual((row['cost'], row['statements'], row['end']), (11 + 11 * n, 3 + 3 * n, 'done'))
            self.assertEqual((row['heap'], row['stack'], row['garbage']), (0, 512, 0))
            self.assertEqual(row['ratio'], round(row['steps'] / row['cost'], 3))
        told = self.program.call('go', self.write('g.rpp', TOTAL), 12, 64, 10 ** 6, self.write('n', 'n = 4\n')).output
        self.assertIn(f'steps {row["steps"]}\n', told)

    def test_words_in_use(self):
        # (3 words take a block of 4, 7 words one of 8, and the 3 words of the second array one of 4: at most 4 + 8.)
        # (Two calls are active in `go`. Two references are left besides the result, and 3 + 3 words of the objects.)
        row, = self.rows(ROOM, '--results', 'x')
        self.assertEqual((row['heap'], row['stack'], row['garbage']), (12, 1024, 8))
        row, = self.rows(ROOM)
        self.assertEqual(row['garbage'], 9)
        row, = self.rows(ROOM, '--results', 'x,a,b')
        self.assertEqual(row['garbage'], 0)

    def test_words_of_a_body_that_runs_backward(self):
        row, = self.rows('class P int[] b method main() call make() uncall make() method make() new int[5] b')
        self.assertEqual((row['heap'], row['garbage'], row['stack']), (8, 0, 1024))
        row, = self.rows('class P int x method main() construct C c construct C d x += 1 destruct d destruct c class C int f int g int h')
        # (5 words take a block of 8, and two are open in the inner block)
        self.assertEqual((row['heap'], row['garbage']), (16, 1))

    def test_runs_that_do_not_end_well(self):
        row, = self.rows('class P P p int x method main() x += 1 delete P p')
        self.assertEqual((row['end'], row['cost'], row['garbage'], row['statements']), ('fault 5 Nil', None, None, 1))
        row, = self.rows(TOTAL, 'n=-1', '--steps', '1000')
        self.assertEqual((row['end'], row['steps']), ('bound', 1000))
        done = self.rpp('stat', self.write('f.rpp', 'class P int x method main() x += x'))
        self.assertEqual(done.returncode, 3)
        self.assertIn('SelfUpdate', done.stderr)

    def test_ranges(self):
        self.assertEqual(numbers_of('5'), [5])
        self.assertEqual(numbers_of('-2..2'), [-2, -1, 0, 1, 2])
        self.assertEqual(numbers_of('0..100:25'), [0, 25, 50, 75, 100])
        self.assertEqual(numbers_of('1,2,8'), [1, 2, 8])
        self.assertEqual(inputs_of(['a=1,2', 'b=7', 'c=0..1']), (['a', 'c'], [
            {'a': 1, 'b': 7, 'c': 0}, {'a': 1, 'b': 7, 'c': 1}, {'a': 2, 'b': 7, 'c': 0}, {'a': 2, 'b': 7, 'c': 1}]))
        for words in (['a'], ['a=x'], ['a=1', 'a=2'], ['a=1..'], ['a=1..9:0'], ['a=2..1'], ['a=1..9999']):
            with self.assertRaises(Unfit, msg=words):
                inputs_of(words)

    def test_files(self):
        path = self.write('total.rpp', TOTAL)
        done = self.rpp('stat', path, 'n=1..3', '--csv', 'out.csv', '--svg', 'out.svg', '--measures', 'cost,statements')
        self.assertEqual((done.returncode, done.stdout.split()[:3]), (0, ['n', 'steps', 'cost']))
        with open(f'{self.folder}/out.csv', encoding='utf-8') as file:
            self.assertEqual([(row['n'], row['cost'], row['end']) for row in csv.DictReader(file)],
                             [('1', '22', 'done'), ('2', '33', 'done'), ('3', '44', 'done')])
        with open(f'{self.folder}/out.svg', encoding='utf-8') as file:
            drawn = file.read()
        self.assertEqual(ElementTree.fromstring(drawn).tag, '{http://www.w3.org/2000/svg}svg')
        self.assertEqual(re.findall(r'class="title"[^>]*>([^<]*)', drawn), ['total.rpp', 'cost', 'statements'])
        self.assertEqual(drawn.count('<circle'), 6)
        named = self.write('total', TOTAL)
        self.assertIn('is read as', self.rpp('stat', named, '--csv', named).stderr)
        self.assertIn('the measures are', self.rpp('stat', path, 'n=1..2', '--svg', '-', '--measures', 'colour').stderr)
        self.assertIn('a plot needs', self.rpp('stat', path, 'n=1', '--svg', '-').stderr)

    def test_plot(self):
        self.assertEqual(ticks(0, 10), [0, 2, 4, 6, 8, 10])
        self.assertEqual(ticks(1, 3), [1, 2, 3])
        self.assertEqual(ticks(0, 166499), [0, 50000, 100000, 150000, 200000])
        self.assertEqual(ticks(5, 5)[0], 5)
        self.assertEqual([number(value) for value in (1500000.0, 0.25, -3)], ['1,500,000', '0.25', '-3'])
        drawn = plot('t', 'n', [Panel('p', 'u', [Series('k = 1', [(0, 0), (10, 5)]), Series('k = 2', [(0, 10), (10, 10)])])])
        # (the line of the first series goes from the lower left corner to half of the height)
        (x1, y1), (x2, y2) = re.findall(r'([\d.]+) ([\d.]+)', re.search(r'class="line"[^>]* d="M([^"]*)"', drawn)[1].replace('L', ' , '))
        axis = re.search(r'class="axis" d="M([\d.]+) ([\d.]+)V([\d.]+)H([\d.]+)"', drawn)
        left, top, below, right = map(float, axis.groups())
        self.assertEqual((float(x1), float(y1), float(x2)), (left, below, right))
        self.assertAlmostEqual(float(y2), (top + below) / 2, delta=0.2)
        self.assertIn('>k = 2<', drawn)


if __name__ == '__main__':
    unittest.main()
