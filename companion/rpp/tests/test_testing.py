"""`rpp test`: the forms of expectations, why they do not hold, and a folder of thirty submissions, some of them hostile."""
import csv
import io
import json
import os
import resource
import subprocess
import unittest

from rpp.confined import Confined
from rpp.expectations import BadExpectation, Expectations
from rpp.formulas import BadFormula, Formula
from rpp.program import TOP, OutOfTime
from rpp.testing import Grading, judged, told
from rpp.tests.base import Case

EXERCISE = os.path.join(TOP, 'docs', 'learn', 'exercises', '04-1.rpp')
HEAD = 'class Product\n  int a\n  int b\n  int i\n  int product\n\nmethod main()\n'
LOOP = '  from i = 0 do\n    skip\n  loop\n    {}\n    i += 1\n  until i = b\n'
RIGHT = HEAD + LOOP.format('product += a')
TURNING = '  from i = 0 do skip loop i += 1 until i = 0 - 1\n'
INNER = '  local int k = 0 from k = 0 do skip loop k += 1 ' + TURNING.strip().replace('until', 'i -= 1 until', 1) + ' until k = b delocal int k = b\n'
SUBMISSIONS = {
    # right ones, each in another way
    'right-1': (RIGHT, 'right'),
    'right-2': (HEAD + '  local int k = 0\n' + LOOP.format('product += a').replace('i ', 'k ') + '  delocal int k = b\n', 'right'),
    'right-3': (HEAD + LOOP.format('product += a\n    skip').replace('i += 1', 'i += 2 i -= 1'), 'right'),
    'right-4': (HEAD + '  local int k = b\n  from k = b do skip loop product += a k -= 1 until k = 0\n  delocal int k = 0\n', 'right'),
    'right-5': (HEAD + '  from i = 0 do skip loop call add() until i = b\nmethod add()\n  product += a\n  i += 1\n', 'right'),
    'right-6': ('//? a=6 b=7 -> product = 0\n' + RIGHT, 'right'),
    # wrong ones
    'wrong-1': (HEAD + LOOP.format('product += b'), 'wrong'),
    'wrong-2': (HEAD + LOOP.format('product -= a'), 'wrong'),
    'wrong-3': (HEAD + '  from i = 0 do product += a i += 1 loop skip until i >= b\n', 'wrong'),
    'wrong-4': (HEAD + '  from i = 0 do skip loop i += 1 until i = b\n  product += 42\n', 'wrong'),
    'wrong-5': (HEAD + '  skip\n', 'wrong'),
    'wrong-6': ('//? -> product = 0\n' + HEAD + '  product += a + a + a + a + a + a + a\n', 'wrong'),
    'wrong-7': (RIGHT.replace('int b\n', '').replace('= b', '= 7'), 'wrong'),
    'fault-1': (HEAD + LOOP.format('product += a').replace('from i = 0', 'from product = 0'), 'fault'),
    'fault-2': (HEAD + '  call go()\nmethod go()\n  from i = 0 do call go() loop skip until i = b\n', 'fault'),
    # endless ones
    'endless-1': (HEAD + TURNING, 'endless'),
    'endless-2': (HEAD + '  from i = 0 do skip loop product += a i += 1 until i = b + b + 1000000\n', 'endless'),
    'endless-3': (HEAD + '  from i = 0 do skip loop i += 1\n  ' + TURNING.replace('i = 0 - 1', 'a != a').replace('i = 0', 'product = 0')
                  .replace('i += 1', 'product += 1') + '  until i = b\n', 'endless'),
    # refused ones
    'refused-1': (RIGHT.replace('until i = b', 'until i == b'), 'refused'),
    'refused-2': (RIGHT.replace('product += a', 'product = product + a'), 'refused'),
    'refused-3': ('', 'refused'),
    'refused-4': (RIGHT.replace('product += a', 'product += product + a'), 'refused'),
    # hostile ones
    'hostile-long': (RIGHT + '// ' + 'x' * 300_000, 'unreadable'),
    'hostile-deep': (HEAD + '  product += ' + '(' * 100_000 + 'a' + ')' * 100_000 + '\n', 'refused'),
    'hostile-bytes': ('\x00\x01\x7f\x1b]0;title\x07' * 1000, 'refused'),
    'hostile-screen': (HEAD + '  product == a // \x1b[2J\x1b[31mall right\x1b[0m\n', 'refused'),
    'hostile-room': (HEAD.replace('int i\n', 'int i\n  int[] all\n') + '  new int[2147483647] all\n', 'fault'),
}


class TestingTest(Case):
    def said_of(self, text: str, by: str = '', name: str = 'f.rpp') -> str:
        """What is said of a text, by an exercise or by its own comments."""
        return '\n'.join(told(judged(self.write(name, text), True, Grading(by or None, 30.0, 5.0))))

    # ---- the forms of expectations

    def holds(self, expectation: str, body: str, head: str = 'class P int x int y P p int[] a '):
        said = self.said_of(f'//? {expectation}\n{head}method main() {body}')
        self.assertIn('all expectations hold', said)

    def fails(self, expectation: str, body: str, *why: str, head: str = 'class P int x int y P p int[] a '):
        said = self.said_of(f'//? {expectation}\n{head}method main() {body}')
        self.assertIn('FAILS', said)
        for line in why:
            self.assertIn(line, said)

    def test_values(self):
        self.holds('x=4 -> x = 4, y = 9, y > x, x != y, p = nil, back', 'y += x + 5')
        self.fails('x=4 -> y = 8', 'y += x + 5', 'y is 9, and must be 8', 'the last statement that changed it: 0 -> 9')
        self.fails('-> y = 8', 'skip', 'y is 0, and must be 8', 'no statement changes y')
        self.fails('-> z = 8', 'skip', 'there is no z at the end')
        self.fails('z=3 -> x = 0', 'skip', 'the main class has no int field z, which is an input')
        self.holds('-> a[2] = 7, a[0] = p.x, live 2, a is int[3], a is int[], p is P', 'new int[3] a a[2] += 7 new P p')
        self.fails('-> p is Q, live 0', 'new P p', 'p is P, and must be Q', '`live` is 1 at the end, and must be 0')

    def test_ends(self):
        self.holds('-> fault', 'delete P p')
        self.holds('-> fault 5', 'delete P p')
        self.holds('-> fault Nil at 2', 'delete P p')
        self.holds('-> ends 5', 'delete P p')
        self.holds('-> ends well', 'skip')
        self.fails('-> fault 7 at 1', 'delete P p', 'it is fault 5 Nil, and not 7', 'in line 2, and not 1')
        self.fails('-> fault', 'skip', 'must stop with a fault, and it finishes')
        self.fails('-> ends well', 'delete P p', 'fault 5 Nil', 'Fix:')
        self.holds('--steps 10 -> bound', 'x += 1')
        self.fails('--steps 1000 -> bound', 'x += 1', 'must not end within 1,000 steps')
        self.holds('-> refused 16', 'x += x')
        self.holds('-> refused SelfUpdate at 2', 'x += x')
        self.fails('-> refused 15', 'x += x', 'it is refused 16 SelfUpdate, and not 15')
        self.fails('-> refused', 'x += 1', 'must be refused, and it is accepted')
        self.fails('-> x = 1', 'x += x', 'refused 16 SelfUpdate', 'Fix:')

    def test_room_and_cost(self):
        self.holds('--heap 2 -> ends 8', 'new int[9] a')
        self.holds('--depth 1 -> ends 14', 'call go() method go() skip')
        self.holds('-> at most 2 cost', 'x += 1')
        self.fails('-> at most 1 cost', 'x += 1', 'it takes 2 cost, and must take at most 1')
        self.fails('-> at most 5 steps', 'x += 1', 'steps, and must take at most 5')
        self.holds('-> wrap x = 7', 'x += 7')
        self.fails('-> wrap x = 8', 'x += 7', '`wrap` leaves x = 7, and it must be 8')
        self.holds('inverse x=7 -> x = 0', 'x += 7')
        # (the main object begins at cell 40, and its fields at 42)
        self.holds('x=7 -> cell 42 = 8', 'x += 1')
        self.fails('x=7 -> cell 42 = 9', 'x += 1', 'cell 42 is 8, and not 9')

    def test_rules_of_the_text(self):
        body = 'x += 1 call go() method go() y += 1 y += 1'
        self.holds('uses call go', body)
        self.holds('uses y += 1 in go', body)
        self.holds('no y in main', body)
        self.holds('at most 2 += in go', body)
        self.holds('fields x y p a', body)
        self.fails('no y in go', body, '`y` must not be used in go, and occurs 2 times')
        self.fails('uses from', body, '`from` must be used, and is not')
        self.fails('at most 1 += in go', body, '`+=` must occur at most 1 time in go, and occurs 2 times')
        self.fails('fields x y z', body, 'no field z', 'must have no field p, a')
        self.fails('uses x in none', body, 'there is no method none')

    def test_formulas_along_the_run(self):
        body = 'y += 3 from x = 0 do skip loop x += 1 y -= 1 {}until x = 3'
        self.holds('-> x = 3\n//? always x + y <= 4 && y * 2 >= 0', body.format(''))
        self.fails('-> x = 3\n//? always x + y = 3', body.format(''), '`x + y = 3` must hold, and does not at', 'x = 0, y = 0')
        self.holds('-> x = 3\n//? sometime x = 2 && y = 1', body.format(''))
        self.fails('-> x = 3\n//? sometime x = 4', body.format(''), '`x = 4` must hold at some time in the run, and never does')
        self.holds('-> x = 3', body.format('\n//? here x + y = 3\n skip '))
        self.fails('-> x = 3', body.format('\n//? here x = 1\n skip '), '`x = 1` must hold, and does not', 'x = 2')
        self.fails('-> x = 3\n//? always q = 1', body.format(''), 'has no value', 'there is no q here')

    def test_formulas(self):
        values = {'a': '3', 'b': '-2', 'p': '#2', 'row[4]': '7', 'p.next': 'nil'}.get
        for text, value in (('a + b * 2', -1), ('2147483647 + 1', -2 ** 31), ('a & 1 = 1', 1), ('(a & 1) = 1', 1), ('p != nil', 1),
                            ('p.next = nil', 1), ('row[a + 1]', 7), ('a > b && b < 0 || a = 0', 1), ('-a - b', -1), ('5 ^ 3', 6)):
            self.assertEqual(Formula(text).value(values), value, text)
        for text in ('', 'a +', '(a', 'a b', '/ 2', 'a..b', ')'):
            with self.assertRaises(BadFormula, msg=text):
                Formula(text)
        with self.assertRaises(BadFormula):
            Formula('p + 1').value(values)

    def test_what_is_no_expectation(self):
        for text in ('a=1', 'a=1 ->', 'a=1 -> x', 'x y -> x = 1', '-> fault at', 'always', 'always (', 'uses', 'hello', '-> --heap 3'):
            with self.assertRaises(BadExpectation, msg=text):
                Expectations.read(f'//? {text}\nclass P'.encode())
        self.assertIn('line 1', self.said_of('//? hello\nclass P int x method main() skip'))
        said = self.said_of('class P int x method main() skip')
        self.assertIn('f.rpp: it cannot be checked\n  it has no comment `//?`', said)

    def test_questions(self):
        asked = '//? -> ends ?\nclass P int[] a method main() new int[0] a'
        path = self.write('asked.rpp', asked)
        self.assertIn('is still open', self.said_of(asked))
        self.assertIn('holds', self.said_of(asked.replace('?\n', '13\n'), path))
        # (the answer is to the exercise's own program, whatever else the submission has changed)
        self.assertIn('fault 13 Length', self.said_of(asked.replace('?\n', 'well\n').replace('[0]', '[1]'), path))
        self.assertIn('is still open', self.said_of('//? -> x = 1\nclass P', path))
        self.assertIn('nested too deep', self.said_of('//? always ' + '(' * 5000 + '\n' + asked, path))
        self.assertLess(len(self.said_of('//? ' + 'x' * 100_000 + '\n' + asked, path)), 1000)

    def test_assembly(self):
        text = ';? 5=3 -> cell 5 = 10, registers 0\nSTART\nADDI $1 5\nADDI $2 7\nEXCH $3 $1\nADD $3 $2\nEXCH $3 $1\nADDI $2 -7\nADDI $1 -5\nFINISH\n'
        self.assertIn('all expectations hold', self.said_of(text, name='f.pisa'))
        wrong = self.said_of(text.replace('-7', '-6').replace('registers 0', 'registers 0, own inverse'), name='f.pisa')
        self.assertIn('$2 is 1 at the end, and must be 0', wrong)
        # (the inverse of `ADDI $2 -6` is `ADDI $2 6`, in the place of `ADDI $2 7`, the third instruction)
        self.assertIn('its inverse has ADDI $2 6 as instruction 2, where it has ADDI $2 7 itself', wrong)
        self.assertIn('refused 28 NotOneToOne', self.said_of(text.replace('ADD $3 $2', 'ADD $3 $3'), name='f.pisa'))

    def test_standard_input(self):
        done = self.rpp('test', '-', stdin='//? -> x = 6\nclass P int x method main() x += 5')
        self.assertEqual((done.returncode, done.stderr), (1, ''))
        self.assertIn('<stdin>: not all expectations hold', done.stdout)
        self.assertIn('<stdin>:2:29: class P', done.stdout)

    # ---- limits

    def test_limits_of_a_call(self):
        program = Confined.found()
        endless = self.write('endless.rpp', HEAD + TURNING)
        program.each = 0.5
        # (a call without a limit takes years, so this ends only by the limit)
        with self.assertRaises(OutOfTime):
            program.call('go', endless, 8, 32, 10 ** 15)
        program.begin(0.0)
        with self.assertRaises(OutOfTime):
            program.call('check', endless)
        with self.assertRaises(ValueError):
            Confined.found().call('generate', 1, 1, os.path.join(self.folder, 'made'))

    def test_reading_commands_write_no_byte(self):
        line = Confined.found().line(['check', 'f'])
        out = os.path.join(self.folder, 'written')
        done = subprocess.run(line[:-3] + ['/bin/sh', '-c', f'echo hi > {out}'], stderr=subprocess.DEVNULL, check=False)
        self.assertNotEqual(done.returncode, 0)
        self.assertEqual(os.path.getsize(out), 0)

    # ---- a folder of submissions

    def submissions(self) -> str:
        """Thirty submissions, of which three are no files at all."""
        folder = os.path.join(self.folder, 'handed in')
        os.mkdir(folder)
        for name, (text, _) in SUBMISSIONS.items():
            with open(os.path.join(folder, f'{name}.rpp'), 'w', encoding='utf-8') as file:
                file.write(text)
        os.symlink('/dev/zero', os.path.join(folder, 'hostile-link.rpp'))
        os.mkfifo(os.path.join(folder, 'hostile-pipe.rpp'))
        os.rename(os.path.join(folder, 'right-2.rpp'), os.path.join(folder, '=1+\x1b[2J\n--by.rpp'))
        os.symlink(folder, os.path.join(folder, 'around'))
        os.mkdir(os.path.join(folder, 'folder.rpp'))
        os.symlink(EXERCISE, os.path.join(folder, 'folder.rpp', 'hostile-borrowed.rpp'))
        return folder

    def test_thirty_submissions_within_a_minute(self):
        """A minute of the processor is fifteen times what was measured."""
        folder = self.submissions()
        before = snapshot(self.folder)
        begin = processor_seconds()
        done = self.rpp('test', '--by', EXERCISE, folder, '--csv', 'out.csv', '--json', 'out.json')
        self.assertLess(processor_seconds() - begin, 60)
        self.assertEqual((done.returncode, done.stderr), (1, ''))
        written = set(snapshot(self.folder)) - set(before)
        self.assertEqual({os.path.basename(path) for path in written}, {'out.csv', 'out.json'})
        self.assertEqual({path: size for path, size in snapshot(self.folder).items() if path in before}, before)
        with open(os.path.join(self.folder, 'out.json'), encoding='utf-8') as file:
            found = json.load(file)
        self.assertEqual(found['version'], 1)
        rows = {os.path.basename(row['submission'])[:-4]: row for row in found['rows']}
        self.assertEqual(len(rows), 30)
        for name, (_, verdict) in SUBMISSIONS.items():
            row = rows['=1+?[2J?--by' if name == 'right-2' else name]
            self.assertEqual(row['verdict'], verdict, f'{name}: {row}')
            self.assertEqual(not row['why'], verdict == 'right', name)
        for name in ('hostile-link', 'hostile-pipe', 'hostile-borrowed'):
            self.assertEqual((rows[name]['verdict'], rows[name]['why']), ('unreadable', 'it is no plain file'))
        self.assertEqual(rows['fault-1']['why'], 'fault 2 Loop')
        self.assertIn('had not ended after 1,000,000 steps', rows['endless-1']['why'])
        self.assertLess(max(len(line) for row in rows.values() for line in row['lines']), 500)
        self.told_safely(done.stdout)

    def told_safely(self, table: str):
        """Neither the table nor the files have a sign that a terminal obeys, nor a cell that a spreadsheet takes for a formula."""
        self.assertEqual(table.rstrip().split('\n')[-1], '6 right, 7 wrong, 7 refused, 3 fault, 3 endless, 4 unreadable')
        for name in ('out.csv', 'out.json'):
            with open(os.path.join(self.folder, name), encoding='utf-8') as file:
                text = file.read()
            self.assertNotIn('\x1b', text + table)
        with open(os.path.join(self.folder, 'out.csv'), encoding='utf-8', newline='') as file:
            cells = [cell for row in csv.reader(io.StringIO(file.read())) for cell in row]
        self.assertFalse([cell for cell in cells if cell[:1] in ('=', '+', '-', '@')])


def processor_seconds() -> float:
    """The time of the processor that the commands of this test took until now, whatever else the machine does."""
    used = resource.getrusage(resource.RUSAGE_CHILDREN)
    return used.ru_utime + used.ru_stime


def snapshot(folder: str):
    """All files below a folder, with their sizes."""
    return {os.path.join(above, name): os.lstat(os.path.join(above, name)).st_size
            for above, _, names in os.walk(folder) for name in names}


if __name__ == '__main__':
    unittest.main()
