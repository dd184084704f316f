"""The test that fails at the end of a statement, as a person sees it: where it is, what was found, and the variables then. Without a
session it is looked for; with one that knows `fault`, that says it."""
import unittest

from rpp.explain import of_fault
from rpp.failing import index_told
from rpp.fault_slots import Where
from rpp.faults import failing
from rpp.live import Live
from rpp.program import Program
from rpp.session import Session
from rpp.trace import Failure, Fault

from .base import SUMS, Case

HEAD = 'class P\n  int x\n  int y\nmethod main()\n'

# A program, the place and title of the test, and the variables at that moment, worked out by hand.
FORWARD = (
    ('  x += 3\n  y += 1\n  if x = 3 then y += 5 else skip fi y = 0\n',
     '7:37: `y = 0` is false after the `then` block', {'x': '3', 'y': '6'}),
    ('  y += 2\n  if x = 3 then skip else x += 3 y -= 2 fi x = 3\n',
     '6:44: `x = 3` is true after the `else` block', {'x': '3', 'y': '0'}),
    ('  from x = 0 do y += 1 loop skip until y = 9\n',
     '5:8: `x = 0` is true after a round', {'x': '0', 'y': '1'}),
    ('  from y < 3 do y += 1 loop x += 10 until y = 9\n',
     '5:8: `y < 3` is true after a round', {'x': '10', 'y': '1'}),
    ('  x += 30\n  local int amount = x\n    amount += 72\n  delocal int amount = x\n',
     '8:24: `amount` is 102 after the block, and must be 30', {'x': '30', 'y': '0', 'amount': '102'}),
    ('  if x = 0 then\n    if y = 0 then y += 7 else skip fi y = 1 // (no)\n  else skip fi x = 0\n',
     '6:39: `y = 1` is false after the `then` block', {'x': '0', 'y': '7'}),
)
BACK = (
    ('  y += 5\n  uncall work()\nmethod work()\n  if x = 3 then y += 5 else skip fi y = 5\n',
     '8:6: `x = 3` is false after the `then` block was undone', {'x': '0', 'y': '0'}),
    ('  uncall work()\nmethod work()\n  local int t = 2\n    t += 5\n  delocal int t = 9 + x\n',
     '7:17: `t` is 4 after the block was undone, and must be 2', {'x': '0', 'y': '0', 't': '4'}),
)

# `self` is the object itself, so the field `x` that moves into `add` is reached by it too
TOUCHED = '''class P
  C a
  C b
method main()
  new C a
  copy C a b
  call a::hold(b)
  {} a::begin()
class C
  C self
  int x
method hold(C other)
  self <=> other
method begin()
  call self::add(x)
method add(int n)
  n += 7
  x += 1
'''


# The inner call of `work` runs backward and is right, and the last statement began in it. The outer one fails.
BOTH_WAYS = HEAD + '''  local int n = 1
    call work(n)
  delocal int n = 1
method work(int n)
  if n = 1 then
    local int m = 0
      uncall work(m)
    delocal int m = 0
  else
    x += 1
  fi n + x = 1
'''

# The element that is called is filled again before its object comes back.
FILLED = '''class P
  C[] a
  C[] b
method main()
  new C[2] a
  new C a[1]
  copy C[] a b
  {} a[1]::fill(b)
class C
method fill(C[] row)
  {} C row[1]
'''

# A step before the test, an element is changed.
IN_ARRAY = '''class P
  int x
  int[] a
method main()
  new int[2] a
  a[1] += 5
  if x = 0 then {} else skip fi x = 1
'''
WAYS = ({}, {'ROOPLPP_LIVE': ''})


def serves_fault() -> bool:
    live = Live.begun(Program.found(), SUMS, 12, 64)
    if live is None:
        return False
    with live:
        return live.served('fault') is not None


HAS_FAULT = serves_fault()


class FailingTests(Case):
    def shown(self, text: str, env=None):
        """What `rpp run` says of the test: its place and title, and the variables."""
        path = self.write('bad.rpp', HEAD + text)
        lines = self.rpp('run', path, env=env).stdout.split('\n')
        begin = lines.index('The test that failed, and the variables at that moment:')
        rows = [line[2:].split(' = ') for line in lines[begin + 4:] if line.startswith('  ')]
        self.assertTrue(rows)
        return lines[begin + 1].split('bad.rpp:')[1], dict(rows), lines[begin + 2:begin + 4]

    def check(self, cases):
        for text, title, variables, env in [(*each, env) for each in cases for env in WAYS]:
            with self.subTest(text=text, env=env):
                found, values, (line, caret) = self.shown(text, env)
                self.assertEqual(found, title)
                self.assertEqual(values, variables)
                # the caret is below the first character of the test
                column = int(title.split(':')[1])
                self.assertEqual(caret.index('^') - line.index('|') - 1, column)

    def test_forward(self):
        self.check(FORWARD)

    def test_on_the_way_back(self):
        self.check(BACK)

    def test_a_field_that_a_call_changed(self):
        touched = (('call', '15:18: `x` is 1 after the call, and must be 0', '1'),
                   ('uncall', '15:18: `x` is -1 after the call was undone, and must be 0', '-1'))
        for word, title, value, env in [(*each, env) for each in touched for env in WAYS]:
            said = self.rpp('run', self.write('bad.rpp', TOUCHED.format(word)), env=env).stdout
            self.assertIn('bad.rpp:15:3: fault 15 Touched\n', said)
            self.assertIn(f'bad.rpp:{title}\n   15 |   call self::add(x)\n      |                  ^\n  self = nil\n  x = {value}\n', said)
            self.assertIn('called in P.main at bad.rpp:8:3\n', said)

    def test_a_test_that_has_no_value(self):
        text = 'class P\n  int x\n  int[] a\nmethod main()\n  new int[2] a\n  {}\n'
        loops = (('from x = 0 do x += 1 loop skip until a[x] = 1', 40), ('from a[x] = 0 do x += 2 loop skip until x = 9', 8))
        for loop, column, env in [(*each, env) for each in loops for env in WAYS]:
            said = self.rpp('run', self.write('bad.rpp', text.format(loop)), env=env).stdout
            self.assertIn('bad.rpp:6:3: fault 9 Index\n', said)
            self.assertIn('The index of `a` must be at least 0 and less than 2, and it is 2.\n', said)
            self.assertIn(f'bad.rpp:6:{column}: after a round\n', said)
            self.assertIn('\n  x = 2\n  a = #2\n', said)

    def test_calls_that_have_ended_are_not_shown(self):
        path = self.write('bad.rpp', HEAD + '  if x = 0 then call more() else skip fi x = 0\nmethod more()\n  x += 1\n')
        for env in WAYS:
            said = self.rpp('run', path, env=env).stdout
            self.assertIn('`x = 0` is false after the `then` block', said)
            self.assertNotIn('called in', said)

    def test_a_destruct_begins_as_a_statement(self):
        text = '  construct C c\n    call c::set(x)\n  destruct c\nclass C\n  int n\nmethod set(int m)\n  n += 4\n'
        said = self.rpp('run', self.write('bad.rpp', HEAD + text)).stdout
        self.assertIn('`n` of #2 must be 0 or nil when it is deleted, and it is 4.', said)
        self.assertIn('\n  x = 0\n  y = 0\n  c = #2\n', said)

    def test_the_sentence_has_the_values(self):
        path = self.write('bad.rpp', HEAD + FORWARD[4][0])
        self.assertIn('`amount` must be equal to `x` at its `delocal`, and it is 102.', self.rpp('run', path).stdout)

    def test_a_statement_that_fails_as_it_begins_has_no_test(self):
        path = self.write('bad.rpp', HEAD + '  x += 1\n  from x = 0 do skip loop skip until x = 1\n')
        for env in WAYS:
            said = self.rpp('run', path, env=env).stdout
            self.assertIn('bad.rpp:6:3: fault 2 Loop', said)
            self.assertNotIn('The test that failed', said)
            self.assertIn('The last statement that began, and the variables before it:', said)

    def test_the_prompt_shows_it(self):
        path = self.write('bad.rpp', HEAD + FORWARD[0][0])
        said = self.rpp('debug', path, stdin='continue\nback\nquit\n').stdout
        self.assertIn('bad.rpp:7:37: `y = 0` is false after the `then` block', said)
        self.assertIn('\n  y = 6\n', said)

    def test_json_has_it(self):
        import json
        path = self.write('bad.rpp', HEAD + FORWARD[0][0])
        found = json.loads(self.rpp('run', '--json', path).stdout)['test']
        self.assertEqual((found['line'], found['column']), (7, 37))
        self.assertEqual(found['found'], '`y = 0` is false after the `then` block')
        self.assertIn({'name': 'y', 'value': '6'}, found['variables'])


class Indexes(unittest.TestCase):
    """An index that a session says, with the length of its array."""

    def told(self, number: int, name: str, found, wanted):
        return index_told(Failure(Fault(number, name), 'statement', 7, 7, found, wanted, 1, ()))

    def test_it_is_read(self):
        self.assertEqual(self.told(9, 'Index', '-1', 'below 4'), ('-1', '4'))
        for number, name, found, wanted in ((9, 'Index', None, None), (14, 'TooDeep', '4', 'below 4'), (5, 'Nil', 'nil', 'an array')):
            self.assertEqual(self.told(number, name, found, wanted), ('', ''))

    def test_the_sentence_has_it(self):
        head = 'class P\n  int x\n  int[] a\n  int[] b\nmethod main()\n  '
        for statement, said in (('a[x + 7] += 1', 'The index of `a` must be at least 0 and less than 4, and it is 7.'),
                                ('x += a[b[7]]', 'The index must be at least 0 and less than 4, and it is 7.')):
            where = Where((head + statement + '\n').encode(), len(head), None, False, 12, 64, None, '7', '4')
            self.assertEqual(of_fault(9, where).sentence, said)
            self.assertNotEqual(of_fault(9, where._replace(index='', length='')).sentence, said)


@unittest.skipUnless(HAS_FAULT, 'there is no rooplpp-live that knows `fault`')
class ToldTests(Case):
    """A session says which test fails."""

    def pair(self, text: str):
        """What fails at the end of a run, as a session says it, and as it is looked for; and how many more calls the first took."""
        found, source = [], self.write('bad.rpp', text)
        for is_held in (True, False):
            with Session.begun(Program.found(), source, is_held=is_held) as session:
                session.run_on()
                before = session.run.program.calls
                found.append((failing(session, with_objects=True), session.run.program.calls - before))
        return found

    def test_it_is_what_is_found_without_it(self):
        texts = [HEAD + each[0] for each in FORWARD + BACK] + [TOUCHED.format(each) for each in ('call', 'uncall')]
        for text in texts + [IN_ARRAY.format('x += 1 a[1] += 3 x += 1'), IN_ARRAY.format('x += 2 a[1] <=> a[0]')]:
            with self.subTest(text=text):
                (told, calls), (looked, more) = self.pair(text)
                self.assertEqual(told._replace(test=None), looked._replace(test=None))
                # (only the place of the moment is another: it was a `skip` of another text)
                moments = [each.test.moment._replace(point=each.test.moment.point.depth) for each in (told, looked)]
                self.assertEqual(*[each.test._replace(moment=moment) for each, moment in zip((told, looked), moments)])
                self.assertLess(calls, more)

    def test_nothing_is_compiled_or_traced(self):
        (_, calls), _ = self.pair(HEAD + FORWARD[0][0])
        self.assertEqual(calls, 0)

    def test_both_directions_of_a_method(self):
        said = self.rpp('run', self.write('bad.rpp', BOTH_WAYS)).stdout
        self.assertIn('The assertion `n + x = 1` must be true after the `then` block and false after the `else` block.\n', said)
        self.assertIn('bad.rpp:15:6: `n + x = 1` is false after the `then` block\n', said)
        self.assertIn('\n  x = -1\n  y = 0\n  n = 1\ncalled in P.main at bad.rpp:6:5\n', said)
        self.assertEqual(said.count('called in'), 1)

    def test_an_element_that_a_call_filled(self):
        source, title = self.write('bad.rpp', FILLED.format('call', 'new')), '`a[1]` is #4 after the call, and must be nil'
        said = self.rpp('run', source).stdout
        self.assertIn('bad.rpp:8:3: fault 3 Delocal\n', said)
        self.assertIn(f'bad.rpp:8:8: {title}\n    8 |   call a[1]::fill(b)\n      |        ^\n  a = #2\n  b = #2\n', said)
        self.assertIn(f'bad.rpp:8:8: {title}\n', self.rpp('debug', source, '-c', 'continue').stdout)
        source = self.write('bad.rpp', FILLED.format('uncall', 'delete'))
        self.assertIn(f'bad.rpp:8:10: {title}\n', self.rpp('run', source).stdout)

    def test_what_the_tools_show_is_the_same(self):
        for text in (HEAD + FORWARD[1][0], HEAD + BACK[1][0], TOUCHED.format('call'), IN_ARRAY.format('a[1] += 3 x += 2')):
            source = self.write('bad.rpp', text)
            for words in (['run', source], ['run', source, '--json'], ['debug', source, '-c', 'continue', '-c', 'print', '-c', 'where']):
                done = [self.rpp(*words, env=env) for env in WAYS]
                self.assertEqual(*[(each.stdout, each.stderr, each.returncode) for each in done])
