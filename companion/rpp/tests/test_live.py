"""Sessions that are held open: the client over a mock, which needs no program, and the program, if there is one. A session of
random moves gives what `trace` gives, and stays one session."""
import contextlib
import io
import os
import random
import re
import signal
import subprocess
import sys
import threading
import time
import unittest
from itertools import zip_longest

from rpp import live as live_module
from rpp.debug import SourcePrompt
from rpp.formulas import Formula
from rpp.live import BATCH, Live, Lost, Reply, batches, path_of
from rpp.program import Interrupted, OutOfTime, Program
from rpp.session import Session
from rpp.trace import FAR, Failure, Fault, HeapState, MachineRun, SourceRun, read_failure, read_heap

from .base import COMMAND, EXAMPLES, HANGS, Case

# Answers `echo ..` with what follows and `. done`, and words of its own with what a session can do besides.
STAND_IN = r'''import sys, time
print('rooplpp-live 1 source\n. done', flush=True)
for line in sys.stdin:
    word, _, rest = line.rstrip('\n').partition(' ')
    if word == 'echo':
        print(f'{rest}\n. done', flush=True)
    elif word == 'many':
        print('x = 1\n' * 50000 + '. done', flush=True)
    elif word == 'sleep':
        time.sleep(600)
    elif word == 'end':
        print('half a reply', flush=True)
        break
    elif word == 'value':
        print({'x': 'value 5\n. done', '#2.next': 'value nil\n. done', 'none': '. none'}.get(rest, '. bad'), flush=True)
    elif word == 'limit':
        print('. done', flush=True)
    elif word == 'step' or word == 'back' and rest.isdigit():
        print('at 0 place 27 depth 1\n. done', flush=True)
    elif word == 'heap':
        print('order 12\nlive 3\nnext #5\nfree 2 1\nfree 3 2\nfree 11 1\n. done', flush=True)
    elif word == 'spend':
        print('cost 12345\n. done', flush=True)
    elif word in ('memory', 'long'):
        print(f'. {word}', flush=True)
    else:
        print('. bad', flush=True)
'''
# The array is #2, its elements are #3 and #4, and the object of the element is #5.
CALLS = '''class P
  C[] a
method main()
  new C[2] a
  new C a[0]
  new C a[1]
  call a[1]::outer()
class C
  int n
  C inner
method outer()
  new C inner
  uncall inner::work()
method work()
  n += 1
  call deep()
method deep()
  n += 2
'''
COUNT = '''class P
  int x
  int y
  Box box
method main()
  new Box box
  from x = 0 do
    x += 1
    call box::put(x)
  loop
    y += 2
  until x = 30
  uncall box::put(x)
class Box
  int held
  int times
method put(int n)
  local int k = n
    held += k
    call more()
  delocal int k = n
method more()
  times += 1
'''
FAILING = COUNT.replace('until x = 30', 'until x = 30 if x = 3 then x += 1 else skip fi x = 3')
MOVES = [('step', 9), ('back', 9), ('next',), ('previous',), ('finish',), ('leave_back',), ('until', 24), ('run_on',), ('run_back',),
         ('watch', 'x'), ('watch', 'y'), ('watch_back', 'x'), ('watch', 'box.held'), ('watch_back', '#2.times'), ('watch', '#2.held'),
         ('go', 150), ('break_at', 24), ('clear_all',)]
HAS_LIVE = path_of(Program.found()) is not None


class Client(unittest.TestCase):
    """What the client does with what a program writes."""

    def begun(self) -> Live:
        held = Live(Program('/nowhere', 'a test'), [sys.executable, '-c', STAND_IN])
        self.addCleanup(held.close)
        self.assertEqual(held.ask([], replies=1), [Reply(['rooplpp-live 1 source'], 'done')])
        return held

    def test_replies(self):
        held = self.begun()
        self.assertEqual(held.ask(['echo one', 'echo', 'nothing', 'echo two']),
                         [Reply(['one'], 'done'), Reply([''], 'done'), Reply([], 'bad'), Reply(['two'], 'done')])
        self.assertEqual(held.ask([]), [])
        # (more than pipes hold, both ways)
        found = held.ask(['many', *[f'echo {"long " * 40}{number}' for number in range(2000)], 'many'])
        self.assertEqual([len(found), len(found[0].lines), len(found[-1].lines)], [2002, 50000, 50000])
        self.assertEqual(found[2000].lines, ['long ' * 40 + '1999'])

    def test_batches(self):
        lines = ['a' * 1000] * 9 + ['b' * 5000, 'c']
        parts = list(batches(lines))
        self.assertEqual([line for part in parts for line in part], lines)
        self.assertLessEqual(max(sum(len(line) + 1 for line in part) for part in parts if len(part) > 1), BATCH)
        self.assertEqual([len(part) for part in parts], [4, 4, 1, 1, 1])

    def test_requests_that_it_lacks(self):
        held = self.begun()
        self.assertEqual(held.served('echo 1'), Reply(['1'], 'done'))
        self.assertIsNone(held.served('back any 1 2 3'))
        held.ask = None
        self.assertIsNone(held.served('any 1 2 3'), 'it is asked for once')
        self.assertIsNone(held.served('echo ' + '1 ' * 3000), 'no line is longer than a session reads')

    def test_values_and_limits(self):
        held = self.begun()
        self.assertEqual([held.value(each) for each in ('x', '#2.next', 'none')], ['5', 'nil', ''])
        self.assertTrue(held.limit(100))
        old = self.begun()
        old.served = lambda line, seconds=None: None
        self.assertEqual((old.value('x'), old.limit(100)), (None, False))

    def test_ends(self):
        for word in ('end', 'memory', 'long'):
            with self.assertRaises(Lost):
                self.begun().ask(['echo 1', word, 'echo 2'])
        held = self.begun()
        with self.assertRaises(OutOfTime):
            held.ask(['sleep'], seconds=0.2)
        with self.assertRaises(Lost):
            held.ask(['echo 1'])

    def test_stop(self):
        held = self.begun()
        stops = threading.Timer(0.2, held.program.stop)
        stops.start()
        with self.assertRaises(Interrupted):
            held.ask(['sleep'])

    def test_where_it_is(self):
        folder = os.path.join(os.sep, 'a', 'crates', 'rooplpp', 'out')
        self.assertEqual(list(live_module.places_by(os.path.join(folder, 'rooplpp'))),
                         [os.path.join(folder, 'rooplpp-live'), os.path.join(os.sep, 'a', 'crates', 'rooplpp_live', 'out', 'rooplpp_live')])
        self.assertEqual(next(live_module.places_by('/a/bin/rooplpp.mjs')), '/a/bin/rooplpp-live.mjs')


class ReplyToFault(unittest.TestCase):
    """What is read of the reply to `fault`."""

    def test_it_is_read(self):
        lines = ['fault 3 Delocal', 'test delocal at 218 of 144', 'found 7', 'wanted #5', 'depth 2', 'x = 0', 'depth = 9', 'found = nil']
        variables = (('x', '0'), ('depth', '9'), ('found', 'nil'))
        self.assertEqual(read_failure(lines), Failure(Fault(3, 'Delocal'), 'delocal', 218, 144, '7', '#5', 2, variables))
        lines = ['fault 5 Nil', 'test statement at 7 of 7', 'depth 1']
        self.assertEqual(read_failure(lines), Failure(Fault(5, 'Nil'), 'statement', 7, 7, None, None, 1, ()))
        for found, wanted in (('-1', 'below 2'), ('nil', 'an array'), ('nil', 'an object'), ('0', 'at least 1'), ('D', 'C')):
            said = read_failure([*lines[:2], f'found {found}', f'wanted {wanted}', 'depth 1'])
            self.assertEqual((said.found, said.wanted, said.depth, said.variables), (found, wanted, 1, ()))
        for wrong in ([], ['depth 2'], ['fault 3', 'depth 2'], ['fault 3 Delocal', 'test fi', 'depth 2'], lines[:2]):
            self.assertIsNone(read_failure(wrong), wrong)


class HeapAndCost(Case):
    """What the prompt shows of the replies to `heap` and `spend`, and of a session that has neither."""

    SOURCE = 'class P int x method main() x += 5\n'

    def printed(self, stand_in, *commands):
        session = Session.begun(Program.found(), self.write('a.rpp', self.SOURCE), is_held=True)
        self.addCleanup(session.close)
        session.run._end_session()
        session.run._live = Live(session.run.program, [sys.executable, '-c', stand_in])
        session.run._live.ask([], replies=1)
        with contextlib.redirect_stdout(io.StringIO()) as out:
            SourcePrompt(session, echo=True).obey(list(commands))
        return out.getvalue()

    def test_replies(self):
        # (4 + 2 * 8 + 2048 words are free)
        self.assertEqual(self.printed(STAND_IN, 'heap', 'cost'), '(rpp) heap\nheap of order 12: 4,096 words\n'
                         'living objects: 3, with main; the next one is #5\nfree blocks, in words: 1 of 4, 2 of 8, 1 of 2,048; 2,068 in all\n'
                         '(rpp) cost\ncost 12,345 up to position 0\n')
        self.assertEqual(read_heap(['order 4', 'live 2', 'next #3']), HeapState(4, 2, 3, ()))
        for wrong in ([], ['order 4'], ['order 4', 'live 2', 'next 3'], ['order 4', 'live 2', 'next #3', 'free 1']):
            self.assertIsNone(read_heap(wrong), wrong)

    def test_a_session_that_has_them_not(self):
        older = STAND_IN.replace("'heap'", "'no heap'").replace("'spend'", "'no spend'")
        self.assertEqual(self.printed(older, 'heap', 'cost'), '(rpp) heap\nno session of rooplpp-live says the heap here; `rpp heap` shows the '
                         'memory\n(rpp) cost\nno session of rooplpp-live says the cost here; `rooplpp explain` prints that of a whole run\n')
        done = self.rpp('debug', self.write('a.rpp', self.SOURCE), '-c', 'heap', '-c', 'help cost', env={'ROOPLPP_LIVE': ''})
        self.assertIn('no session of rooplpp-live says the heap here', done.stdout)
        self.assertIn('cost: what the run has cost up to here, in the units of `explain`\n', done.stdout)

    @unittest.skipUnless(HAS_LIVE, 'there is no rooplpp-live')
    def test_of_a_run(self):
        """A cell of 3 words takes a block of 4 of the 16, and another one of 4 and one of 8 are left."""
        source = self.write('b.rpp', 'class P Cell c\nmethod main()\n  new Cell c\nclass Cell int v method f() skip\n')
        done = self.rpp('debug', source, '--heap', '4', *[word for each in ('heap', 'step', 'heap', 'cost', 'back', 'heap') for word in ('-c', each)])
        if 'no session' in done.stdout:
            self.skipTest('this rooplpp-live has no `heap`')
        whole = 'heap of order 4: 16 words\nliving objects: 1, with main; the next one is #2\nfree blocks, in words: 1 of 16; 16 in all\n'
        self.assertEqual(done.stdout.count(f'(rpp) heap\n{whole}'), 2)
        self.assertIn('(rpp) heap\nheap of order 4: 16 words\nliving objects: 2, with main; the next one is #3\n'
                      'free blocks, in words: 1 of 4, 1 of 8; 12 in all\n', done.stdout)
        cost = re.search(r'^cost (\d+)$', self.program.call('explain', source, '4', '31', '1000').output, re.M)[1]
        self.assertIn(f'(rpp) cost\ncost {int(cost):,} up to position 1\n', done.stdout)


class Without(Case):
    """Where there is no program for sessions, or one that is none, all is asked by `trace`."""

    def test_no_program(self):
        source = self.write('count.rpp', COUNT)
        for named in ('', os.path.join(self.folder, 'nothing'), self.program.path, sys.executable):
            wanted = self.rpp('debug', source, '-c', 'break 9', '-c', 'c', '-c', 'step 3', '-c', 'back', env={'ROOPLPP_LIVE': ''})
            self.assertEqual(wanted.returncode, 0, wanted)
            done = self.rpp('debug', source, '-c', 'break 9', '-c', 'c', '-c', 'step 3', '-c', 'back', env={'ROOPLPP_LIVE': named})
            self.assertEqual((done.stdout, done.stderr, done.returncode), (wanted.stdout, '', 0), named)


@unittest.skipUnless(HAS_LIVE, 'there is no rooplpp-live')
class Held(Case):
    """The program holds one session, and what it shows is what `trace` shows."""

    def pair(self, source: str, bounds=(12, 64)):
        """A session over what is held open, and one over `trace`."""
        made = [Session.begun(Program.found(), source, *bounds, is_held=is_held) for is_held in (True, False)]
        for each in made:
            self.addCleanup(each.close)
        return made

    def test_random_moves(self):
        chance = random.Random(71)
        for text in (COUNT, FAILING):
            held, plain = self.pair(self.write('count.rpp', text))
            for _ in range(50):
                name, *words = chance.choice(MOVES)
                words = [chance.randrange(1, each) if isinstance(each, int) else each for each in words]
                stops = [getattr(each, name)(*words) for each in (held, plain)]
                self.assertEqual(*stops, (name, words))
                self.assertEqual(held.moment, plain.moment, (name, words))
                for told, found in zip_longest(held.stack(), plain.stack()):
                    # what `trace` prints does not always say the number
                    self.assertEqual(told, found if found.number else found._replace(number=told.number), (name, words))
            self.assertIsNotNone(held.run._live, 'the session is held')
            self.assertLess(held.run.program.calls, 10, 'and nothing else is asked')

    def test_objects_of_calls(self):
        held, _ = self.pair(self.write('calls.rpp', CALLS))
        held.break_in('C.deep')
        held.run_on()
        self.assertEqual([(frame.method, frame.uncalled, frame.number) for frame in held.stack()],
                         [('C.deep', True, 5), ('C.work', True, 5), ('C.outer', False, 4), ('P.main', False, 1)])

    def test_conditions_and_methods(self):
        held, plain = self.pair(self.write('count.rpp', COUNT))
        for each in (held, plain):
            each.break_at(8, Formula('x > 20'))
            each.break_in('more', Formula('times = 3'))
        for name in ('run_on', 'run_on', 'run_on', 'run_back', 'run_back', 'run_back', 'run_back'):
            self.assertEqual(getattr(held, name)(), getattr(plain, name)(), name)

    def test_points_and_states(self):
        for name in ('list', 'queue', 'tree'):
            source = os.path.join(EXAMPLES, f'{name}.rpp')
            held, plain = (SourceRun(Program.found(), source, 12, 64, None, is_held) for is_held in (True, False))
            with held, plain:
                for first, count in ((0, 7), (40, 12), (3, 2), (30, 40), (0, 1)):
                    self.assertEqual(held.points(first, count), plain.points(first, count), (name, first))
                    self.assertEqual(held.states(first, count), plain.states(first, count), (name, first))
                self.assertEqual(held.end(), plain.end())
                self.assertEqual(held.points(FAR, 3), plain.points(FAR, 3))

    def test_several_places_of_which_one_is_not_reached_again(self):
        """A search among breakpoints with conditions takes no longer than to the nearest that counts."""
        source = self.write('far.rpp', 'class P int x\nmethod main()\n  from x = 0 do\n    x += 1\n  loop\n    skip\n  until x = 1000000000')
        done = self.rpp('debug', source, *[word for line in ('break 4 if x = 700', 'break main if x = 1', 'continue', 'print x', 'rc', 'where')
                                           for word in ('-c', line)])
        self.assertIn('breakpoint 1\n  x: 0 -> 700\n(rpp) print x\nx = 700\n', done.stdout)
        self.assertIn('this is the start\n', done.stdout)

    @unittest.skipUnless(os.path.isdir('/proc/self/task'), 'there is no /proc')
    def test_nothing_goes_on_when_it_is_told_to_end(self):
        source = self.write('far.rpp', 'class P int x method main() from x = 0 do x += 1 loop skip until x = 1000000000')
        for number in (signal.SIGHUP, signal.SIGTERM):
            with self.subTest(number=number):
                # (under nohup the signal is ignored, by what it starts too)
                started = subprocess.Popen([sys.executable, COMMAND, 'debug', source], stdin=subprocess.PIPE, stdout=subprocess.PIPE,
                                           preexec_fn=lambda signalled=number: signal.signal(signalled, signal.SIG_DFL))
                started.stdin.write(b'finish\n')
                started.stdin.flush()
                session = self.until(lambda: self.children(started.pid))[0]
                started.send_signal(number)
                self.assertEqual(started.wait(HANGS), 128 + number)
                started.stdout.close()
                started.stdin.close()
                self.until(lambda: not os.path.exists(f'/proc/{session}'))

    @unittest.skipUnless(os.path.isdir('/proc/self/task'), 'there is no /proc')
    def test_no_run_goes_on_when_it_is_told_to_end(self):
        source = self.write('far.rpp', 'class P int x method main() from x = 0 do x += 1 loop skip until x = 1000000000')
        started = subprocess.Popen([sys.executable, COMMAND, 'run', source, '--steps', str(10 ** 12)], stdout=subprocess.DEVNULL)
        run = self.until(lambda: self.children(started.pid))[0]
        started.terminate()
        self.assertEqual(started.wait(HANGS), 128 + signal.SIGTERM)
        self.until(lambda: not os.path.exists(f'/proc/{run}'))

    def children(self, process):
        with open(f'/proc/{process}/task/{process}/children', encoding='utf-8') as file:
            return file.read().split()

    def until(self, is_so):
        end = time.monotonic() + HANGS
        while not is_so():
            self.assertLess(time.monotonic(), end)
            time.sleep(0.05)
        return is_so()

    def test_interrupted(self):
        """A search that is stopped ends the session; the next question begins another, and the answers stay the same."""
        source = self.write('far.rpp', 'class P int x method main() from x = 0 do x += 1 loop skip until x = 1000000000')
        held, _ = self.pair(source)
        held.step(1000)
        first = held.run._live
        stops = threading.Timer(0.3, held.run.program.stop)
        stops.start()
        held.break_in('main')
        held.go(2)
        self.assertEqual(held.run_on().reason, 'interrupted')
        self.assertEqual(held.back().point.position, 1)
        self.assertNotEqual(held.run._live, first)
        self.assertEqual(held.step(4).point, held.run.point(5))

    def test_it_dies(self):
        """If the session is ended from outside, `trace` answers."""
        held, plain = self.pair(self.write('count.rpp', COUNT))
        self.assertEqual(held.step(40), plain.step(40))
        held.run._live._process.kill()
        self.assertEqual(held.watch('x'), plain.watch('x'))
        self.assertEqual(held.moment, plain.moment)

    def test_commands_show_the_same(self):
        """The prompt and the film, with the session and without it."""
        source = self.write('count.rpp', FAILING)
        commands = ['break more', 'c', 'where', 'up', 'print', 'watch x', 'watch back box.held', 'rc', 'finish', 'n', 'rn', 'history 3',
                    'clear', 'c', 'leave-back', 'display x + y', 'until 8', 'go 3', 'objects']
        words = [word for each in commands for word in ('-c', each)]
        for call in (['debug', source, *words], ['film', source, '-o', os.path.join(self.folder, 'film.html')]):
            outputs, pages = [], []
            for env in ({}, {'ROOPLPP_LIVE': ''}):
                done = self.rpp(*call, env=env)
                outputs.append((done.stdout, done.stderr, done.returncode))
                if call[0] == 'film':
                    with open(os.path.join(self.folder, 'film.html'), encoding='utf-8') as file:
                        pages.append(file.read())
            self.assertEqual(*outputs, call[0])
            self.assertTrue(call[0] != 'film' or pages[0] == pages[1])

    def test_far_moves(self):
        """At statement 100,000, steps back are steps of the one session."""
        held, _ = self.pair(self.write('far.rpp', 'class P int x method main() from x = 0 do x += 1 loop skip until x = 100000'))
        held.go(100_000)
        for _ in range(20):
            held.run._points.clear()
            held.run._moments.clear()
            held.back()
        self.assertEqual(held.position, 100_000 - 20)
        self.assertLess(held.run.program.calls, 5)

@unittest.skipUnless(HAS_LIVE, 'there is no rooplpp-live')
class Images(Case):
    """A run of an image in a session is that of `debug`."""

    def test_breakpoints_and_watches(self):
        """The prompt shows the same with a session, by its searches or by single moves if it has none, as without it."""
        counter, sub = os.path.join(EXAMPLES, 'counter.rpp'), os.path.join(EXAMPLES, 'subroutine.pisa')
        images = [os.path.join(self.folder, name) for name in ('c.img', 's.img')]
        self.program.call('compile', counter, images[0])
        self.program.call('asm', sub, images[1])
        scripts = (['watch count', 'watch count', 'watch back before', 'watch back $3', 'watch $6', 'break 135', 'break 139', *['c'] * 4,
                    *['rc'] * 4, 'until 20', 'watch $45', 'watch 999999'],
                   ['step 10', 'until 4', 'break 3', 'rc', 'rc', 'watch $4', 'break 4', 'c', 'c', 'watch back $4', 'watch 2'])
        for image, script in zip(images, scripts):
            said = [self.rpp('debug', image, *[word for each in script for word in ('-c', each)], env=env)
                    for env in ({}, {'ROOPLPP_LIVE': ''})]
            self.assertEqual(said[0].stdout, said[1].stdout, image)
            self.assertEqual([each.returncode for each in said], [0, 0])

    def test_a_search_that_is_interrupted(self):
        """The session is ended, and the next question begins another."""
        image = os.path.join(self.folder, 'c.img')
        self.program.call('compile', os.path.join(EXAMPLES, 'counter.rpp'), image)
        sleeping = STAND_IN.replace('place 27 depth 1', 'pc 0 br 0 dir 1').replace("'sleep'", "'any'")
        with MachineRun(self.program, image) as held:
            held._live.close()
            held._live = Live(self.program, [sys.executable, '-c', sleeping])
            held._live.ask([], replies=1)
            stops = threading.Timer(0.3, self.program.stop)
            stops.start()
            with self.assertRaises(Interrupted):
                held.search(0, 'any 9 3')
            self.assertEqual([each.position for each in held.walk(['step 5', 'step 2'])[0]], [5, 7])
            self.assertIsNotNone(held._live)

    def test_walks(self):
        image = os.path.join(self.folder, 'c.img')
        self.program.call('compile', os.path.join(EXAMPLES, 'counter.rpp'), image)
        chance = random.Random(5)
        with MachineRun(self.program, image) as held, MachineRun(self.program, image) as called:
            called._live.close()
            called._live = None
            for _ in range(40):
                moves = [f'{chance.choice(("step", "back"))} {chance.randrange(60)}' for _ in range(3)]
                lines = [f'step {chance.randrange(60)}', 'regs', *moves, 'to 9 40', 'cells 40 4', 'backto 2 40']
                self.assertEqual(held.walk(lines), called.walk(lines))
            self.assertEqual(held.registers(9), called.registers(9))
            self.assertEqual(held.cells(9, 40, 5), called.cells(9, 40, 5))
            self.assertIsNotNone(held._live, 'it was one session')
