"""`rpp debug`: scripts over sources and images, and the prompt on a terminal. Expected lines are worked out by hand."""
import os
import pty
import re
import select
import signal
import subprocess
import sys
import time

from .base import COMMAND, EXAMPLES, HANGS, SUMS, Case, shown_by

TWICE = '''class P
  int x
  int y
method main()
  local int v = 1
    call grow(v)
    y ^= v
    uncall grow(v)
  delocal int v = 1
method grow(int n)
  n += 2
  local int k = 3
    n += k
  delocal int k = 3
'''
ENDLESS = '''class P int x int y method main()
from x = 0 do
  x += 1
loop skip
until x = 0
'''
BOXES = '''class P
  Box[] boxes
  int sum
method main()
  new Box[2] boxes
  new Box boxes[1]
  call boxes[1]::put()
class Box
  int held
method put()
  held += 7
  call more()
method more()
  held += 1
'''

GROWING = '''class P
  int x
  int y
  Box box
method main()
  new Box box
  from x = 0 do
    call box::put(x)
    x += 1
  loop skip
  until x = 40
  uncall twice()
method twice()
  y += 1
  y += 2
class Box
  int held
method put(int n)
  held += n
  held += 1
'''


class Scripts(Case):
    def debug(self, text, *commands, words=()):
        """The lines that a session prints, without its prompts."""
        source = self.write('a.rpp', text)
        given = [word for command in commands for word in ('-c', command)]
        done = self.rpp('debug', source, *words, *given)
        self.assertEqual(done.stderr, '')
        return done.stdout

    def heads(self, printed):
        """Position, line and column, and body of each stop."""
        return re.findall(r'^\[(\d+)\] (?:a\.rpp:(\d+):(\d+) in (.*)|the end)$', printed, re.M)

    def test_moves_both_ways(self):
        printed = self.debug(TWICE, 'step', 'step', 'step', 'next', 'finish',
                             'back', 'leave-back', 'step 2', 'step 99', 'previous')
        self.assertEqual(self.heads(printed), [
            ('0', '5', '3', 'P.main'), ('1', '6', '5', 'P.main'), ('2', '11', '3', 'P.grow, depth 2'),
            ('3', '12', '3', 'P.grow, depth 2'), ('4', '13', '5', 'P.grow, depth 2'), ('5', '7', '5', 'P.main'),
            ('4', '13', '5', 'P.grow, depth 2'), ('1', '6', '5', 'P.main'), ('3', '12', '3', 'P.grow, depth 2'),
            ('10', '', '', ''), ('6', '8', '5', 'P.main')])
        self.assertIn('this is the end of the run\n', printed)

    def test_next_goes_over_a_call_and_an_uncalled_body_is_told(self):
        printed = self.debug(TWICE, 'step', 'next', 'next', 'step', 'where', 'step', 'step', 'step', 'back 99')
        self.assertEqual(self.heads(printed), [
            ('0', '5', '3', 'P.main'), ('1', '6', '5', 'P.main'), ('5', '7', '5', 'P.main'), ('6', '8', '5', 'P.main'),
            ('7', '12', '3', 'P.grow, depth 2, uncalled'), ('8', '13', '5', 'P.grow, depth 2, uncalled'),
            ('9', '11', '3', 'P.grow, depth 2, uncalled'), ('10', '', '', ''), ('0', '5', '3', 'P.main')])
        self.assertIn('   2  P.grow of #1, uncalled at a.rpp:12:3\n   1  P.main of #1 at a.rpp:8:5\n', printed)
        self.assertIn('  v: 1 -> 6\n', printed)
        self.assertIn('  k = 3 begins\n', printed)
        self.assertIn('this is the start\n', printed)

    def test_breakpoints_both_ways(self):
        printed = self.debug(TWICE, 'break 13', 'break 10', 'continue', 'c', 'c', 'c', 'c',
                             'rc', 'rc', 'clear 1', 'rc', 'rc', 'until 8')
        self.assertEqual([head[:2] for head in self.heads(printed)], [
            ('0', '5'), ('2', '11'), ('4', '13'), ('8', '13'), ('9', '11'), ('10', ''), ('9', '11'), ('8', '13'), ('2', '11'),
            ('0', '5'), ('6', '8')])
        self.assertIn('breakpoint 1 at line 13: n += k\n', printed)
        self.assertIn('no statement begins at line 10; the next one with a statement is 11\n', printed)

    def test_breakpoints_in_methods_and_conditions(self):
        printed = self.debug(GROWING, 'break 9 if box.held > 800', 'break put if n = 30', 'break P.twice', 'break', 'c', 'c', 'c',
                             'c', 'c', 'rc', 'rc', 'rc', 'rc', 'rc')
        # (held is x (x + 1) / 2 + x + 1 after the call with x: 819 with 39, and 779 with 38)
        at_put, at_nine, at_twice = ('153', '19'), ('200', '9'), ('202', '15')
        self.assertEqual([head[:2] for head in self.heads(printed)], [
            ('0', '6'), at_put, at_nine, at_twice, ('204', ''), ('204', ''), at_twice, at_nine, at_put, ('0', '6'), ('0', '6')])
        self.assertIn('breakpoint 1 at line 9 if box.held > 800: x += 1\n', printed)
        self.assertIn('(rpp) break\nbreakpoint 1 at line 9 if box.held > 800\nbreakpoint 2 in Box.put if n = 30\n'
                      'breakpoint 3 in P.twice\n', printed)
        self.assertIn('\n   19 |   held += n\n      |   ^^^^\nbreakpoint 2\n', printed)

    def test_a_call_goes_over_what_does_not_hold(self):
        printed = self.debug(GROWING, 'break put if n = 1', 'step 2', 'next', 'next', 'next', 'next')
        self.assertEqual([head[:2] for head in self.heads(printed)],
                         [('0', '6'), ('2', '8'), ('5', '9'), ('6', '10'), ('7', '8'), ('8', '19')])

    def test_conditions_that_are_none(self):
        printed = self.debug(GROWING, 'break nothing', 'break 9 if x +', 'break 9 if zz', 'continue')
        self.assertIn('there is no method nothing with a statement', printed)
        self.assertIn('x +: a value is missing at the end\n', printed)
        self.assertIn('breakpoint 1: its condition has no value here: there is no zz here\n', printed)

    def test_a_method_that_is_not_there(self):
        """The nearest one is named: one of the same name in another class, or one that is spelled so."""
        for asked, near in (('Nod.ad', '`Node.add`'), ('ad', '`Node.add`'), ('List.add', '`Node.add`'), ('Node::hagn', '`Node.hang`'),
                            ('List.putt', '`List.put`'), ('MAIN', '`List.main`'), ('Nod.e', '`Node.fill`, `Node.hang` or `Node.add`'),
                            ('Node', '`Node.fill`, `Node.hang` or `Node.add`'), ('Stack.qqq', ''), ('qqq', '')):
            with self.subTest(asked=asked):
                done = self.rpp('debug', os.path.join(EXAMPLES, 'list.rpp'), '-c', f'break {asked}')
                said = f'; did you mean {near}?' if near else ' with a statement; break takes a line, or a method as Node.append or append'
                self.assertIn(f'there is no method {asked}{said}\n', done.stdout)
                self.assertEqual(done.returncode, 1)
        text = 'class P int x method main() x += 1 method grow() x += 1 class Q int y method grow() y += 1'
        self.assertIn('there is no method gorw; did you mean `P.grow` or `Q.grow`?\n', self.debug(text, 'break gorw'))

    def test_expressions_and_what_is_displayed(self):
        printed = self.debug(GROWING, 'display box.held - x', 'break 9', 'c', 'c', 'display x', 'print x * 2 - #2.held', 'print box',
                             'p x + q', 'undisplay 1', 'display', 'undisplay 7', 'undisplay', 'display', 'step')
        # (held is 1 after the first call, and 3 after the second)
        for line in ('1: box.held - x: there is no box.held here: box is nil', '1: box.held - x = 1', '1: box.held - x = 2', '2: x = 1',
                     'x * 2 - #2.held = -1', 'x + q: there is no q here', 'there is no display 7', 'nothing is displayed'):
            self.assertIn(f'\n{line}\n', printed)
        self.assertIn('(rpp) print box\nbox = #2\n#2 Box count 1\n  held = 3\n', printed)
        self.assertIn('(rpp) display\n2: x = 1\n', printed)

    def test_the_calls_around(self):
        printed = self.debug(GROWING, 'break put if n = 2', 'c', 'print', 'up', 'print x', 'up', 'down', 'print n', 'down', 'frame 1',
                             'display x', 'frame', 'frame 3', 'step', 'print')
        self.assertIn('(rpp) up\n[12] a.rpp:8:5 in P.main\n    8 |     call box::put(x)\n      |     ^^^^\n'
                      'its variables are those of the moment when this call began\n(rpp) print x\nx = 2\n'
                      '(rpp) up\nthis is the outermost call\n'
                      '(rpp) down\n[13] a.rpp:19:3 in Box.put of #2, depth 2\n   19 |   held += n\n      |   ^^^^\n'
                      '(rpp) print n\nn = 2\n(rpp) down\nthis is the innermost call\n(rpp) frame 1\n[12] a.rpp:8:5', printed)
        self.assertIn('(rpp) display x\n1: x = 2\n', printed)
        self.assertIn('there is no call 3; `where` numbers them\n', printed)
        # (a move chooses the innermost call again)
        self.assertIn('(rpp) print\nheld = 5\nn = 2\n', printed)

    def test_watches_both_ways(self):
        printed = self.debug(TWICE, 'watch y', 'watch back y', 'step 3', 'watch n',
                             'watch n', 'back', 'watch back n', 'watch zz')
        self.assertEqual([head[0] for head in self.heads(printed)], ['0', '6', '5', '8', '9', '10', '9', '8'])
        self.assertIn('changed: y: 0 -> 6\n', printed)
        self.assertIn('this statement changes y: 0 -> 6\n', printed)
        self.assertIn('changed: n: 6 -> 3\n', printed)
        self.assertIn('the call that has n has ended\n', printed)
        self.assertIn('there is no zz here\n', printed)

    def test_a_value_that_is_not_there(self):
        """The nearest one is named, or the part at which its path ends."""
        text = '''class P
  Cell first
  int count
  int[] row
method main()
  new Cell first
  new int[3] row
  call first::grow()
class Cell
  int data
  Cell next
method grow()
  new Cell next
  data += 7
'''
        def near(path):
            return f'; did you mean `{path}`?'
        for commands, name, said in (
                (['step 2'], 'cuont', near('count')), (['step 2'], 'frist.dtaa', near('first.data')), (['step 2'], '#2.nxt', near('#2.next')),
                (['step 2'], 'Row[2]', near('row[2]')), (['step 2'], 'first.next.data', ': first.next is nil'),
                (['step 2'], 'count.x', ': count is a number'), (['step 2'], 'row[3]', ': the length of row is 3'),
                (['step 2'], '#9.data', ': #9 is no live object'), (['step 2'], 'first.zzzz', ''), (['step 2'], 'zzzz.data', ''),
                ([], 'first.data', ': first is nil'), ([], 'firts.data', ''), (['step 4'], 'dta', near('data'))):
            with self.subTest(name=name):
                printed = self.debug(text, *commands, f'print {name}', f'display {name} + 1', f'watch {name}')
                for line in (f'there is no {name} here{said}', f'1: {name} + 1: there is no {name} here{said}'):
                    self.assertIn(f'\n{line}\n', printed)
                self.assertTrue(printed.endswith(f'(rpp) watch {name}\nthere is no {name} here{said}\n'), printed)
        printed = self.debug(text, 'break 14 if dat = 7', 'continue')
        self.assertIn('breakpoint 1: its condition has no value here: there is no dat here; did you mean `data`?\n', printed)

    def test_lines_with_their_file(self):
        """As messages name them, with a column or without it."""
        source = self.write('a.rpp', GROWING)
        for asked, said in (('break a.rpp:9', 'breakpoint 1 at line 9: x += 1'), (f'break {source}:9:5', 'breakpoint 1 at line 9: x += 1'),
                            ('break a.rpp:20 if n = 30', 'breakpoint 1 at line 20 if n = 30: held += 1'),
                            ('break a.rpp:17', 'no statement begins at line 17; the next one with a statement is 19'),
                            ('until a.rpp:9', '[5] a.rpp:9:5 in P.main'), ('list a.rpp:20', '     20 |   held += 1'),
                            ('break b.rpp:9', 'the run is of a.rpp, not of b.rpp; `break 9` names its line 9'),
                            ('until b.rpp:9', 'the run is of a.rpp, not of b.rpp; `until 9` names its line 9'),
                            ('break 9x', 'a number is needed here, not 9x')):
            with self.subTest(asked=asked):
                self.assertIn(f'\n{said}\n', self.rpp('debug', source, '-c', asked).stdout)

    def test_objects_and_calls_on_elements(self):
        printed = self.debug(BOXES, 'break 14', 'c', 'where', 'print', 'print #3',
                             'print boxes[0]', 'back 3', 'objects', 'print boxes[1]')
        self.assertIn('   3  Box.more of #3 at a.rpp:14:3\n   2  Box.put of #3 at a.rpp:12:3\n'
                      '   1  P.main of #1 at a.rpp:7:3\n', printed)
        self.assertIn('(rpp) print\nheld = 7\n', printed)
        self.assertIn('#3 Box count 1\n  held = 7\n', printed)
        self.assertIn('there is no boxes[0] here\n', printed)

    def test_a_path_into_objects(self):
        printed = self.debug(BOXES, 'step 99', 'print boxes[1].held', 'print boxes', 'p sum')
        self.assertIn('boxes[1].held = 8\n', printed)
        self.assertIn('boxes = #2\n#2 Box[2] count 1\n  [0] = nil\n  [1] = #3\n', printed)
        self.assertIn('sum = 0\n', printed)

    def test_a_fault_names_both_statements(self):
        done = self.rpp('debug', SUMS, 'a=4', 'b=8', '-c', 'continue', '-c', 'history 2', '-c', 'list 2')
        self.assertIn('[4] sums.rpp:12:5 in Sums.main\n', done.stdout)
        self.assertIn('fault 3 Delocal: the run goes no further, and stops within this statement:\nsums.rpp:8:3\n', done.stdout)
        self.assertIn('[2] sums.rpp:10:5 total += sum\n[3] sums.rpp:11:5 a -= b\n', done.stdout)

    def test_commands_that_are_none(self):
        source = self.write('a.rpp', TWICE)
        done = self.rpp('debug', source, stdin='jump\nstep x\nbreak 99\nclear 4\nquit\nstep\n')
        self.assertEqual(done.returncode, 1)
        self.assertIn('there is no command jump; `help` names them all\n', done.stdout)
        self.assertIn('a number is needed here, not x\n', done.stdout)
        self.assertIn('no statement begins at line 99 or below\n', done.stdout)
        self.assertIn('there is no breakpoint 4\n', done.stdout)
        self.assertNotIn('(rpp) step\n', done.stdout)

    def test_until_a_line_names_no_breakpoint(self):
        done = self.rpp('debug', SUMS, 'a=4', 'b=8', '-c', 'until 11')
        self.assertIn('[3] sums.rpp:11:5 in Sums.main\n', done.stdout)
        self.assertNotIn('breakpoint', done.stdout)

    def test_progress_is_taken_away(self):
        """On a terminal what a search finds begins its line."""
        source = self.write('far.rpp', 'class P int x\nmethod main()\n  from x = 0 do\n    x += 1\n  loop\n    skip\n  until x = 1000000000')
        ours, its = pty.openpty()
        started = subprocess.Popen([sys.executable, COMMAND, 'debug', source, '-c', 'break 4 if x = 900', '-c', 'continue'], stdout=its, stderr=its,
                                   env=dict(os.environ, NO_COLOR='1'))
        os.close(its)
        # (the statement begins at the positions 1, 3, 5 and so on, where x is 0, 1, 2)
        line = next(each for each in shown_by(started, ours).split('\n') if '[1801]' in each)
        self.assertIn('looked up to position', line)
        self.assertEqual(line.split('\r')[-1], '[1801] far.rpp:4:5 in P.main')

    def test_a_command_of_another_debugger_or_misspelled(self):
        for word, meant in (('run', 'continue'), ('info', 'print'), ('exit', 'quit'), ('prnt', 'print'), ('reverse-contine', 'reverse-continue')):
            with self.subTest(word=word):
                done = self.rpp('debug', self.write('a.rpp', 'class P int x method main() x += 1'), '-c', word)
                self.assertIn(f'there is no command {word}; did you mean `{meant}`?\n', done.stdout)

    def test_what_is_refused(self):
        done = self.rpp('debug', self.write('a.rpp', 'class P int x method main() x += x'))
        self.assertEqual(done.returncode, 3)
        self.assertIn('1:29: refused 16 SelfUpdate\n', done.stdout)
        done = self.rpp('debug', SUMS, '--depth', '9000')
        self.assertEqual((done.returncode, done.stdout.split(':')[0]), (8, '--depth 9000'))


class Images(Case):
    def test_an_image_both_ways(self):
        counter = os.path.join(EXAMPLES, 'counter.rpp')
        image = os.path.join(self.folder, 'c.img')
        self.program.call('compile', counter, image)
        given = ['watch count', 'print', 'continue', 'back 99', 'until 0']
        done = self.rpp('debug', image, '--source', counter, *[word for line in given for word in ('-c', line)])
        self.assertEqual((done.returncode, done.stderr), (0, ''))
        self.assertIn('changed: 0 -> 3\n', done.stdout)
        self.assertIn('counter.rpp:7:3\n', done.stdout)
        self.assertIn('count = 3\nbefore = 0\n', done.stdout)
        self.assertIn('end finished\n', done.stdout)
        self.assertIn('[0] pc 0 br 0 dir 1  START  start\n', done.stdout)

    def test_the_session_of_the_pages(self):
        image = os.path.join(self.folder, 's.img')
        self.program.call('asm', os.path.join(EXAMPLES, 'subroutine.pisa'), image)
        given = ['step 10', 'back 10', 'regs', 'back 1', 'until 4', 'break 3', 'rc', 'step 5']
        done = self.rpp('debug', image, *[word for line in given for word in ('-c', line)])
        heads = re.findall(r'^\[(\d+)\] pc (\d+) br (-?\d+) dir (-?1)  (?:.*?)(?:  (start|end .*))?$', done.stdout, re.M)
        # docs/reference/commands.md has these positions, from the program's own scripts.
        self.assertEqual(heads, [('0', '0', '0', '1', ''), ('10', '6', '-4', '-1', ''), ('0', '0', '0', '1', ''),
                                 ('0', '0', '0', '1', 'start'), ('25', '4', '0', '1', ''), ('24', '3', '-3', '1', ''),
                                 ('25', '4', '0', '1', 'end finished')])

    def test_help_names_each_command_once(self):
        image = os.path.join(self.folder, 's.img')
        self.program.call('asm', os.path.join(EXAMPLES, 'subroutine.pisa'), image)
        done = self.rpp('debug', image, '-c', 'help')
        self.assertEqual(re.findall(r'^([a-z-]+)(?=[ :])', done.stdout, re.M),
                         ['back', 'break', 'cells', 'clear', 'continue', 'finish', 'go', 'help', 'list', 'next', 'print', 'quit', 'regs',
                          'reverse-continue', 'step', 'until', 'watch', 'where'])

    def test_no_image(self):
        done = self.rpp('debug', self.write('no.img', 'RPPI nothing'))
        self.assertEqual(done.returncode, 4)
        self.assertIn('refused 33 ImageField', done.stdout)


class Terminal(Case):
    def begin(self, *words):
        """Begins `rpp` with these words on a terminal of its own."""
        self.leader, follower = pty.openpty()
        self.session = subprocess.Popen([sys.executable, COMMAND, *words], stdin=follower, stdout=follower,
                                        stderr=follower, start_new_session=True, preexec_fn=self.own_terminal(follower),
                                        env=dict(os.environ, HOME=self.folder, TERM='dumb'))
        os.close(follower)
        self.read = ''
        self.addCleanup(self.end)

    @staticmethod
    def own_terminal(follower):
        """Makes the terminal the session's own, and lets ^C end what it reaches, as where the tests themselves ignore it."""
        def take():
            import fcntl
            import termios
            signal.signal(signal.SIGINT, signal.SIG_DFL)
            fcntl.ioctl(follower, termios.TIOCSCTTY, 0)
        return take

    def end(self):
        if self.session.poll() is None:
            self.session.kill()
        self.session.wait()
        os.close(self.leader)

    def wait_for(self, wanted, seconds=HANGS):
        """Reads on until the text has come; what was read before it is passed over."""
        end = time.monotonic() + seconds
        while wanted not in self.read:
            self.assertLess(time.monotonic(), end, f'{wanted!r} did not come: {self.read!r}')
            if select.select([self.leader], [], [], 0.2)[0]:
                try:
                    self.read += os.read(self.leader, 65536).decode()
                except OSError:
                    self.assertIn(wanted, self.read, 'the session ended')
        self.read = self.read.split(wanted, 1)[1]

    def type(self, text):
        os.write(self.leader, text.encode())

    def test_the_prompt_stays_after_an_interrupt(self):
        self.begin('debug', self.write('endless.rpp', ENDLESS))
        self.wait_for('[0] endless.rpp:2:1 in P.main')
        self.wait_for('(rpp) ')
        self.type('step\n')
        self.wait_for('[1] endless.rpp:3:3')
        self.type('\n')
        self.wait_for('[2] endless.rpp:4:6')
        self.wait_for('(rpp) ')
        self.type('watch y\n')
        time.sleep(1.5)
        self.type('\x03')
        self.wait_for('stopped by ^C')
        self.wait_for('(rpp) ')
        self.type('continue\n')
        time.sleep(1.5)
        self.type('\x03')
        self.wait_for('stopped by ^C')
        self.wait_for('(rpp) ')
        self.type('back 99\n')
        self.wait_for('this is the start')
        self.wait_for('(rpp) ')
        self.type('quit\n')
        self.assertEqual(self.session.wait(timeout=HANGS), 0)

    def test_tab_completes_commands_and_names(self):
        self.begin('debug', self.write('a.rpp', GROWING))
        self.wait_for('(rpp) ')
        self.type('break Bo\t\n')
        self.wait_for('breakpoint 1 in Box.put: held += n')
        self.type('reverse-c\t\n')
        self.wait_for('this is the start')
        self.type('step\n')
        self.wait_for('(rpp) ')
        self.type('print bo\t.h\t + 1\n')
        self.wait_for('box.held + 1 = 1')
        self.type('quit\n')
        self.assertEqual(self.session.wait(timeout=20), 0)

    def test_a_run_is_ended_with_what_is_known(self):
        self.begin('run', self.write('endless.rpp', ENDLESS), '--steps', str(10 ** 17))
        self.wait_for('100,000,000 steps, and it goes on')
        self.type('\x03')
        self.wait_for('steps it had not ended')
        self.assertEqual(self.session.wait(timeout=HANGS), 130)
