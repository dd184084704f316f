"""What a person sees on a terminal of 40, 60, 80 or 120 columns: lines that fit, with all that a pipe gets."""
import fcntl
import os
import pty
import re
import struct
import subprocess
import sys
import termios
import unittest

from .base import COMMAND, EXAMPLES, LIST, SUMS, Case, shown_by

WIDTHS = (40, 60, 80, 120)
COUNTER = os.path.join(EXAMPLES, 'counter.rpp')
# Each prints more than 40 columns in a pipe, and the same words on a terminal.
SAME_WORDS = {
    'help': ('help', '16'), 'statement': ('help', 'if'), 'usage': ('--help',), 'fault': ('run', SUMS, 'a=4', 'b=8'), 'bound': ('run', LIST, '--steps', '9'),
    'heap full': ('run', LIST, '--heap', '1'), 'prompt': ('debug', SUMS, 'a=4', 'b=8', '-c', 'break 11 if a + b < total + 10', '-c', 'print nothing'),
    'no statement': ('debug', LIST, '-c', 'break 19'), 'unfit': ('run', LIST, 'nothing'), 'no command': ('nothing',), 'no word': ('help', 'nothing'),
    'version': ('version',)}
# A source line that is shown cut, not folded.
SHORT = 'class P int count int other method main() local int first = 0 count += other other += first delocal int first = 0'


def on_screen(case, words, columns, stdin=subprocess.DEVNULL, **settings):
    """The lines that `rpp` writes on a terminal of so many columns; both outputs are that terminal."""
    ours, its = pty.openpty()
    fcntl.ioctl(its, termios.TIOCSWINSZ, struct.pack('HHHH', 24, columns, 0, 0))
    kept = {name: value for name, value in os.environ.items() if name not in ('COLUMNS', 'TERM_PROGRAM', 'INSIDE_EMACS', 'VIMRUNTIME', 'NVIM', 'VIM_TERMINAL')}
    environment = {**kept, 'TERM': 'xterm', 'NO_COLOR': '1', **settings}
    started = subprocess.Popen([sys.executable, COMMAND, *map(str, words)], cwd=case.folder, stdin=stdin, stdout=its, stderr=its, env=environment)
    os.close(its)
    return shown_by(started, ours).rstrip('\n').split('\n')


class Widths(Case):
    def too_long(self, lines, columns):
        """The lines that are wider than the terminal, unless for one word that is longer than a line, as a path."""
        return [line for line in lines if len(line) > columns and len(line.split()[-1]) <= columns - 8]

    def test_words_stay_and_lines_fit(self):
        for name, words in SAME_WORDS.items():
            piped = self.rpp(*words)
            wanted = (piped.stdout + piped.stderr).split()
            for columns in WIDTHS:
                with self.subTest(name, columns=columns):
                    lines = on_screen(self, words, columns)
                    self.assertEqual(self.too_long(lines, columns), [])
                    self.assertEqual(sorted(' '.join(lines).split()), sorted(wanted))

    def test_tables_fit(self):
        exercises = os.path.join(os.path.dirname(EXAMPLES), 'docs', 'learn', 'exercises')
        own = self.write('a.rpp', '//? n = 3 -> many = 1234567\nclass P int n int many method main() n += 2')
        tables = [('side', LIST), ('heap', LIST, '--heap', '5'), ('stat', COUNTER, 'count=1..3', 'before=1..2'), ('list', LIST),
                  ('test', '--table', own, os.path.join(exercises, '01-3.rpp')), ('test', own), ('fmt', '--check', own), ('check', '--lint', own)]
        for words in tables:
            for columns in WIDTHS:
                with self.subTest(words[0], columns=columns):
                    self.assertEqual(self.too_long(on_screen(self, words, columns), columns), [])

    def test_a_pipe_gets_what_a_wide_terminal_shows(self):
        for words in (('side', LIST), ('heap', LIST, '--heap', '5'), ('stat', COUNTER, 'count=1..3'), ('list', COUNTER), ('run', SUMS, 'a=4', 'b=8')):
            with self.subTest(words[0]):
                self.assertEqual(on_screen(self, words, 100), self.rpp(*words).stdout.rstrip('\n').split('\n'))

    def test_columns_of_the_environment(self):
        lines = on_screen(self, ('help', '16'), 120, COLUMNS='50')
        self.assertTrue(40 < max(len(line) for line in lines if not line.startswith('See')) <= 50)

    def test_a_page_is_wide(self):
        on_screen(self, ('heap', LIST, '--heap', '6', '-o', 'heap.html'), 40)
        with open(os.path.join(self.folder, 'heap.html'), encoding='utf-8') as page:
            self.assertIn(f'[{"." * 64}]', page.read())


class Tables(Case):
    maxDiff = None

    def test_side(self):
        """Halves of 15 columns: 40 less two numbers of one digit and the bar; the second one takes what the first leaves."""
        source = self.write('a.rpp', 'class P int count P other method main() count += 31 call other::change(count)\n'
                                     'method change(int amount) amount <=> count')
        self.assertEqual(on_screen(self, ('side', source), 40), [
            '   program              inverse',
            '1  class P         | 1  class P',
            '2    int count     | 2    int count',
            '3    P other       | 3    P other',
            '4  method main()   | 4  method main()',
            '5    count += 31   | 6    call other::',
            '                   |        change(',
            '                   |        count)',
            '6    call other::  | 5    count -= 31',
            '       change(     |',
            '       count)      |',
            '7  method change(  | 7  method change(',
            '     int amount)   |      int amount)',
            '8    amount <=>    | 8    amount <=>',
            '       count       |        count'])
        self.assertEqual(on_screen(self, ('side', source), 80)[5], f'   5  {"  count += 31":27} |    6    call other::change(count)')

    def test_stat(self):
        """The tables below each other have all columns of the wide one, and the inputs in front of each."""
        wide = [line.split() for line in self.rpp('stat', COUNTER, 'count=1..2').stdout.splitlines()]
        for columns, tables in ((40, 2), (60, 2), (80, 1), (120, 1)):
            with self.subTest(columns=columns):
                found = [[line.split() for line in part.split('\n')] for part in '\n'.join(on_screen(self, ('stat', COUNTER, 'count=1..2'), columns)).split('\n\n')]
                self.assertEqual(len(found), tables)
                self.assertTrue(all(row[0] == whole[0] for part in found for row, whole in zip(part, wide)))
                self.assertEqual([[row[0]] + [cell for part in found for cell in part[at][1:]] for at, row in enumerate(wide)], wide)

    def test_list(self):
        source = self.write('a.rpp', SHORT)
        line = next(line for line in on_screen(self, ('list', source), 40) if '1:46' in line or '1:43' in line)
        self.assertTrue(line.endswith(' ..') and len(line) <= 40, line)
        self.assertRegex(line, r'^ +\d+  [A-Z]+ .* 1:\d+ local')

    def test_test(self):
        """At 60 columns the names have lines of their own, at 80 what is wrong is in its column."""
        self.write('first.rpp', '//? -> total = 3\nclass P int total method main() total += 2')
        os.mkdir(os.path.join(self.folder, 'answers'))
        os.rename(os.path.join(self.folder, 'first.rpp'), os.path.join(self.folder, 'answers', 'a-long-name-of-a-file.rpp'))
        self.assertEqual([line for line in on_screen(self, ('test', 'answers'), 60) if not re.search(r'1 of 1$|^$', line)], [
            'answers/a-long-name-of-a-file.rpp', '  wrong  0 of 1  total is 2, and must be 3', '1 wrong'])
        self.assertEqual([line for line in on_screen(self, ('test', 'answers'), 78) if not re.search(r'1 of 1$|^$', line)], [
            'answers/a-long-name-of-a-file.rpp  wrong  0 of 1  total is 2, and must be 3', '1 wrong'])

    def test_heap(self):
        """The map of 64 words has 32 signs at 40 columns, each for two words: two objects of 4 words at the end of 64."""
        source = self.write('a.rpp', 'class P N a N b method main() new N a new N b class N int x int y')
        lines = on_screen(self, ('heap', source, '--heap', '6'), 40)
        self.assertEqual([line.strip() for line in lines if '[' in line], [f'[{"." * 32}]', f'[{"." * 30}##]', f'[{"." * 28}####]'])


class Prompts(Case):
    def test_source_lines_are_cut(self):
        source = self.write('a.rpp', SHORT)
        lines = on_screen(self, ('debug', source, 'other=2', '-c', 'go 2', '-c', 'list', '-c', 'history 1'), 40)
        at = lines.index('(rpp) list')
        self.assertEqual(lines[at + 1:], ['>     1 | class P int count int other ..', '(rpp) history 1', '[1] a.rpp:1:63 class P int count int ..'])

    def test_carets_stay_below_their_token(self):
        source = self.write('a.rpp', f'class P int x method main()\n\t\tx += 1 {"x += 1 " * 12}x += 1 1\n')
        for columns in WIDTHS:
            line, marks = self.pointed(source, columns)
            with self.subTest(columns=columns):
                self.assertLessEqual(len(line), columns)
                self.assertEqual((line[marks.index('^')], marks.count('^')), ('1', 1))

    def pointed(self, source, columns):
        lines = on_screen(self, ('check', source), columns)
        at = next(at for at, line in enumerate(lines) if re.match(r' +2 \| ', line))
        return lines[at], lines[at + 1]


class Editors(Case):
    def test_lines_that_editors_read_stay_whole(self):
        source = self.write('double.rpp', 'class P int count method main() count += count')
        whole = self.rpp('check', source, '--brief').stdout.rstrip('\n')
        self.assertGreater(len(whole), 100)
        self.assertEqual(on_screen(self, ('check', source, '--brief'), 60), [whole])
        for settings in ({'INSIDE_EMACS': '28.2,compile'}, {'VIM_TERMINAL': '900'}, {'TERM_PROGRAM': 'vscode'}):
            with self.subTest(settings):
                self.assertEqual(on_screen(self, ('check', source), 60, **settings)[0], whole)
        lines = on_screen(self, ('check', source), 60)
        self.assertEqual(' '.join(' '.join(lines).split()[:len(whole.split())]), whole)


if __name__ == '__main__':
    unittest.main()
