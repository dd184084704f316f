"""`rpp side`: the lines of a program and of its inverse, and which belong together, worked out by hand."""
import unittest

from rpp.side import LaidOut, pairs
from rpp.tests.test_film import Folder


class SideTest(Folder):
    def rows(self, source: bytes, *words: str):
        done = self.rpp('side', self.written('f.rpp', source), *words)
        self.assertEqual(done.returncode, 0, done.stderr)
        return done.stdout.splitlines()

    def test_each_form(self):
        source = (b'class P int x Q[] q method main() if x = 0 then x += 1 call q[x]::m(x) else skip fi x = (1 + 2) '
                  b'from x = 0 do skip loop local int y = 0 - x x -= 2 delocal int y = x until 1 '
                  b'class Q int[] a method m(int v) construct Q n v ^= a[1] delete int[3] a destruct n')
        left = ['class P', '  int x', '  Q[] q', 'method main()', '  if x = 0 then', '    x += 1', '    call q[x]::m(x)', '  else',
                '    skip', '  fi x = (1 + 2)', '  from x = 0 do', '    skip', '  loop', '    local int y = 0 - x', '      x -= 2',
                '    delocal int y = x', '  until 1', 'class Q', '  int[] a', 'method m(int v)', '  construct Q n', '    v ^= a[1]',
                '    delete int[3] a', '  destruct n']
        right = [(1, 'class P'), (2, '  int x'), (3, '  Q[] q'), (4, 'method main()'), (17, '  from 1 do'), (12, '    skip'),
                 (13, '  loop'), (16, '    local int y = x'), (15, '      x += 2'), (14, '    delocal int y = 0 - x'),
                 (11, '  until x = 0'), (10, '  if x = (1 + 2) then'), (7, '    call q[x]::m(x)'), (6, '    x -= 1'), (8, '  else'),
                 (9, '    skip'), (5, '  fi x = 0'), (18, 'class Q'), (19, '  int[] a'), (20, 'method m(int v)'),
                 (24, '  construct Q n'), (23, '    new int[3] a'), (22, '    v ^= a[1]'), (21, '  destruct n')]
        rows = self.rows(source)
        self.assertEqual(rows[0].split(), ['program', 'inverse'])
        halves = [row.split(' | ') for row in rows[1:]]
        self.assertEqual([(int(half[0][:4]), half[0][6:].rstrip()) for half in halves], list(enumerate(left, 1)))
        self.assertEqual([(int(half[1][:4]), half[1][6:]) for half in halves], right)

    def test_pairs_go_both_ways(self):
        text = 'class P int x\nmethod main ( )\nif x = 0 then\nx += 1 else\nskip fi x = 1\nskip\n'
        inverse = 'class P int x\nmethod main ( )\nskip\nif x = 1 then\nx -= 1 else\nskip fi x = 0\n'
        forth = sorted(pairs(LaidOut(text), LaidOut(inverse)))
        self.assertEqual(forth, [(0, 0), (1, 1), (2, 2), (3, 8), (4, 5), (5, 6), (6, 7), (7, 4), (8, 3)])
        back = sorted((two, one) for one, two in pairs(LaidOut(inverse), LaidOut(text)))
        self.assertEqual(forth, back)

    def test_page_is_not_written_over_the_source(self):
        source = self.written('f.rpp', b'class P int x method main() x += 1')
        self.assertNotEqual(self.rpp('side', source, '-o', source).returncode, 0)
        self.assertEqual(self.rpp('side', source, '-o', f'{self.folder}/f.html').stdout, f'{self.folder}/f.html\n')


if __name__ == '__main__':
    unittest.main()
