"""`rpp heap`: the memory by docs/reference/machine.md and the free lists by docs/reference/language.md, worked out by hand; the frames
against what `trace` says at the same statement."""
import re
import unittest

from rpp.heap import ImageRun
from rpp.memory import order_for
from rpp.options import Unfit
from rpp.program import TOP, Program
from rpp.tests.test_film import Folder

# the object a gets the upper half of the heap, b the lower; given back in this order, they stay two blocks
APART = (b'class P B a B b C c method main() new B a new B b delete B a delete B b new C c '
         b'class B method q() skip class C int f int g method q() skip')
MERGED = APART.replace(b'delete B a delete B b', b'delete B b delete B a')


class HeapTest(Folder):
    def moments(self, source: bytes, *words: str):
        done = self.rpp('heap', self.written('f.rpp', source), *words)
        self.assertEqual(done.returncode, 0, done.stderr)
        return [moment.splitlines() for moment in done.stdout.rstrip('\n').split('\n\n')]

    def test_orders(self):
        self.assertEqual([order_for(words) for words in (1, 2, 3, 4, 5, 8, 9)], [1, 1, 2, 2, 3, 3, 4])

    def test_loaded_memory(self):
        # (the static cells are 40 to 44, so the base of the heap is 46)
        before, middle, after = self.moments(b'class P int x method main() x += 5', '--heap', '1')
        self.assertEqual(before, [
            'before the run, 0 steps', '  main object  @40 P, count 1: x=0', '  heap of 2 words from 46, 0 taken  [..]',
            '        46      2 words  free, order 1', '  free blocks by order   order 1: 46', '  no active call'])
        self.assertEqual(after[1:], ['  main object  @40 P, count 1: x=5'] + before[2:])
        self.assertEqual(middle[-2:], ['  active calls, a frame of 512 words each from 48', '        48  P::main on @40'])

    def test_blocks_that_stay_apart(self):
        *_, after = self.moments(APART, '--heap', '2')
        self.assertRegex(after[0], r'^after the run, \d+ steps: fault 8 HeapFull$')
        # (5 words of the main object from 40 on, tables of 2, 2 and 2 words: the base is 52)
        self.assertEqual(after[3:6], ['        52      2 words  free, order 1', '        54      2 words  free, order 1',
                                      '  free blocks by order   order 1: 52 54'])

    def test_blocks_that_merge(self):
        *_, after = self.moments(MERGED, '--heap', '2')
        self.assertEqual(after[1:5], [
            '  main object  @40 P, count 1: a=nil b=nil c=@52', '  heap of 4 words from 52, 4 taken  [####]',
            '        52      4 words  C, count 1: f=0 g=0', '  free blocks by order   none'])

    def test_arrays_and_inherited_fields(self):
        source = (b'class P int[] a P0[] b P0 c method main() new int[3] a a[1] += 7 new P0[2] b new P2 c c <=> b[1] '
                  b'class P0 int f method q() skip class P2 inherits P0 int g method q() skip')
        *_, after = self.moments(source, '--heap', '5')
        # (the static cells are 5, 2, 2 and 2, so the base is 64; 5 words take 8, and 4 take 4)
        self.assertEqual(after[1:9], [
            '  main object  @40 P, count 1: a=@88 b=@84 c=nil',
            '  heap of 32 words from 64, 16 taken  [................################]',
            '        64     16 words  free, order 4', '        80      4 words  P2, count 1: f=0 g=0',
            '        84      4 words  P0[2], count 1: nil @80', '        88      8 words  int[3], count 1: 0 7 0',
            '  free blocks by order   order 4: 64', '  no active call'])

    def test_array_as_long_as_the_address_of_a_table(self):
        # (the tables are at 43 and 45; an array of 43 elements has that number in its first word)
        *_, after = self.moments(b'class P int[] a method main() new int[43] a class Q method q() skip', '--heap', '7')
        self.assertTrue(any('int[43], count 1:' in row for row in after), after)

    def test_smallest_heap_that_is_enough(self):
        *_, after = self.moments(b'class P int[] a method main() new int[20] a')
        self.assertIn('  heap of 64 words', after[2])

    def test_input_and_moments(self):
        before, _, after = self.moments(b'class P int x int y method main() y += x', 'x=-3', 'y=1')
        self.assertIn('x=-3 y=1', before[1])
        self.assertIn('x=-3 y=-2', after[1])
        path = self.written('f.rpp', b'class P int x method main() x += 5')
        self.assertIn('ends after', self.rpp('heap', path, '--at', '100000').stderr)
        self.assertIn('--at 0 or more', self.rpp('heap', path, '--at', '-1').stderr)
        self.assertIn('no statement of line 2', self.rpp('heap', path, '--line', '2').stderr)

    def test_memory_is_that_of_trace(self):
        for name, count in (('tree', 25), ('queue', 25), ('shuffle', 10)):
            with self.subTest(name), Program.folder() as folder:
                run = ImageRun(Program.found(), f'{TOP}/examples/{name}.rpp', folder, 16)
                run.order = 8
                lines = sorted({run.text.place(mark.place).line for mark in run.marks})
                tried = [self.is_as_traced(run, line) for line in lines]
                self.assertGreaterEqual(sum(tried), count)

    def is_as_traced(self, run: ImageRun, line: int) -> bool:
        """Compares the memory with what `trace` says at the same statement, where the run comes to one of this line."""
        try:
            memory = run.moment('', run.first_at_line(line)).memory
        except Unfit:
            return False
        place = memory.frames[-1].place
        script = run.folder.write('script', f'to {place} 1000000\nregs\ncells 1 1000\n')
        first, *rows = run.program.call('trace', run.source, 8, 16, script).output.splitlines()
        at = re.match(r'at \d+ place (\d+) depth (\d+)$', first)
        if not at or int(at[1]) != place:
            return False
        values = dict(re.match(r'([\w\']+) = (.*)', row).groups() for row in rows if re.match('[A-Za-z]', row))
        for variable, value in memory.frames[-1].variables:
            self.assertEqual(re.sub('^@.*', '#', value), re.sub('^#.*', '#', values[variable]), f'line {line}: {variable}')
        self.assertEqual(len(memory.frames), int(at[2]), f'line {line}')
        heads = sorted(re.match(r'#\d+ (\S+)', row)[1] for row in rows if row.startswith('#'))
        blocks = [memory.main] + [block for block in memory.blocks if block.kind != 'free']
        self.assertEqual(sorted(block.head for block in blocks), heads, f'line {line}')
        return True


if __name__ == '__main__':
    unittest.main()
