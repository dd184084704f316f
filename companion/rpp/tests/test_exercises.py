"""The exercises of the course, docs/learn/exercises. The program accepts each, and it is not yet solved. The solution of
examples/solutions solves it, and the answer to a wrong solution says why."""
import os
import re
import unittest
from typing import NamedTuple, Tuple

from rpp.confined import Confined
from rpp.program import TOP
from rpp.testing import Grading, judged, told
from rpp.tests.base import Case

EXERCISES = os.path.join(TOP, 'docs', 'learn', 'exercises')
SOLUTIONS = os.path.join(TOP, 'examples', 'solutions')
GRADING = Grading(None, 30.0, 5.0)
Edits = Tuple[Tuple[str, str], ...]


class Solved(NamedTuple):
    """How an exercise is solved, and how it is not: the file of the solutions page, and the edits that make it the solution. A
    question has no file, and these are edits of the exercise. Then an edit of the solution that is wrong, with words that say why."""
    file: str
    edits: Edits
    wrong: Edits
    why: str


ARRIVE = (('fi left < right', 'fi left = right'),)
SOLVED = {
    '01-1.rpp': Solved('three.rpp', (), (('a + a + a + 1', 'a + a + 1'),), r'b is 29, and must be 43'),
    '01-2.rpp': Solved('back.rpp', (), (('b -= a + a + a + 1', 'a -= b'),), r'a is -29, and must be 14'),
    '01-3.rpp': Solved('change.rpp', (), (('paid -= change + price', 'paid -= 50'),), r'`50` must occur at most 1 time, and occurs 2 times'),
    '02-1.rpp': Solved('rotate.rpp', (), (('  b <=> c\n  a <=> b\n', '  a <=> b\n  b <=> c\n'),), r'a is 3, and must be 1'),
    '02-2.rpp': Solved('five.rpp', (), (('  b <=> d', '  b <=> d  c <=> d  c <=> d'),), r'`<=>` must occur at most 2 times'),
    '02-3.rpp': Solved('sign.rpp', (), (('  x <=> other', '  skip'),), r'x is 0, and must be -9'),
    '03-1.rpp': Solved('most.rpp', (), (('if a >= b', 'if a > b'), ('fi a >= b', 'fi a < b')), r'fault 1 Fi'),
    '03-2.rpp': Solved('order.rpp', (), (('fi changed = 1', 'fi a > b'),), r'fault 1 Fi'),
    '03-3.rpp': Solved('days.rpp', (), ((' || m = 11', ''),), r'days is 31, and must be 30'),
    '04-1.rpp': Solved('product.rpp', (), (('from i = 0', 'from product = 0'),), r'fault 2 Loop'),
    '04-2.rpp': Solved('fibonacci.rpp', (), (('    a <=> b\n', ''),), r'a is 10, and must be 55'),
    '04-3.rpp': Solved('divide.rpp', (), (('until n < d', 'until n = 0'),), r'it had not ended after 1,000,000 steps'),
    '05-1.rpp': Solved('product.rpp', (), (('delocal int i = b', 'delocal int i = 0'),), r'fault 3 Delocal'),
    '05-2.rpp': Solved('sign.rpp', (), (('  x <=> other', '  skip'),), r'fault 3 Delocal'),
    '05-3.rpp': Solved('pairs.rpp', (), (('sum += i + j', 'sum += i'),), r'sum is 18, and must be 36'),
    '06-1.rpp': Solved('sum.rpp', (), (('    n += 1\n', ''),), r'fault 1 Fi'),
    '06-2.rpp': Solved('three.rpp', (), (('    uncall add_product(x, y, two)\n', ''),), r'fault 3 Delocal'),
    '06-3.rpp': Solved('divide.rpp', (), (('uncall multiply', 'call multiply'),), r'`uncall multiply` must be used in main'),
    '07-1.rpp': Solved('leap.rpp', (), (('at += 100', 'at += 10'),), r'where is 22, and must be 202'),
    '07-2.rpp': Solved('purse.rpp', (), (('uncall put(n)', 'coins -= n'),), r'`uncall put` must be used in give'),
    '07-3.rpp': Solved('runner.rpp', (), (('out <=> far', 'out += far'),), r'fault 7 NotEmpty'),
    '08-1.rpp': Solved('trade.rpp', (), (('call other::exchange(content)', 'skip'),), r'`other ::` must be used in trade'),
    '08-2.rpp': Solved('look.rpp', (), (('    uncopy Box a b\n', ''),), r'fault 6 Count'),
    '08-3.rpp': Solved('apart.rpp', (), (('uncall together', 'skip call together'),), r'fault 4 NotNil'),
    '09-1.rpp': Solved('opposite.rpp', (), (('until i = 2\n  delocal int i = 2', 'until i = 5\n  delocal int i = 5'),), r'a\[0\] is 1, and must be 5'),
    '09-2.rpp': Solved('greatest.rpp', (), (('index += i', 'index += a[i]'),), r'index is 4, and must be 2'),
    '09-3.rpp': Solved('dice.rpp', (), (('        uncall dice[i]::show(n)\n', '        skip\n'),), r'fault 7 NotEmpty'),
    '10-1.rpp': Solved('office.rpp', (), (('uncall waiting::push', 'uncall waiting::append'),), r'waiting.first.value is 5, and must be 7'),
    '10-2.rpp': Solved('ends.rpp', (), (('uncall line::append(v)', 'uncall line::push(v)'),), r'end is 2, and must be 3'),
    '10-3.rpp': Solved('turned.rpp', (), (('      call head::hang(out)\n', ''),), r'fault '),
    '11-1.rpp': Solved('square.rpp', (), (('k + k + 1', 'k + k'),), r'square is 72, and must be 81'),
    '11-2.rpp': Solved('', (('9, calls = ?', '9, calls = 1'), ('81, calls = ?', '81, calls = 1')), (('9, calls = 1', '9, calls = 3'),),
                       r'calls is 1, and must be 3'),
    '11-3.rpp': Solved('', (('  uncall encode()\n  uncall load()\n  delete int[5] p\n', ''),), (('code_c += p[2]', 'code_c += p[1]'),),
                       r'`wrap` leaves code_c = 0, and it must be 2'),
    '12-1.pisa': Solved('exchange.pisa', (), (('ADDI $2 -6\n', ''),), r'\$2 is 6 at the end, and must be 0'),
    '12-2.rpp': Solved('', (('9 = ?', '9 = 0'), ('10 = ?', '10 = 56'), ('11 = ?', '11 = 48'), ('12 = ?', '12 = 0'), ('42 = ?', '42 = 60')),
                       (('11 = 48', '11 = 56'),), r'cell 11 is 48, and not 56'),
    '12-3.rpp': Solved('', (('a at ?', 'a at 508'), ('a.next at ?', 'a.next at 504'), ('a.next.next at ?', 'a.next.next at 508')),
                       (('a.next at 504', 'a.next at 506'),), r'a.next is at 504, and not at 506'),
    '13-1.rpp': Solved('change.rpp', (('from amount < 5', 'from ones = 0'),), (('from ones = 0', 'from amount < 6'),), r'fault 2 Loop'),
    '13-2.rpp': Solved('guests.rpp', ARRIVE, (('fi left = right', 'fi left > right'),), r'fault 1 Fi'),
    '13-3.rpp': Solved('lend.rpp', (('copy Book hand theirs', 'hand <=> theirs'),), (('hand <=> theirs', 'hand <=> mine'),),
                       r'mine is #1, and must be nil'),
    '14-1a.rpp': Solved('', (('ends ?', 'ends 13'),), (('ends 13', 'ends Index'),), r'it ends with fault 13 Length, and not with Index'),
    '14-1b.rpp': Solved('', (('ends ?', 'ends well'),), (('ends well', 'ends 3'),), r'it ends well, and not with 3'),
    '14-1c.rpp': Solved('', (('ends ?', 'ends Nil'),), (('ends Nil', 'ends well'),), r'fault 5 Nil'),
    '14-1d.rpp': Solved('', (('ends ?', 'ends 12'),), (('ends 12', 'ends 9'),), r'it ends with fault 12 LengthDiffers, and not with 9'),
    '14-2.rpp': Solved('unmade.rpp', (), (('new Unmade a', 'skip'),), r'must stop with a fault, and it finishes'),
    '14-3.rpp': Solved('', (('fault ? at ?', 'fault 6 at 45'),), (('at 45', 'at 43'),), r'in line 45, and not 43'),
}


def exercise(name: str) -> str:
    with open(os.path.join(EXERCISES, name), encoding='utf-8') as file:
        return file.read()


def edited(text: str, edits: Edits) -> str:
    for old, new in edits:
        if old not in text:
            raise AssertionError(f'there is no {old!r} to edit')
        text = text.replace(old, new)
    return text


def solution(name: str, solved: Solved) -> str:
    """The solution as its page has it, or, of a question, the exercise with its answers."""
    if not solved.file:
        return edited(exercise(name), solved.edits)
    with open(os.path.join(SOLUTIONS, f'{name[:2]}.md'), encoding='utf-8') as file:
        found = re.search(rf'^```\n(?://|;) {re.escape(solved.file)}\n(.*?)^```', file.read(), re.S | re.M)
    return edited(found[1], solved.edits)


class ExercisesTest(Case):
    def judged(self, name: str, text: str):
        path = self.write(name, text)
        return judged(path, True, GRADING._replace(by=os.path.join(EXERCISES, name)))

    def test_each_chapter_has_its_exercises(self):
        self.assertEqual(sorted(os.listdir(EXERCISES)), sorted([*SOLVED, 'README.md']))
        chapters = {name[:2]: {each[3] for each in SOLVED if each[:2] == name[:2]} for name in SOLVED}
        self.assertEqual(chapters, {f'{chapter:02d}': {'1', '2', '3'} for chapter in range(1, 15)})

    def test_exercises_are_accepted_and_not_solved(self):
        program = Confined.found()
        for name in SOLVED:
            with self.subTest(name):
                if name.endswith('.rpp'):
                    self.assertEqual(program.call('check', os.path.join(EXERCISES, name)).output, 'accepted\n')
                row = self.judged(name, exercise(name))
                self.assertIn(row.verdict.kind, ('wrong', 'open', 'fault'))
                self.assertLess(row.verdict.held, row.expected)

    def test_solutions_solve_them(self):
        for name, solved in SOLVED.items():
            with self.subTest(name):
                row = self.judged(name, solution(name, solved))
                self.assertEqual(row.verdict.kind, 'right', '\n'.join(told(row)))

    def test_wrong_solutions_are_told_why(self):
        for name, solved in SOLVED.items():
            with self.subTest(name):
                row = self.judged(name, edited(solution(name, solved), solved.wrong))
                self.assertNotEqual(row.verdict.kind, 'right')
                self.assertRegex('\n'.join(told(row)), solved.why)


if __name__ == '__main__':
    unittest.main()
