"""Answers taken apart, and the rules as the pages have them."""
import os
import re
import shutil
import subprocess
import sys
import unittest

from rpp.messages import fault, faults, read_answer, refusal, refusals, rules_of
from rpp.program import PACKAGE, TOP, Answer

from .base import Case

NAMES = ('BadByte NumberTooLarge Syntax Limit DuplicateClass UnknownClass InheritanceCycle DuplicateField DuplicateMethod '
         'OverrideDiffers NoMain TwoMains UnknownName Redeclared TypeDiffers SelfUpdate SameArgument FieldArgument WrongArity '
         'NotAnArray RefusedOperator LocalInOwnExpression NotClassType BadLine UnknownMnemonic DuplicateLabel UnknownLabel '
         'NotOneToOne NoStart NoFinish ImageTruncated ImageMagic ImageField ImageTrailing HeapOrder DeepRange').split()
FAULTS = ('Fi Loop Delocal NotNil Nil Count NotEmpty HeapFull Index NotSame ClassDiffers LengthDiffers Length TooDeep Touched '
          'SharedArray').split()

ANSWERS = [
    ((3, 'refused 16 SelfUpdate at 28\n'), ('refused', 16, 'SelfUpdate', 28)),
    ((8, 'refused 35 HeapOrder\n'), ('refused', 35, 'HeapOrder', None)),
    ((5, 'fault 8 HeapFull\nsteps 2\npc 1\n'), ('fault', 8, 'HeapFull', None)),
    ((5, 'fault -7\nsteps 2\n'), ('fault', -7, '', None)),
    ((6, 'bound\nsteps 0\n'), ('bound', None, '', None)),
    ((7, ''), ('memory', None, '', None)),
    ((1, 'words refused\n'), ('words', None, '', None)),
    ((9, 'returned\nsteps 3\n'), ('left', None, '', None)),
    ((0, 'accepted\n'), ('done', None, '', None)),
]


class Answers(unittest.TestCase):
    def test_each_kind(self):
        for answer, wanted in ANSWERS:
            with self.subTest(answer=answer):
                told = read_answer(Answer(*answer))
                self.assertEqual((told.kind, told.number, told.name, told.at), wanted)

    def test_files(self):
        told = read_answer(Answer(2, 'cannot read a: b.rpp: too long\n'))
        self.assertEqual((told.kind, told.file, told.why), ('read', 'a: b.rpp', 'too long'))
        self.assertEqual(read_answer(Answer(2, '')).kind, 'write')

    def test_numbers_behind_words(self):
        told = read_answer(Answer(5, 'fault 1 Fi\nsteps 5604\npc 3023\nfrom 1330\n'))
        self.assertEqual((told.number_behind('steps'), told.number_behind('from'), told.number_behind('cost')),
                         (5604, 1330, None))


class Rules(Case):
    def test_each_number_has_its_name(self):
        self.assertEqual([refusals()[number].name for number in range(1, 37)], NAMES)
        self.assertEqual([faults()[number].name for number in range(1, 17)], FAULTS)
        for number in (37, 39, 40, 41, 43, 44):
            self.assertTrue(refusal(number).sentence)

    def test_each_refusal_of_texts_and_each_fault_says_what_to_do(self):
        for rule in [refusal(number) for number in range(1, 24)] + list(faults().values()):
            with self.subTest(rule=rule.title):
                self.assertTrue(rule.sentence.endswith('.'))
                self.assertTrue(rule.fix)

    def test_links_are_headings(self):
        self.assertEqual(refusal(16).link, 'docs/reference/messages.md#16-selfupdate')
        self.assertEqual(fault(1).link, 'docs/reference/messages.md#fault-1-fi')

    def test_pages_are_named_where_the_reader_has_them(self):
        """In a package without documents the pages are those of the companion's own folder. A page that is not there is not named."""
        copy, page = os.path.join(self.folder, 'rpp'), os.path.join('docs', 'learn', 'from-janus.md')
        shutil.copytree(PACKAGE, copy, ignore=shutil.ignore_patterns('__pycache__', 'tests'))
        sources = [self.write(f'{at}.rpp', f'class P int x int y method main() {each}')
                   for at, each in enumerate(('x *= 2', 'x += y ** 2', 'x += y */ 3', 'x //= 2', 'x += y / 2', 'x += y \xd7 2'))]
        without = self.said_by_copy('check', *sources)
        self.assertNotIn('docs/', without)
        self.assertEqual(without.count('Fix: '), len(sources), without)
        self.assertNotIn('docs/', self.said_by_copy('help', '21') + self.said_by_copy('test', '--help'))
        os.makedirs(os.path.join(copy, 'docs', 'learn'))
        shutil.copy(os.path.join(TOP, page), os.path.join(copy, page))
        self.assertEqual(self.said_by_copy('check', *sources).count(os.path.join(copy, page)), len(sources))

    def said_by_copy(self, *words):
        env = dict(os.environ, PYTHONPATH=self.folder, ROOPLPP_PROGRAM=self.program.path)
        return subprocess.run([sys.executable, '-m', 'rpp', *words], cwd=self.folder, env=env, stdout=subprocess.PIPE, stderr=subprocess.PIPE,
                              universal_newlines=True, check=False).stdout

    def test_packages_have_the_pages_that_are_named(self):
        sys.path.insert(0, os.path.join(TOP, 'tools'))
        self.addCleanup(sys.path.remove, os.path.join(TOP, 'tools'))
        from packing import layout
        import rpp_wheel
        there, in_wheel, named = layout.companion('rpp', ''), rpp_wheel.contents()[0], set()
        for name in os.listdir(PACKAGE):
            if name.endswith('.py'):
                with open(os.path.join(PACKAGE, name), encoding='utf-8') as file:
                    named |= set(re.findall(r'docs/[\w/-]+\.md', file.read()))
        self.assertIn('docs/learn/from-janus.md', named)
        for page in sorted(named):
            with self.subTest(page=page):
                self.assertIn(f'rpp/{page}', there)
                self.assertIn(f'rpp/{page}', in_wheel)

    def test_rules_by_number_and_name(self):
        self.assertEqual([rule.title for rule in rules_of('16')], ['refusal 16 SelfUpdate', 'fault 16 SharedArray'])
        self.assertEqual([rule.title for rule in rules_of('tooDEEP')], ['fault 14 TooDeep'])
        self.assertEqual(rules_of('45'), [])

    def test_help(self):
        done = self.rpp('help', '16')
        self.assertIn('refusal 16 SelfUpdate\n', done.stdout)
        self.assertIn('fault 16 SharedArray\n', done.stdout)
        self.assertEqual(self.rpp('help', 'nothing').returncode, 1)
        for words in (['--help'], ['help'], ['help', 'run'], ['run', '--help'], ['debug', '-h'], ['--version']):
            with self.subTest(words=words):
                done = self.rpp(*words)
                self.assertEqual((done.returncode, done.stderr), (0, ''))
                self.assertTrue(done.stdout)
        for words in ([], ['runn'], ['run'], ['run', 'F', '--heap', 'x']):
            with self.subTest(words=words):
                self.assertEqual(self.rpp(*words).returncode, 1)
