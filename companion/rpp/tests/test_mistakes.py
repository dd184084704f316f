"""The sentences for the usual mistakes: those of mistakes.txt, those of the page of messages, and that none of them is a guess."""
import json
import os
import re

from rpp.explain import of_fault, of_refusal
from rpp.fault_slots import Where
from rpp.faults import find_fault
from rpp.places import Text
from rpp.program import TOP
from rpp.rules import FAULT_OF, FAULTS, REFUSAL_OF, REFUSALS
from rpp.run import Wanted
from rpp.slots import SLOT

from .base import Case

PAGE = os.path.join(TOP, 'docs', 'reference', 'messages.md')
HEADING = re.compile(r'^### (Fault )?(\d+) (\w+)\n(.*?)(?=^##|\Z)', re.S | re.M)
WRONG = re.compile(r'^```\n(// wrong\.rpp\n.*?)^```', re.S | re.M)
RIGHT = re.compile(r'^```\n(// right\.rpp\n.*?)^```', re.S | re.M)
MOST_WITHOUT = 2


def mistakes():
    """The texts of mistakes.txt, each with its name and what is said."""
    with open(os.path.join(os.path.dirname(__file__), 'mistakes.txt'), encoding='utf-8') as file:
        parts = re.split(r'^== ', file.read(), flags=re.M)[1:]
    for part in parts:
        name, said, text = part.split('\n', 2)
        text = re.sub(r'\\u([0-9a-f]{4})', lambda found: chr(int(found[1], 16)), text.rstrip('\n') + '\n' if text.strip() else '')
        yield name, said[len('says: '):], text


def quoted(body):
    """The quoted sentences of a rule in the page."""
    lines = '\n'.join(line[2:] if line.startswith('>') else '' for line in body.split('\n'))
    return [' '.join(part.split()) for part in lines.split('\n\n') if part.strip()]


def spelled(forms):
    return [form if isinstance(form, str) else f'{form[0]} Fix: {form[1]}' for form in forms]


class Mistakes(Case):
    def verdicts(self, files):
        done = self.rpp('check', '--json', *files)
        self.assertEqual(done.stderr, '')
        return json.loads(done.stdout)['sources']

    def test_each_has_its_sentence(self):
        rows = list(mistakes())
        files = [self.write(f'{name}.rpp', text) for name, _, text in rows]
        self.assertGreater(len(rows), 380)
        for (name, said, _), verdict in zip(rows, self.verdicts(files)):
            with self.subTest(name=name):
                self.assertIn(said, verdict['message'])

    def test_few_are_without_a_sentence_of_their_own(self):
        general = {rule.sentence for rule in REFUSALS}
        files = [self.write(f'{name}.rpp', text) for name, _, text in mistakes()]
        without = [each['file'] for each in self.verdicts(files)
                   if each['message'] in general or each['message'].startswith('Expected ')]
        self.assertLessEqual(len(without), MOST_WITHOUT, without)

    def test_what_is_written_in_place_is_taken(self):
        """A text with its edits is accepted, or refused later, or for something else."""
        before = [verdict for verdict in self.verdicts([self.write(f'{name}.rpp', text) for name, _, text in mistakes()])
                  if verdict.get('edits')]
        self.assertGreater(len(before), 100)
        for verdict in before:
            with open(verdict['file'], 'rb') as file:
                content = file.read()
            for edit in sorted(verdict['edits'], key=lambda each: -each['begin']):
                content = content[:edit['begin']] + edit['text'].encode() + content[edit['end']:]
            with open(verdict['file'], 'wb') as out:
                out.write(content)
        after = self.verdicts([each['file'] for each in before])
        for one, other in zip(before, after):
            with self.subTest(file=os.path.basename(one['file'])):
                self.assertNotEqual((one.get('at'), one['message']), (other.get('at'), other.get('message')))

    def test_two_byte_texts(self):
        file = self.write('text.rpp', '')
        with open(file, 'wb') as out:
            out.write('class P method main() skip'.encode('utf-16'))
        self.assertIn('UTF-16', self.verdicts([file])[0]['message'])

    def test_deep_and_long_texts(self):
        for text in ('class P int x method main() x += ' + '(' * 3000, 'class P method main() ' + 'if x then ' * 3000):
            file = self.write('text.rpp', text)
            self.assertEqual(self.verdicts([file])[0]['name'], 'Limit')


class Pages(Case):
    """The page of messages says what rules.py says, and its wrong programs get sentences of their own."""

    def sections(self):
        with open(PAGE, encoding='utf-8') as file:
            return HEADING.findall(file.read())

    def test_the_page_says_the_same(self):
        found = {}
        for fault, number, name, body in self.sections():
            rule = (FAULT_OF if fault else REFUSAL_OF)[int(number)]
            found[rule.title] = rule
            paragraphs = [' '.join(part.split()) for part in body.split('\n\n')]
            with self.subTest(rule=rule.title):
                self.assertEqual(name, rule.name)
                self.assertEqual(paragraphs[0], rule.sentence)
                self.assertEqual(quoted(body), spelled(rule.forms + rule.back))
                self.assertIn(f'Fix: {rule.fix}', paragraphs)
        self.assertEqual(sorted(found), sorted(rule.title for rule in REFUSALS + FAULTS if rule.page.endswith('messages.md')))

    def test_the_advice_of_bodies_that_run_backward(self):
        """The page has it once, before the faults, with the numbers of those that have it."""
        with open(PAGE, encoding='utf-8') as file:
            before = file.read().split('\n## Faults\n')[1].split('\n### ')[0]
        paragraphs = [' '.join(part.split()) for part in before.split('\n\n')]
        self.assertEqual([rule.number for rule in FAULTS if rule.fix_back], [1, 2, 3, 4, 5, 10, 11, 12])
        self.assertTrue(any('For the faults 1 to 5 and 10 to 12, the advice' in part for part in paragraphs))
        for rule in FAULTS:
            if rule.fix_back:
                self.assertIn(f'Fix, in a body that runs backward: {rule.fix_back}', paragraphs)

    def test_wrong_programs_of_refusals(self):
        for fault, number, _, body in self.sections():
            for place, text in enumerate(WRONG.findall(body) if not fault else ()):
                with self.subTest(number=number, text=text):
                    found = re.match(r'refused (\d+) \w+ at (\d+)', self.program.call('check', self.write('wrong.rpp', text)).output)
                    self.assertEqual(found[1], number)
                    self.good(of_refusal(text.encode(), int(number), int(found[2])))
                    if place == 0:
                        self.assertEqual(found[2], re.search(r'(?:Here: |refused \d+ \w+ at )(\d+)', body)[1])

    def test_wrong_programs_of_faults(self):
        for fault, number, name, body in self.sections():
            for text in WRONG.findall(body) if fault else ():
                heap, depth = self.limits(body)
                source = self.write('wrong.rpp', text)
                found = find_fault(self.program, Wanted(source, heap, depth, 100000, None, False), Text.read(source))
                at = found.statement if found.statement is not None else found.point.place
                output = self.program.call('go', source, str(heap), str(depth), '100000').output
                with self.subTest(name=name):
                    self.assertEqual(output.split('\n')[0], f'fault {number} {name}')
                    self.good(of_fault(int(number), Where(text.encode(), at, found.moment, found.is_back, heap, depth)))

    def test_right_programs(self):
        """Each is accepted, and those of faults finish. Only the fault of a heap that is full has no second program."""
        missing = []
        for fault, number, name, body in self.sections():
            if not RIGHT.search(body):
                missing.append(name)
            for text in RIGHT.findall(body):
                source = self.write('right.rpp', text)
                words = ('go', source, *map(str, self.limits(body)), '100000') if fault else ('check', source)
                with self.subTest(name=name, number=number, text=text):
                    self.assertEqual(self.program.call(*words).status, 0)
        self.assertEqual(missing, ['HeapFull'])

    def limits(self, body):
        """The heap and the depth of the session of a fault, or those of the first one."""
        found = re.search(r'go wrong\.rpp (\d+) (\d+)', body)
        return (int(found[1]), int(found[2])) if found else (4, 8)

    def good(self, message):
        self.assertTrue(message.is_own, message.sentence)
        self.assertIsNone(SLOT.search(message.sentence + message.fix))


class Directions(Case):
    """A fault in a body that runs backward is explained in the words of that direction."""

    def test_each(self):
        for text, said in {
                'class P int x int y method main() x += 1 y += 1 uncall f() method f() if x = 0 then y += 1 else skip fi y = 1':
                    'the condition `x = 0` must be true',
                'class P int x int y method main() x += 3 uncall f() method f() local int i = 0 x += i delocal int i = 3':
                    '`i` must be equal to its initial value `0` at its `local`',
                'class P C c method main() new C c uncall f() method f() delete C c class C int x':
                    '`c` must be nil before this `delete` is undone, and it holds #2',
                'class P C c method main() uncall f() method f() new C c class C int x':
                    '`c` must not be nil before this `new` is undone.',
                'class P int[] a method main() uncall f() method f() a[0] += 1':
                    '`a` must not be nil on this way back.',
                'class P C c method main() new C c call c::set() uncall f() method f() new C c class C int x method set() x += 3':
                    '`x` of #2 must be 0 or nil before this `new` is undone, and it is 3.',
                'class P int x method main() x += 5 uncall f() method f() from x = 0 do x += 1 loop skip until x = 2':
                    'On this way back, the condition `x = 2` must be true'}.items():
            done = self.rpp('run', self.write('text.rpp', text + '\n'))
            with self.subTest(text=text):
                self.assertEqual(done.returncode, 5)
                self.assertIn(said, ' '.join(done.stdout.split()))
                self.assertNotIn('`if` tests, repeat', done.stdout)

    def test_json(self):
        done = self.rpp('run', '--json', self.write('text.rpp', 'class P int[] a method main() new int[2] a a[2] += 1\n'))
        value = json.loads(done.stdout)
        self.assertEqual((value['outcome'], value['name'], value['line'], value['last']['position']), ('fault', 'Index', 1, 1))
        self.assertEqual(value['message'], 'The index of `a` must be at least 0 and less than 2, and it is 2.')



# A declaration of fields and a statement; the advice; what its reader writes in their place; and the values at the end by hand.
OWN_VALUES = (
    ('int x', 'x += 5', 'x += x', '`y += x + x`', 'int x int y', 'y += x + x', 'x = 5 y = 10'),
    ('int x', 'x += 13', 'x -= x & 7', '`y += x - (x & 7)`', 'int x int y', 'y += x - (x & 7)', 'x = 13 y = 8'),
    ('int x int y', 'x += 6 y += 3', 'x ^= x & y', '`y1 += x ^ (x & y)`', 'int x int y int y1', 'y1 += x ^ (x & y)', 'x = 6 y = 3 y1 = 4'),
    ('int x', 'x += 5', 'x -= x', 'exchange it with a variable that is 0', 'int x int y', 'x <=> y', 'x = 0 y = 5'),
    ('int x', 'x += 5', 'x ^= (x)', 'exchange it with a variable that is 0', 'int x int y', 'x <=> y', 'x = 0 y = 5'),
    ('int[] a', 'new int[2] a a[0] += 7 a[1] += 2', 'a[1] -= a[0] + 1', '`local int v = a[0] + 1`, `a[1] -= v`, `delocal int v = a[0] + 1`',
     'int[] a', 'local int v = a[0] + 1 a[1] -= v delocal int v = a[0] + 1', '[0] = 7 [1] = -6'),
    ('int[] a', 'new int[2] a a[1] += 7', 'a[1] += a[1] + a[0]', '`y += a[1] + (a[1] + a[0])`', 'int[] a int y', 'y += a[1] + (a[1] + a[0])',
     'y = 14'),
    ('int[] a', 'new int[2] a a[1] += 7', 'a[1] ^= a[1]', 'exchange it with a variable that is 0', 'int[] a int y', 'a[1] <=> y', 'y = 7'),
    ('int[] a', 'new int[4] a a[0] += 3', 'a[a[0]] += 5', '`local int i = a[0]` .. `delocal int i = a[0]`', 'int[] a',
     'local int i = a[0] a[i] += 5 delocal int i = a[0]', '[0] = 3 [1] = 0 [2] = 0 [3] = 5'),
    ('int[] a int x', 'new int[3] a a[2] += 9 x += 2', 'a[x] <=> x', '`i += x`', 'int[] a int x int i', 'i += x a[i] <=> x', 'x = 9 i = 2'),
    ('int[] a int x', 'new int[3] a a[0] += 2 x += 8', 'a[a[0]] <=> x', '`i += a[0]`', 'int[] a int x int i', 'i += a[0] a[i] <=> x',
     'x = 0 i = 2 #1 int[3] count 1 [0] = 2 [1] = 0 [2] = 8'),
    ('int[] a', 'skip', 'new int[a[0] + 2] a', 'Keep the length in another variable.', 'int[] a int n', 'n += 2 new int[n] a', '[0] = 0 [1] = 0'),
    ('E[] b E p', 'new E[2] b', 'copy E b[p = nil] p', '`i += p = nil`', 'E[] b E p int i', 'i += p = nil new E b[i] copy E b[i] p', 'i = 1'),
    ('E[] b', 'new E[2] b', 'new E b[b[0] = nil]', '`i += b[0] = nil`', 'E[] b int i', 'i += b[0] = nil new E b[i]', 'i = 1'),
    ('E[] b', 'new E[2] b new E b[1]', 'call b[b[0] = nil]::f()', '`local int i = b[0] = nil` .. `delocal int i = b[0] = nil`',
     'E[] b', 'local int i = b[0] = nil call b[i]::f() delocal int i = b[0] = nil', 'k = 4'))

# A source that is refused; the advice; what its reader writes; and what a run of that ends with, by hand.
CELL = 'class Cell int v method add() v += 1'
BEGINNERS = (
    ('int[] a method main() new int[3] a delete a', '`delete int[5] a`. The length is that of its `new`.',
     'int[] a method main() new int[3] a delete int[3] a', 'a = nil'),
    ('Cell c Cell d method main() new Cell c copy c d', '`copy Cell c d`', 'Cell c Cell d method main() new Cell c copy Cell c d', 'd = #1'),
    ('Cell c Cell d method main() new Cell c copy Cell c d uncopy Cell d', '`uncopy Cell x d`',
     'Cell c Cell d method main() new Cell c copy Cell c d uncopy Cell c d', 'd = nil'),
    ('Cell c method main() new Cell c\n c.v += 5', 'Let a method of the object change the field.',
     'Cell c method main() new Cell c call c::add()', 'v = 1'),
    ('Cell c method main() new Cell c uncall c add()', '`call c::add(..)`', 'Cell c method main() new Cell c uncall c::add()', 'v = -1'),
    ('int x method main() x += 7 call f() undo f() method f() x += 2', '`uncall m(..)` runs a method backward.',
     'int x method main() x += 7 call f() uncall f() method f() x += 2', 'x = 7'),
    ('int x method main() reverse x += 1 end', 'Put the statements into a method, and uncall that.',
     'int x method main() uncall f() method f() x += 1', 'x = -1'),
    ('int x method main() local int n = 4 x += n delocal n', '`delocal int n = 4`',
     'int x method main() local int n = 4 x += n delocal int n = 4', 'x = 4'),
    ('int x method main() construct Cell c x += 1 destruct', '`destruct c`', 'int x method main() construct Cell c x += 1 destruct c', 'x = 1'),
    ('int x method main() if x += 1 then skip else skip fi x = 1', 'Write the change as a statement of its own, and a comparison here.',
     'int x method main() x += 1 if x = 1 then skip else skip fi x = 1', 'x = 1'),
    ('int my-count method main() my-count += 1', '`my_count`', 'int my_count method main() my_count += 1', 'my_count = 1'),
    ('int[] a int x method main() new int[2] a a[0] += 6 x += a', 'as `a[0]`',
     'int[] a int x method main() new int[2] a a[0] += 6 x += a[0]', 'x = 6'),
    ('int x int y method main() x += 9 y += x / 2', 'A loop counts how often the divisor can be subtracted.',
     'int x int y method main() x += 9 from y = 0 do skip loop x -= 2 y += 1 until x < 2', 'x = 1 y = 4'),
    ('int x int y method main() x += 13 y += x % 8', 'The remainder of a number from 0 by 8 is `x & 7`.',
     'int x int y method main() x += 13 y += x & 7', 'x = 13 y = 5'),
    ('int x int y method main() x += 13 y += x * 3', 'A product with a small number is a sum: `x + x + x`.',
     'int x int y method main() x += 13 y += x + x + x', 'x = 13 y = 39'),
    ('Cell[] a method main() new Cell[2] a new a[1]', '`new Cell a[1]`', 'Cell[] a method main() new Cell[2] a new Cell a[1]', '[1] = #2'),
    ('Cell[] a method main() new Cell[2] a new Cell a[1] delete a[1]', '`delete Cell a[1]`',
     'Cell[] a method main() new Cell[2] a new Cell a[1] delete Cell a[1]', '[1] = nil'),
    ('int x method main() local int n = 2 call f(n += 1) delocal int n = 4 method f(int k) k += 1 x += k',
     'Write the change as a statement before the call.',
     'int x method main() local int n = 2 n += 1 call f(n) delocal int n = 4 method f(int k) k += 1 x += k', 'x = 4'),
    ('int x method main() if x = 0 then x += 1 else if x = 1 then x += 2 else skip fi x = 3', 'Each `if` has its own `else` and `fi`',
     'int x method main() if x = 0 then x += 1 else if x = 1 then x += 2 else skip fi x = 3 fi x = 1', 'x = 1'),
    ('int c int d method main() d += 3 c xor= d', 'write `^=`', 'int c int d method main() d += 3 c ^= d', 'c = 3'),
    ('int c int d method main() d += 3 c <=> d + 1', 'A variable is changed by `+=`, `-=` or `^=`.', 'int c int d method main() d += 3 c += d + 1',
     'c = 4'))


class Followed(Case):
    """What a message says to write works in both directions, and gives what was meant."""

    def test_what_a_statement_changes_in_its_own_value(self):
        for fields, before, wrong, advice, more, right, ends in OWN_VALUES:
            with self.subTest(wrong=wrong):
                told = json.loads(self.rpp('check', '--json', '-', stdin=self.text(fields, f'{before} {wrong}')).stdout)['sources'][0]
                self.assertEqual((told['number'], told['message'] == REFUSAL_OF[16].sentence), (16, False))
                self.assertIn(advice, told['fix'])
                answer = self.program.call('turn', self.write('right.rpp', self.text(more, f'{before} {right}')), '6', '4', '100000')
                self.assertEqual(answer.status, 0, answer.output)
                there, back = answer.output.split('\nback ')
                self.assertIn(f' {ends} ', f' {" ".join(there.split())} ')
                self.assertNotRegex(back, r'= [^0n]')

    def text(self, fields, body):
        return f'class P {fields} method main() {body} class E int k method f() k += 4\n'

    def test_what_beginners_write(self):
        for wrong, advice, right, ends in BEGINNERS:
            with self.subTest(wrong=wrong):
                told = json.loads(self.rpp('check', '--json', '-', stdin=f'class P {wrong} {CELL}\n').stdout)['sources'][0]
                self.assertIn(advice, f'{told["message"]} {told.get("fix", "")}')
                answer = self.program.call('turn', self.write('right.rpp', f'class P {right} {CELL}\n'), '6', '4', '100000')
                self.assertEqual(answer.status, 0, answer.output)
                there, back = answer.output.split('\nback ')
                self.assertIn(f' {ends} ', f' {" ".join(there.split())} ')
                self.assertNotRegex(back, r'= [^0n]')
