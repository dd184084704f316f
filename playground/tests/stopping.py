"""Runs of random programs that stop with a fault: where that is shown, and with which values. The program's own answers say which
statement failed and in which direction the machine ran; the rest is worked out here from the text."""
import operator
import os
import re
import sys

from drawn import TOP, equal, holds

sys.path.insert(0, os.path.join(TOP, 'tests'))
import random_programs

# One of the first 300 random programs for each fault and direction that they stop with, and two for those of tests.
SEEDS = (247, 4, 152, 103, 105, 73, 244, 71, 139, 43, 50, 194, 273, 277, 22, 30, 123, 74, 100, 208, 37, 28, 270, 116, 78, 293, 15)
KINDS = 20
FI, LOOP, DELOCAL, NOT_NIL, HEAP_FULL = 1, 2, 3, 4, 8
CLOSERS = {'if': 'fi', 'from': 'until', 'local': 'delocal', 'construct': 'destruct'}
# What the program says of each text whose run stops with a fault: the fault, and how the machine stops.
STOPS = '''
const told = [], { caller } = playground, limits = ['12', '64', '100000000'];
for (const [seed, text] of arguments[0]) {
  const go = await caller.call(['go', 'p', ...limits], [['p', text]]);
  if (go.status !== 5) continue;
  const { files } = await caller.call(['compile', 'p', 'i'], [['p', text]]);
  told.push([seed, (await caller.call(['run', 'i', ...limits, '-', 'e'], [['i', files.get('i')]])).text]);
}
return told;
'''
# Numbers have 32 bits.
LOWEST, NUMBERS = -1 << 31, 1 << 32
OPERATORS = {'+': operator.add, '-': operator.sub, '^': operator.xor, '&': operator.and_, '|': operator.or_, '=': operator.eq, '!=': operator.ne,
             '<': operator.lt, '>': operator.gt, '<=': operator.le, '>=': operator.ge, '&&': lambda one, other: bool(one) and bool(other),
             '||': lambda one, other: bool(one) or bool(other)}


class Stop:
    """How a run of a text stops, by what the program printed of the machine."""

    def __init__(self, text, printed):
        self.text = text
        lines = dict(line.rpartition(' ')[::2] for line in printed.split('\n') if line and ' ' in line)
        self.name = re.search(r'^fault (\d+ \w+)$', printed, re.M)[1]
        self.number = int(self.name.split()[0])
        self.is_back = lines['dir'] == '-1'
        self.fields = {name[:-2]: value for name, value in lines.items() if re.fullmatch('[abc] =', name)}
        self.first = len(text.encode()[:int(lines['from'])].decode()) if 'from' in lines else None

    def at(self):
        """Where in the text it stops: at the end that this direction comes to last, or at the statement."""
        word = re.match(r'\w+', self.text[self.first:])[0]
        # A loop tests its first condition when it begins and when it goes round.
        is_end = {'from': self.is_back, 'construct': (self.number in (NOT_NIL, HEAP_FULL)) == self.is_back}.get(word, not self.is_back)
        is_of_ends = self.number in (FI, LOOP, DELOCAL) or word == 'construct'
        return self.closer(word) if is_of_ends and is_end else self.first

    def closer(self, word):
        depth = 0
        for found in re.finditer(rf'\b({word}|{CLOSERS[word]})\b', self.text[self.first:]):
            depth += 1 if found[1] == word else -1
            if depth == 0:
                return self.first + found.start()
        raise ValueError(f'{word} has no end')


def value(text, known):
    """The value of an expression whose inner expressions have parentheses, as those of random programs have."""
    words = re.findall(r'\w+\[[^\]]*\]|\w+|[<>!]=|&&|\|\||[^\s\w]', text)

    def operand():
        word = words.pop(0)
        if word != '(':
            return int(word) if word.isdigit() else known[word]
        inner = level()
        words.pop(0)
        return inner

    def level():
        left = operand()
        while words and words[0] != ')':
            left = OPERATORS[words.pop(0)](left, operand())
            left = (int(left) - LOWEST) % NUMBERS + LOWEST
        return left

    return level()


def number(text):
    return int(text) if re.fullmatch(r'-?\d+', text) else text


def values(told, sign):
    """The names and values in a list such as 'a = 1, xs[0] = 2'."""
    pairs = [it.rsplit(sign, 1) for it in told.split(', ')]
    return {'nil': 'nil', **{name: number(it) for name, it in (pair for pair in pairs if len(pair) == 2)}}


def faults_of_random_programs_are_in_place(page):
    """A run of a random program stops where the program says, in the direction in which it ran."""
    texts = {seed: random_programs.program(seed) for seed in SEEDS}
    found = {seed: Stop(texts[seed], printed) for seed, printed in page.run(STOPS, list(texts.items()))}
    kinds = {(stop.number, stop.is_back) for stop in found.values()}
    holds(len(kinds) >= KINDS and {(it, is_back) for it in (FI, LOOP, DELOCAL) for is_back in (False, True)} <= kinds, f'other seeds are needed: {kinds}')
    for seed, stop in found.items():
        page.write(stop.text)
        page.go('end')
        line = stop.text.count('\n', 0, stop.at()) + 1
        marked = [it for it in page.lines() if 'fault-line' in it['kinds']]
        equal([(it['number'], it['sign']) for it in marked], [(line, '■')], f'seed {seed}, {stop.name}')
        begins = stop.text[stop.at():].split('\n')[0]
        holds(marked[0]['marked'] and begins.startswith(marked[0]['marked']), f'seed {seed}: {marked[0]["marked"]!r} is marked in {begins!r}')
        holds(f'line {line}:' in page.text('#problems') and stop.name in page.text('#problems'), f'seed {seed}: {page.text("#problems")!r}')
        if stop.number <= DELOCAL:
            has_its_values(page, seed, stop, begins)


def has_its_values(page, seed, stop, begins):
    """What a failed test found and needed: values that the machine has too, and that make the test fail."""
    told = page.run('return [...document.querySelectorAll(".told dd")].map(it => it.innerText)')
    holds(len(told) == 2, f'seed {seed}: {told}')
    if stop.number == DELOCAL:
        name, expression = re.match(r'\w+ \S+ (\w+) = (.*)', begins).groups()
        seen = re.search(r'to be closed(?:: (.*?))?\.', page.text('#problems'))[1] or ''
        wanted = value(expression, values(seen, ' is '))
        equal(told[1], f'{name} = {wanted}', f'seed {seed}, {begins}')
        holds(told[0].startswith(f'{name} = ') and told[0] != told[1], f'seed {seed}: {told}')
        return
    seen, test = told[0].split(': ')
    known, is_true = values(seen, ' = '), not test.endswith(' does not hold')
    expression = re.sub(r' (does not hold|holds)$', '', test)
    equal(bool(value(expression, known)), is_true, f'seed {seed}: {told[0]}')
    holds(told[1].startswith(f'{expression} {"does not hold" if is_true else "holds"}, since '), f'seed {seed}: {told}')
    for name in set(known) & set(stop.fields):
        equal(known[name], int(stop.fields[name]), f'seed {seed}: {name} in the memory of the machine')


TESTS = (faults_of_random_programs_are_in_place,)
