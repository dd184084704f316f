"""Random requests of live sessions, and random programs for them. The same seed gives the same requests."""
import random

import random_places
import random_programs

# Lines that are no requests, in the runs of both kinds or of one kind.
BAD = ('steps', 'step', 'step -1', 'step  1', ' step 1', 'step 1 2', 'step 1234567890123456789', 'to 5', 'back', 'points', 'points 1000001', 'points 1 2', 'any',
       'any x', 'any 3 x', 'depth 1', 'depth x 3', 'until', 'until change', 'until change x', 'until changes x 4', 'until change x y 4', 'back back any 3 1',
       'back stack', 'cells 1', 'cells 1 0', 'cells 1 1001', 'cells 4294967296 1', 'regs x', 'regs 1 2', 'stack 1', 'value', 'heaps', 'heap 1', 'spend 1', 'limit',
       'limit x', 'limit 1 2', 'back limit 1', 'fault 1', 'fault cells 1', 'fault regs', 'Quit', 'quit 1', 'bad \u00fc')
# In the run of a source, and in that of an image.
BAD_OF_SOURCES = ('until change cell 3 7', 'back until change cell 3 7', 'until change cell 3')
BAD_OF_IMAGES = ('stack', 'heap', 'value x', 'value $1', 'depth 1 3', 'back depth 1 3', 'regs 1', 'fault', 'fault cells 1 3', 'until change x 3', 'until change #1.x 3',
                 'until change cell x 3', 'until change cell 3', 'until change $32 3', 'until change $ 3', 'back until change $x 3')
BLANK = ('', ' ', '\t \t')
MOVES = (0, 1, 1, 2, 3, 7, 20, 100, 3000, 1000000)
LIMITS = (0, 1, 2, 5, 30, 30, 1000, 10 ** 17)
# Chances of what is asked: a word, and how often.
OF_BOTH = {'step': 4, 'back': 4, 'to': 3, 'backto': 3, 'points': 4, 'any': 6, 'change': 8, 'regs': 2, 'cells': 3, 'spend': 5, 'limit': 5, 'bad': 3, 'blank': 1}
OF_SOURCES = {**OF_BOTH, 'depth': 5, 'stack': 4, 'regs of': 4, 'value': 8, 'heap': 6, 'fault': 2, 'fault cells': 2}


def source_of(seed):
    """A random program with a heap and a depth for it."""
    text = random_places.program(seed) if seed % 4 == 0 else random_programs.program(seed, 0)
    return text, 9 + seed % 4, 4 + seed % 29


class Asker:
    """Asks at random what the reader of a run can answer, where the reader is."""

    def __init__(self, reader, chance):
        self.reader, self.chance, self.most = reader, chance, 0

    def line(self):
        """A random request. Moves do not lead beyond what the reader knows."""
        form = self.chance.choices(list(self.chances), list(self.chances.values()))[0]
        self.most = min(self.chance.choice(MOVES), self.reader.known())
        back = 'back ' * (self.chance.random() < 0.45)
        if form in ('step', 'back'):
            return f'{form} {self.most}'
        if form in ('to', 'backto'):
            return f'{form} {self.place()} {self.most}'
        if form == 'points':
            return f'{back}points {self.most}'
        if form == 'any':
            return f'{back}any {self.most} {" ".join(str(self.place()) for _ in range(self.chance.randrange(5)))}'.rstrip()
        if form == 'change':
            return f'{back}until change {self.name(self.chance.choice(self.reader.rows))} {self.most}'
        if form == 'limit':
            return f'limit {self.chance.choice(LIMITS)}'
        return self.chance.choice((*BAD, *self.bad)) if form == 'bad' else self.chance.choice(BLANK) if form == 'blank' else self.look(form, back)

    def place(self):
        """An offset or a code address, which most often occurs in the run."""
        return abs(self.chance.choice(self.reader.rows).place or self.chance.randrange(900))


class AskerOfSource(Asker):
    """The same of the run of a source."""

    chances, bad = OF_SOURCES, BAD_OF_SOURCES

    def name(self, row):
        """A variable, field or element, which most often is there."""
        at = self.chance.choice((row, self.reader.rows[self.reader.at]))
        cells, names = list(at.cells), [line.partition(' = ')[0] for line in at.variables]
        return self.chance.choice(self.chance.choice((cells, names, ['nowhere', '#1.nowhere', '#1[0]', '#77.a', '#3[99]', '#1', '#1.a.b', '$1'])) or ['x'])

    def look(self, form, back):
        row = self.reader.rows[self.reader.at]
        if form == 'depth':
            return f'{back}depth {max(0, row.depth + self.chance.choice((-2, -1, -1, 0, 0, 1)))} {self.most}'
        if form == 'regs of':
            return f'regs {self.chance.randrange(row.depth + 2)}'
        if form == 'value':
            return f'value {self.name(row)}'
        return f'{form} {self.chance.randrange(6)} {self.chance.choice((1, 3, 1000))}' if form.endswith('cells') else form


class AskerOfImage(Asker):
    """The same of the run of an image."""

    chances, bad = OF_BOTH, BAD_OF_IMAGES

    def name(self, row):
        """A register or a memory cell, which most often changes."""
        if self.chance.random() < 0.5:
            return f'cell {self.chance.choice([*row.memory, 10 ** 9])}'
        return self.chance.choice([*row.registers, f'${self.chance.randrange(32)}'])

    def look(self, form, back):
        return f'cells {self.chance.choice((0, 1, 30, 45, 10 ** 9))} {self.chance.choice((1, 3, 50))}' if form == 'cells' else form


# What a random assembly text may do, with registers for the first braces.
ONE_TO_ONE = ('ADD {} {}', 'SUB {} {}', 'XOR {} {}', 'NEG {}', 'ADDI {} 7', 'ADDI {} -1', 'XORI {} 5', 'RL {} 3', 'ANDX {} {} {}', 'SLTX {} {} {}', 'EXCH {} {}')
BRANCHES = ('BRA {}', 'RBRA {}', 'BEQ {1} {2} {0}', 'BNE {1} {2} {0}', 'BGEZ {1} {0}', 'BLTZ {1} {0}')


def assembly_of(seed):
    """A random assembly text. Most runs of it stop soon, each for another reason."""
    chance = random.Random(f'assembly {seed}')
    lines = []
    for _ in range(chance.randrange(4, 20)):
        registers = [f'${it}' for it in chance.sample(range(1, 8), 3)]
        if chance.random() < 0.2:
            lines.append(chance.choice(BRANCHES).format(chance.randrange(-4, 6), *registers))
        elif chance.random() < 0.08:
            lines.append(f'DATA {chance.randrange(1, 18)}')
        else:
            lines.append(chance.choice(ONE_TO_ONE).format(*registers))
    return '\n'.join(['START', *lines, 'FINISH', ''])
