"""Plain readers of runs, apart from the program for live sessions. A reader of the run of a source has what `trace` prints step by step, the
cost that `explain` prints at the end, and the text. That of an image has what `debug` prints step by step, or `run` from a state.
Each computes the reply to any request of docs/reference/live.md; only what fails is learned from the program and checked."""
import os
import re
import struct
import subprocess
import sys
import tempfile
from typing import NamedTuple

from live_costs import Walk

TOP = os.path.dirname(os.path.dirname(os.path.realpath(__file__)))
PROGRAM = os.path.abspath(os.environ.get('ROOPLPP_PROGRAM') or f'{TOP}/crates/rooplpp/out/rooplpp')
SECONDS = 60
NUMBER = re.compile(r'\d{1,18}')
HEADER_WORDS = 2
MOST_POINTS = 1000000
NO_LIMIT = 10 ** 18
NONE = ['. none']
sys.setrecursionlimit(20000)


def printed(*words, script=''):
    """The status, and what the program prints for these words, of which `SCRIPT` names a file with this script."""
    with tempfile.TemporaryDirectory(prefix='rooplpp-reader-') as folder:
        with open(f'{folder}/script', 'w', encoding='ascii') as out:
            out.write(script)
        given = [f'{folder}/script' if each == 'SCRIPT' else str(each) for each in words]
        done = subprocess.run([PROGRAM, *given], stdout=subprocess.PIPE, cwd=TOP, timeout=SECONDS)
    return done.returncode, done.stdout.decode()


def stepped(words, looks, most):
    """The status of a run, and what its positions print, up to so many: the line of the move to each, and these looks. The last one is
    the line of the move that leads nowhere, if there is such a move."""
    status, text = printed(*words, script=f'step {most}\n')
    count = int(text.split()[1]) if not status else 0
    status, text = printed(*words, script=f'step 0\n{looks}' + f'step 1\n{looks}' * count + 'step 1\n' * (count < most))
    return status, re.split(r'^(?=at \d)', text, flags=re.M)[1:] if not status else []


def number_of(word, most=NO_LIMIT):
    """The number that a word writes; None if it writes none, or a larger one."""
    return int(word) if NUMBER.fullmatch(word) and int(word) <= most else None


# ---- the heap


class Book:
    """The free lists of a heap: for each order its free blocks, the head of each list first."""

    def __init__(self, order):
        self.free = {each: [] for each in range(1, order + 1)}
        self.free[order] = [0]
        self.blocks, self.next = {}, 2

    def take(self, order):
        if not self.free[order]:
            lower = self.take(order + 1)
            self.free[order] = [lower]
            return lower + 2 ** order
        return self.free[order].pop(0)

    def give(self, order, block):
        free, size = self.free[order], 2 ** order
        if len(free) == 1 and free[0] + size == block and free[0] % (2 * size) == 0:
            self.give(order + 1, free.pop())
        else:
            free.insert(0, block)

    def made(self, name, cells):
        if name != self.next:
            raise ValueError(f'#{name} is made, and not #{self.next}')
        order = next(each for each in self.free if 2 ** each >= HEADER_WORDS + cells)
        self.blocks[name], self.next = (order, self.take(order)), name + 1

    def gone(self, name):
        self.give(*self.blocks.pop(name))

    def lines(self):
        return [f'free {order} {len(free)}' for order, free in self.free.items() if free]


def objects_of(text):
    """The lines of each object and array by its id, as `cells` prints them."""
    found = {}
    for line in text.splitlines():
        if line.startswith('#'):
            number = int(line.split()[0][1:])
            found[number] = []
        found[number].append(line)
    return found


def cells_of(objects):
    """The values of fields and elements: by #K.FIELD and #K[I]."""
    cells = {}
    for number, lines in objects.items():
        for line in lines[1:]:
            label, _, value = line.strip().partition(' = ')
            cells[f'#{number}{label}' if label.startswith('[') else f'#{number}.{label}'] = value
    return cells


# ---- what both runs have


class Reader:
    """A reader: its rows, one for each position, where it is, and its limit. `stop` is what a line says more if no move leads on."""

    # So many positions are read.
    MOST = 2000

    def __init__(self):
        self.rows, self.at, self.limit, self.stop = [], 0, NO_LIMIT, None

    def known(self):
        """How many moves forward may be asked for, because their positions are known."""
        return len(self.rows) - 1 - self.at if self.stop is None else NO_LIMIT

    def reply(self, line):
        """The lines of the reply to a line; where it leads becomes the position."""
        words = line.split(' ')
        if not line.strip(' \t'):
            return ['. done']
        if words[0] == 'limit' and len(words) == 2 and number_of(words[1]) is not None:
            self.limit = int(words[1])
            return ['. done']
        return self.moves(words) or self.looks(words) or ['. bad']

    def looks(self, words):
        """The reply to a request that makes no move; None if it is none."""
        if words[0] == 'cells' and len(words) == 3 and None not in map(number_of, words[1:]) and 0 < int(words[2]) <= 1000:
            return None if int(words[1]) > 2 ** 32 - 1 else [*self.cells(int(words[1]), int(words[2])), '. done']
        found = self.shown(words)
        return found if found in (None, NONE) else [*found, '. done']

    def moves(self, words):
        """The reply to a request for moves; None if it is none."""
        form = {'step': 2, 'back': 2, 'to': 3, 'backto': 3}.get(words[0])
        if form == len(words) and None not in map(number_of, words[1:]):
            return self.walk(words[0].startswith('back'), int(words[1]) if form == 3 else None, int(words[-1]))
        back, words = words[0] == 'back', words[words[0] == 'back':]
        if len(words) < 2:
            return None
        most = number_of(words[-1] if words[0] in ('depth', 'until') else words[1])
        if most is None or words[0] == 'points' and (len(words) > 2 or most > MOST_POINTS):
            return None
        if words[0] == 'points':
            return self.points(back, most)
        wanted = self.goal(words)
        return wanted and self.search(back, most, wanted)

    def goal(self, words):
        """What a search looks for, as a property of positions; None if there is no such search."""
        if words[0] == 'any' and None not in map(number_of, words[2:]):
            places = {int(each) for each in words[2:]}
            return lambda at: self.rows[at].place in places
        if words[:2] == ['until', 'change'] and len(words) > 3:
            return self.change(words[2:-1])
        return None

    def move(self, back):
        """Where one move leads, and the line that it prints."""
        if back:
            return (self.at - 1, self.rows[self.at - 1].line) if self.at else (0, self.rows[0].line + ' start')
        if self.at + 1 < len(self.rows):
            return self.at + 1, self.rows[self.at + 1].line
        return self.at, self.rows[self.at].line + self.stop

    def why(self, back):
        """How moves end that lead nowhere."""
        return '. start' if back else '. end' if self.stop in ('', ' end finished') else '. fault'

    def walk(self, back, place, most):
        line, made = self.rows[self.at].line, 0
        while made < min(most, self.limit):
            to, line = self.move(back)
            if to == self.at:
                return [line, self.why(back)]
            self.at, made = to, made + 1
            if place is not None and self.rows[to].place == place:
                break
        return [line, '. more' if made == self.limit < most else '. done']

    def points(self, back, most):
        said = []
        for _ in range(min(most, self.limit)):
            to, line = self.move(back)
            said.append(line)
            if to == self.at:
                return [*said, self.why(back)]
            self.at = to
        return [*said, '. more' if self.limit < most else '. done']

    def search(self, back, most, wanted):
        line = self.rows[self.at].line
        for _ in range(min(most, self.limit)):
            to, line = self.move(back)
            if to == self.at:
                return [line, self.why(back)]
            self.at = to
            if wanted(to):
                return [line, '. met']
        return [line, '. more']


# ---- the run of a source


class Row(NamedTuple):
    """A position of the run of a source: the line, the offset, the depth, the variables, the objects, and the values in them."""
    line: str
    place: int
    depth: int
    variables: list
    objects: dict
    cells: dict

    @classmethod
    def of(cls, text):
        """The row that `trace` prints as the replies to a move, `regs` and `cells`; what the move says more; and the position."""
        line, _, shown = text.partition('\n')
        found = re.fullmatch(r'(at (\d+) (?:end|place (\d+) depth (\d+)))( fault .*)?', line)
        first = shown.find('#') if shown.startswith('#') else shown.find('\n#') + 1 or len(shown)
        objects = objects_of(shown[first:])
        variables = shown[:first].splitlines()
        return cls(found[1], found[3] and int(found[3]), int(found[4] or 1), variables, objects, cells_of(objects)), found[5] or '', int(found[2])


def last_value(lines, name):
    """The value in the last of the lines `NAME = V` of a name; None if there is none."""
    return next((value for each, _, value in (line.partition(' = ') for line in reversed(lines)) if each == name), None)


class SourceReader(Reader):
    """A reader of the run of a source. If the run did not begin, `status` is not 0; `wrong` is what is wrong with the run itself."""

    OBJECTS = 1000

    def __init__(self, file, heap, depth, given=()):
        super().__init__()
        self.heap, self.failing, self.at_failing, self.wrong = int(heap), [], {}, ''
        self.status, parts = stepped(['trace', file, heap, depth, 'SCRIPT', *given], f'regs\ncells 1 {self.OBJECTS}\n', self.MOST)
        for part in parts:
            row, stop, at = Row.of(part)
            if at < len(self.rows):
                self.stop = stop
                break
            self.rows.append(row)
        if self.rows:
            self.follow(file, depth, given)

    def follow(self, file, depth, given):
        """The heap, the cost and the active calls of each position."""
        book, sizes, lengths = Book(self.heap), {1: 0}, []
        self.free, self.next = [], []
        for row in self.rows:
            change = sizes.keys() ^ row.objects.keys()
            for name in change:
                if name in sizes:
                    book.gone(name)
                    lengths.append(sizes.pop(name))
                else:
                    sizes[name] = len(row.objects[name]) - 1
                    book.made(name, sizes[name])
                    lengths.append(sizes[name])
            lengths += [None] * (not change and bool(self.free))
            self.free.append(book.lines())
            self.next.append(book.next)
        with open(os.path.join(TOP, file), 'rb') as source:
            walk = Walk(source.read(), self.heap, [(row.place, row.depth) for row in self.rows], [*lengths, None])
        self.costs, self.calls = walk.costs, walk.calls
        if len(self.costs) != len(self.rows) or len(lengths) != len(self.rows) - 1 or book.next > self.OBJECTS:
            self.wrong = f'of {len(self.rows)} statements {len(self.costs)} were followed, with {len(lengths)} requests to the heap'
        elif self.stop == '' and int(depth) <= 32:
            said = printed('explain', file, self.heap, depth, 10 ** 9, *given)[1].splitlines()[-1]
            self.wrong = '' if said == f'cost {self.costs[-1]}' else f'{said} at the end, and {self.costs[-1]} by the text'

    def learn(self, failing, objects):
        """What the program replied to `fault` and `fault cells` at the last position is its reply to them there from now on."""
        self.failing, self.at_failing = failing[:-1], objects_of(''.join(line + '\n' for line in objects[:-1]))

    def shown(self, words):
        """What a request prints that makes no move; None if there is no such request."""
        name = words[1] if len(words) == 2 else ''
        if words[0] == 'regs' and name:
            return None if number_of(name) is None else self.call(int(name))
        if words[0] == 'value' and len(words) > 1:
            return self.value(' '.join(words[1:]))
        if words[:2] == ['fault', 'cells'] and len(words) == 4:
            return self.cells_at_fault(words[1:])
        looks = {'regs': self.variables, 'stack': self.stack, 'heap': self.heap_lines, 'spend': self.spend, 'fault': self.fails}
        return looks[words[0]]() if len(words) == 1 and words[0] in looks else None

    def variables(self):
        return self.rows[self.at].variables

    def cells(self, first, count):
        return lines_of(self.rows[self.at].objects, first, count)

    def heap_lines(self):
        return [f'order {self.heap}', f'live {len(self.rows[self.at].objects)}', f'next #{self.next[self.at]}', *self.free[self.at]]

    def spend(self):
        return [f'cost {self.costs[self.at]}']

    def value(self, name):
        """The value of a variable, field or element."""
        number, begin = watched(name)
        found = seen(self.rows[self.at], number, begin)
        return [f'value {found[-1][len(begin):]}'] if found else NONE

    # ---- what fails

    def fails(self):
        """What the program said of the failing step, if it is the next one."""
        return self.failing if self.stop and self.at == len(self.rows) - 1 else NONE

    def cells_at_fault(self, words):
        if Reader.looks(self, words) is None:
            return None
        return NONE if self.fails() is NONE else lines_of(self.at_failing, int(words[1]), int(words[2]))

    # ---- active calls

    def objects(self):
        """The object of each active call."""
        found = [1]
        for call in self.calls[self.at][1:]:
            receiver = call.statement.receiver
            found.append(found[-1] if receiver is None else self.receiver(call.position, receiver.name))
        return found

    def receiver(self, position, name):
        """The object that a name means at the statement of a call. Without a name it is the one that the swap before took out of an array."""
        if name:
            return int(last_value(self.rows[position].variables, name)[1:])
        now = self.rows[position].cells
        return next(int(value[1:]) for cell, value in self.rows[position - 1].cells.items() if value.startswith('#') and now.get(cell) == 'nil')

    def stack(self):
        row, calls, lines = self.rows[self.at], self.calls[self.at], []
        places = [self.rows[call.position].place for call in calls[1:]] + [row.place]
        for depth, (call, place, number) in enumerate(zip(calls, places, self.objects()), 1):
            begins = 'end' if place is None else f'place {place}'
            lines.append(f'depth {depth} {begins} object #{number} dir {-1 if call.back else 1}')
        return lines

    def call(self, depth):
        """The fields and variables of the call with so many active calls."""
        row = self.rows[self.at]
        if not 0 < depth <= row.depth:
            return NONE
        if depth == row.depth:
            return row.variables
        inner = self.calls[self.at][depth]
        fields = [line[2:] for line in row.objects[self.objects()[depth - 1]][1:]]
        lines = list(self.rows[inner.position].variables)
        for name in (*inner.statement.arguments, *([inner.statement.receiver.name] if inner.statement.receiver else ())):
            at = max((number for number, line in enumerate(lines) if line.partition(' = ')[0] == name), default=-1)
            if at >= len(fields):
                value = lines[at].partition(' = ')[2]
                lines[at] = f'{name} = {"nil" if value[0] in "n#" else 0}'
        return fields + lines[len(fields):]

    # ---- searches

    def goal(self, words):
        if words[0] == 'depth' and len(words) == 3 and number_of(words[1]) is not None:
            return lambda at: self.rows[at].depth <= int(words[1])
        return super().goal(words)

    def change(self, names):
        """Whether a position is one that `until change` looks for here."""
        if len(names) != 1:
            return None
        what, start = watched(names[0]), self.rows[self.at]
        before = seen(start, *what)
        if what[0] is not None:
            return lambda at: seen(self.rows[at], *what) != before
        return lambda at: self.rows[at].depth < start.depth or self.rows[at].depth == start.depth and seen(self.rows[at], *what) != before


def watched(name):
    """The object whose field or element a name means, or None for a variable, and how its lines begin."""
    for mark, begin in (('.', '  '), ('[', '  [')):
        number, *label = name.split(mark)
        if len(label) == 1 and re.fullmatch(r'#\d+', number):
            return int(number[1:]), f'{begin}{label[0]} = '
    return None, f'{name} = '


def seen(row, number, begin):
    """The lines of an object, or of the variables, that begin so at a position."""
    return [line for line in (row.variables if number is None else row.objects.get(number, [])) if line.startswith(begin)]


def lines_of(objects, first, count):
    """The lines of the objects with so many ids from the first on."""
    return [line for number, lines in objects.items() if 0 <= number - first < count for line in lines]


# ---- the run of an image


class Moment(NamedTuple):
    """A position of the run of an image: the line, the code address, the registers that are not 0, and memory cells."""
    line: str
    place: int
    registers: dict
    memory: dict


class ImageReader(Reader):
    """A reader of the run of an image. It knows only the first memory cells."""

    CELLS = 100
    MOST = 600
    END = re.compile(r'(at (\d+) pc (-?\d+) br -?\d+ dir -?1)( end .*)?')

    def __init__(self, image, heap, depth):
        super().__init__()
        self.status, parts = stepped(['debug', image, heap, depth, 'SCRIPT'], f'regs\ncells 0 {self.CELLS}\n', self.MOST)
        for part in parts:
            line, *shown = part.splitlines()
            found = self.END.fullmatch(line)
            if int(found[2]) < len(self.rows):
                self.stop = found[4]
                break
            values = [each.split(' = ') for each in shown if each != 'all zero']
            registers = {name: value for name, value in values if name.startswith('$')}
            self.rows.append(Moment(found[1], int(found[3]), registers, {int(name[5:]): value for name, value in values if name.startswith('cell ')}))

    def shown(self, words):
        looks = {'regs': lambda: [f'{name} = {value}' for name, value in self.rows[self.at].registers.items()] or ['all zero'],
                 'spend': lambda: [f'steps {self.at}']}
        return looks[words[0]]() if len(words) == 1 and words[0] in looks else None

    def cells(self, first, count):
        memory = self.rows[self.at].memory
        return [f'cell {number} = {memory[number]}' for number in range(first, first + count) if number in memory]

    def change(self, names):
        if len(names) == 2 and names[0] == 'cell' and number_of(names[1]) is not None:
            value = lambda at: self.rows[at].memory.get(int(names[1]))
        elif len(names) == 1 and re.fullmatch(r'\$\d+', names[0]) and int(names[0][1:]) < 32:
            value = lambda at: self.rows[at].registers.get(names[0], '0')
        else:
            return None
        before = value(self.at)
        return lambda at: value(at) != before


class StateReader(ImageReader):
    """The same from a state, by `run` for each number of steps."""

    MOST = 60

    def __init__(self, image, heap, depth, state):  # pylint: disable=super-init-not-called
        Reader.__init__(self)
        self.status = 0
        with tempfile.TemporaryDirectory(prefix='rooplpp-reader-') as folder:
            for steps in range(self.MOST):
                why, *text = printed('run', image, heap, depth, steps, state, f'{folder}/state')[1].splitlines()
                # Outside the code the machine stops at a new position, for any other reason at the last one.
                if why == 'bound' or why.startswith('off code'):
                    self.rows.append(self.row(text, f'{folder}/state'))
                if why != 'bound':
                    self.stop = f' end {why}'
                    break

    def row(self, text, state):
        """The position that a run reached, by what it printed and its final state."""
        said = dict(line.split(' = ' if line.startswith('$') else ' ', 1) for line in text if ' = ' not in line or line.startswith('$'))
        with open(state, 'rb') as it:
            memory = cells_of_state(it.read())
        line = f'at {said["steps"]} pc {said["pc"]} br {said["br"]} dir {said["dir"]}'
        registers = {name: value for name, value in said.items() if name.startswith('$')}
        return Moment(line, int(said['pc']), registers, {number: str(word) for number, word in enumerate(memory[:self.CELLS])})


def cells_of_state(state):
    """The memory cells in a file of a state."""
    words = struct.unpack(f'<{(len(state) - 4) // 4}i', state[4:])
    return words[1 + 32 + 1:]
