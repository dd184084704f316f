"""`rpp heap F [-o OUT.html]`: the memory of a program's image before a run, in it and after it: objects, free blocks by
order, frames. The memory is what `run` saved of the image that `compile` wrote; docs/reference/machine.md says what its words are."""
import re
import struct
from typing import Dict, List, NamedTuple, Optional, Tuple

from .heap_picture import heap_page, section
from .memory import Layout, Mark, Memory, block_words, frame_words, notes_of, taken_words
from .messages import Told, read_answer
from .options import DEPTH, Parser, Unfit, add_run_options, add_source, input_file
from .page import tell_refused, write_page
from .places import Text, decoded
from .program import Folder, Program
from .reading import title
from .report import fields_said, named_in
from .screen import columns, say
from .trace import FAR, MachineRun, Refused, Standing

ORDERS = (4, 6, 8, 10, 12)
MOST_STEPS = 1_000_000
HEAP_FULL = 8
# points of the run that are looked at to find the fullest heap, and steps within which a statement begins
SAMPLES, SINGLES = 15, 512
MAP_SIGNS = 64
# what is in front of the map and after it, in a line of its own
MAP_MARGIN = len('      [' + ']')
NAME = re.compile(r'^NAME (\d+) (\S+)$', re.M)
INPUT = re.compile(r'^\s*(\S+)\s*=\s*(-?\d+)\s*$')


class Moment(NamedTuple):
    """The memory after so many steps; `told` is what `run` said of it, `place` the statement of the source there."""
    title: str
    steps: int
    memory: Memory
    told: Told
    place: Optional[int]


class ImageRun:
    """The run of the image of a source, over a heap of an order and so many active calls."""

    def __init__(self, program: Program, source: str, folder: Folder, depth: int):
        self.program, self.source, self.folder, self.depth = program, source, folder, depth
        self.order = 0
        self.text = Text.read(source)
        if self.text.content.startswith(b'RPPI'):
            raise Unfit(f'{source} is an image; name its source, which has the classes and variables')
        self.image = folder.name('image')
        self.called('compile', source, self.image)
        self.called('list', self.image, folder.name('listing'))
        with open(folder.name('listing'), encoding='utf-8') as file:
            listing = file.read()
        self.marks: List[Mark] = notes_of(listing)
        self.inputs: Dict[str, int] = {name: int(cell) for cell, name in NAME.findall(listing)}
        self.layout = Layout(self.text.content, self.marks)

    def called(self, *words) -> Told:
        told = read_answer(self.program.call(*words))
        if told.kind not in ('done', 'fault', 'bound', 'left'):
            raise Refused(told)
        return told

    def give(self, inputs: str) -> None:
        """Writes an input into the static cells of the image, so that every run of it begins with it."""
        with open(inputs, encoding='utf-8') as file:
            lines = [line for line in file.read().split('\n') if line.strip()]
        with open(self.image, 'rb') as file:
            image = bytearray(file.read())
        cells = struct.unpack_from('<I', image, 8)[0]
        for line in lines:
            found = INPUT.match(line)
            if not found or found[1] not in self.inputs:
                raise Unfit(f'{line.strip()}: an input must be NAME = NUMBER. {fields_said(self.source, named_in(line))}')
            at = 16 + 8 * cells + 4 * (self.inputs[found[1]] - 40)
            struct.pack_into('<I', image, at, int(found[2]) & 0xffffffff)
        with open(self.image, 'wb') as file:
            file.write(image)

    def run(self, steps: int) -> Told:
        """What `run` says of so many steps; the state at their end is saved."""
        return self.called('run', self.image, self.order, self.depth, steps, '-', self.folder.name('state'))

    def moment(self, title: str, steps: int) -> Moment:
        told = self.run(steps)
        pc = told.number_behind('pc')
        with open(self.folder.name('state'), 'rb') as file:
            memory = self.layout.memory(file.read(), pc)
        return Moment(title, told.number_behind('steps'), memory, told, self.layout.place_at(pc) if memory.frames else None)

    def walk(self, lines: List[str]) -> List[Standing]:
        with MachineRun(self.program, self.image, self.order, self.depth) as machine:
            return machine.walk(lines)[0]

    def begins(self, standing: Standing) -> bool:
        """Whether a statement begins there, forward or undone."""
        edge = (lambda mark: mark.first) if standing.dir == 1 else (lambda mark: mark.last - 1)
        return standing.br == 0 and any(edge(mark) == standing.pc for mark in self.marks)

    def beginnings(self, points: List[int], singles: int) -> List[int]:
        """For each of these numbers of steps, the next one after which a statement begins, if it comes soon."""
        lines, at = [], 0
        for point in points:
            lines += [f'step {point - at}'] + ['step 1'] * singles
            at = point + singles
        standings, width = self.walk(lines), 1 + singles
        groups = [standings[first:first + width] for first in range(0, len(standings), width)]
        found = [next((each.position for each in group if self.begins(each)), None) for group in groups]
        return [each for each in found if each is not None]

    def first_at_line(self, line: int) -> int:
        """How many steps lead to the first statement that begins on this line of the source."""
        cells = [mark.first for mark in self.marks if self.text.place(mark.place).line == line]
        for cell in cells:
            standing = self.walk([f'to {cell} {FAR}'])[-1]
            if standing.pc == cell:
                return standing.position
        raise Unfit(f'the run begins no statement of line {line}')


# ---- which moments


def smallest_heap(run: ImageRun, given) -> Told:
    """Runs the image over the heap that is asked for, or over the smallest in which it does not end with HeapFull."""
    for order in ORDERS if given.heap is None else (given.heap,):
        run.order = order
        told = run.run(given.steps)
        if told.number != HEAP_FULL:
            break
    return told


def fullest(run: ImageRun, steps: int) -> Moment:
    """Among points of the run at which statements begin, the one with the most words taken and calls open."""
    apart = max(1, steps // (SAMPLES + 1))
    points = [apart * each for each in range(1, SAMPLES + 1) if apart * each < steps]
    found = run.beginnings(points, min(SINGLES, apart - 1)) or [steps // 2]
    moments = [run.moment('in the run', each) for each in dict.fromkeys(found)]
    return max(moments, key=lambda moment: (taken_words(moment.memory), len(moment.memory.frames)))


def moments_of(run: ImageRun, given) -> List[Moment]:
    """The moments before, in and after the run."""
    told = smallest_heap(run, given)
    steps = told.number_behind('steps')
    if given.line is not None:
        middle = [run.moment('in the run', run.first_at_line(given.line))]
    elif given.at is not None and given.at >= steps:
        raise Unfit(f'the run ends after {steps} steps')
    elif given.at is not None:
        middle = [run.moment('in the run', (run.beginnings([given.at], SINGLES) or [given.at])[0])]
    else:
        middle = [fullest(run, steps)] if steps > 2 else []
    last = 'where --steps ended the run' if told.kind == 'bound' else 'after the run'
    return [run.moment('before the run', 0), *middle, run.moment(last, given.steps)]


# ---- as text


def heading(moment: Moment, text: Text) -> str:
    """What moment it is: after how many steps, and which statement comes next or why the run ended."""
    if moment.told.kind != 'bound':
        return f'{moment.title}, {moment.steps} steps: {moment.told.first_line}'
    if moment.place is None:
        return f'{moment.title}, {moment.steps} steps'
    line = text.place(moment.place).line
    words = decoded(text.content[moment.place:]).split('\n')[0].split('//')[0].strip()
    return f'{moment.title}, {moment.steps} steps: line {line}, {words}'


def heap_map(memory: Memory, most: int) -> str:
    """The heap from its first word to its last: a sign for each of equal parts, at most so many, `.` free, `#` taken, `+` both."""
    signs = 1 << min(memory.order, most.bit_length() - 1)
    part = (1 << memory.order) // signs
    held = [0] * signs
    for block in memory.blocks:
        if block.kind != 'free':
            first = block.address - memory.base
            for word in range(first, first + block.words):
                held[word // part] += 1
    return ''.join('.' if not words else '#' if words == part else '+' for words in held)


def moment_rows(moment: Moment, text: Text, most: Optional[int] = None) -> List[str]:
    """What there is at a moment, for so many columns."""
    memory = moment.memory
    signs = MAP_SIGNS if most is None else min(MAP_SIGNS, most - MAP_MARGIN)
    rows = [heading(moment, text), f'  main object  @{memory.main.address} {block_words(memory.main)}',
            f'  heap of {1 << memory.order} words from {memory.base}, {taken_words(memory)} taken  [{heap_map(memory, signs)}]']
    rows += [f'  {block.address:8} {block.words:6} words  {block_words(block)}' for block in memory.blocks]
    lists = [f'order {order}: {" ".join(map(str, found))}' for order, found in memory.lists.items() if found]
    rows.append('  free blocks by order   ' + ('; '.join(lists) or 'none'))
    rows.append(f'  active calls, a frame of 512 words each from {memory.stack}' if memory.frames else '  no active call')
    rows += [f'  {frame.address:8}  {frame_words(frame)}' for frame in memory.frames]
    return rows


# ---- the command


def parser() -> Parser:
    made = Parser(prog='rpp heap', description='Shows the memory of the image of a program before, during and '
                                   'after a run. During the run it shows the fullest heap that it finds, unless --at or --line names a moment.')
    add_source(made)
    add_run_options(made)
    made.set_defaults(heap=None, depth=DEPTH)
    made.add_argument('-o', '--out', metavar='OUT.html', help='write a page with pictures instead of text')
    made.add_argument('--steps', type=int, default=MOST_STEPS, metavar='N', help=f'the most steps of the run (default {MOST_STEPS})')
    made.add_argument('--at', type=int, metavar='STEPS', help='show the moment after so many steps, at which a statement begins')
    made.add_argument('--line', type=int, metavar='N', help='show the moment at which a statement of this line first begins')
    return made


def read_moments(given) -> Tuple[List[Moment], Text]:
    """The moments that are asked for, and the source."""
    program = Program.found()
    with program.folder() as folder:
        run = ImageRun(program, given.source, folder, given.depth)
        inputs = input_file(given, folder)
        if inputs:
            run.give(inputs)
        return moments_of(run, given), run.text


def main(words: List[str]) -> int:
    given = parser().parse_intermixed_args(words)
    if given.steps < 1 or (given.at or 0) < 0:
        raise Unfit('--steps is 1 or more, --at 0 or more')
    try:
        moments, text = read_moments(given)
    except Refused as refused:
        return tell_refused(refused, given.source)
    told = [moment_rows(moment, text, None if given.out else columns()) for moment in moments]
    if given.out:
        sections = [section(rows[0], moment.memory, rows[1:]) for moment, rows in zip(moments, told)]
        write_page(given.out, heap_page(title(given.source), sections), *filter(None, (given.source, given.input)))
        say([given.out])
    else:
        say('\n\n'.join('\n'.join(rows) for rows in told).split('\n'))
    return 0
