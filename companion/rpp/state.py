"""`rpp state IMG INPUT .. -o STATE`: Writes a start state in which the int fields have the numbers of an input."""
import os
import re
import struct
from typing import Dict, List, Optional

from .messages import read_answer
from .options import ASSIGNMENT, DEPTH, HEAP, MOST_DEPTH, MOST_HEAP, Parser, Unfit
from .program import Program, keep_apart
from .reading import is_kept, readable, shown
from .report import failure_lines
from .screen import say
from .spelling import similar
from .tokens import NAME

HEADER = struct.Struct('<4sI32iI')
LINE = re.compile(rf'^[ \t]*({NAME})[ \t]*=[ \t]*(-?[0-9]+)[ \t]*$')
NOTE = re.compile(r"^NAME (\d+) (\S+)$", re.M)


def read_input(text: str) -> Dict[str, int]:
    """The numbers of an input by their names; raises Unfit at the first line that is none."""
    numbers: Dict[str, int] = {}
    for row, line in enumerate(text.split('\n'), 1):
        if not line.strip(' \t'):
            continue
        found = LINE.match(line)
        if not found or not -2 ** 31 <= int(found[2]) < 2 ** 31:
            raise Unfit(f'line {row} of the input is not NAME = NUMBER: {line.strip()}')
        if found[1] in numbers:
            raise Unfit(f'line {row} of the input names {found[1]} a second time')
        numbers[found[1]] = int(found[2])
    return numbers


def field_cells(program: Program, image: str) -> Dict[str, int]:
    """The cells of the int fields of an image, as its notes have them."""
    with program.folder() as folder:
        listing = folder.name('listing')
        told = read_answer(program.call('list', image, listing))
        if told.kind != 'done':
            raise Unfit('\n'.join(failure_lines(told, shown(image))))
        with open(listing, encoding='utf-8') as file:
            return {name: int(cell) for cell, name in NOTE.findall(file.read())}


def loaded_state(program: Program, image: str, heap: int, depth: int) -> bytes:
    """The state of the loaded memory, as `run` saves it after no step."""
    with program.folder() as folder:
        state = folder.name('state')
        told = read_answer(program.call('run', image, heap, depth, 0, '-', state))
        if told.kind not in ('bound', 'done'):
            raise Unfit('\n'.join(failure_lines(told, shown(image))))
        with open(state, 'rb') as file:
            return file.read()


def with_numbers(state: bytes, cells: Dict[str, int], numbers: Dict[str, int]) -> bytes:
    """The state with these numbers in the cells of their names."""
    changed = bytearray(state)
    for name, number in numbers.items():
        if name not in cells:
            near = similar(name, cells)
            meant = f'; did you mean `{near}`?' if near else ''
            raise Unfit(f'the image names no int field {name}{meant or "; it has " + (", ".join(sorted(cells)) or "none")}')
        struct.pack_into('<i', changed, HEADER.size + 4 * cells[name], number)
    return bytes(changed)


def parser() -> Parser:
    made = Parser(prog='rpp state', description=__doc__.split(':', 1)[1].strip(),
                    epilog='The state fits only runs of this image with the same --heap and --depth. Among the commands of '
                           'the program, only `run` takes a state: `debug` and `profile` begin with the loaded memory.')
    made.add_argument('image', metavar='IMG', type=readable, help='an image; - is standard input')
    made.add_argument('inputs', metavar='INPUT', nargs='+', help='numbers NAME=NUMBER, or a file of such lines; - is standard input')
    made.add_argument('-o', '--out', metavar='STATE', required=True, help='the file of the state to write')
    made.add_argument('--heap', type=int, default=HEAP, metavar='H', help=f'1 to {MOST_HEAP} (default {HEAP})')
    made.add_argument('--depth', type=int, default=DEPTH, metavar='D', help=f'1 to {MOST_DEPTH} (default {DEPTH})')
    return made


def input_file(words: List[str]) -> Optional[str]:
    """The file that the words name; none where they are numbers."""
    if all(ASSIGNMENT.match(each) for each in words):
        return None
    if len(words) > 1 or '=' in words[0] and not os.path.exists(words[0]):
        wrong = next(each for each in words if not ASSIGNMENT.match(each))
        raise Unfit(f'{wrong}: an input must be NAME=NUMBER, such as n=5, or one file of such lines')
    return readable(words[0])


def main(words: List[str]) -> int:
    given = parser().parse_intermixed_args(words)
    file_name, text = input_file(given.inputs), '\n'.join(given.inputs)
    if given.image == file_name and is_kept(given.image):
        raise Unfit(f'{shown(given.image)} must not be the image and the input: it is read once')
    keep_apart(given.out, *filter(None, (given.image, file_name)))
    if given.image.endswith('.rpp') and not is_kept(given.image):
        raise Unfit(f'{given.image} is a source: name the image that `rooplpp compile {given.image} IMG` writes')
    program = Program.found()
    if file_name:
        with open(file_name, encoding='utf-8', errors='replace') as file:
            text = file.read()
    numbers = read_input(text)
    state = loaded_state(program, given.image, given.heap, given.depth)
    changed = with_numbers(state, field_cells(program, given.image), numbers)
    with open(given.out, 'wb') as out:
        out.write(changed)
    image = 'IMG' if is_kept(given.image) else given.image
    say([f'{given.out}: a start state with {len(numbers)} number{"s" * (len(numbers) != 1)}',
         f'rooplpp run {image} {given.heap} {given.depth} STEPS {given.out} SAVE begins with it; `debug` and `profile` take no state'])
    return 0
