"""`rpp side F [-o OUT.html]`: a program next to its inverse, both laid out, with the lines that belong together. Both texts
are what `show-inverse` wrote: of the program, and of its inverse again."""
import re
from itertools import zip_longest
from typing import Iterator, List, NamedTuple, Optional, Tuple, Union

from .messages import read_answer
from .options import Parser, add_source
from .page import as_script, page, tell_refused, write_page
from .program import Folder, Program
from .reading import title
from .screen import columns, say
from .tokens import KEYWORDS
from .trace import Refused

OPENS, GOES_ON, CLOSES = ('if', 'from', 'local', 'construct'), ('else', 'loop'), ('fi', 'until', 'delocal', 'destruct')
FILES = ['side.css', 'side.js']
WORDS = ('Lines that belong together have one number; a line under the pointer or the focus shows its partner. The arrow keys '
         'up and down go along a column, those left and right to the partner.')
SCRIPT = '''RooplSide.show(document.querySelector('main'), {data}).select(Number(location.hash.slice(1)) || 1, 'program');
'''

# The columns of a line's number, and of all that is not a line of one of the programs.
NUMBER = 4
FRAME = len('   1   |    1  ')
# where a line may be broken: after each of these
PIECE = re.compile(r' *(?:[^ :(\[]+(?:::|[(\[])?|::|[:(\[])')

# a line's number, or the list of the statements of a block; a statement is a list of these
Part = Union[int, list]


class Shape(NamedTuple):
    """The columns of a line, of a line of the inverse, and of the number of each."""
    width: int
    of_inverse: int
    margin: int


class LaidOut:
    """The lines of a text as `show-inverse` writes it; the numbers of its heads (of classes, fields and methods), which
    keep their order in the inverse; and the block of each method. A block is a list of statements, a statement the list of
    its lines' numbers with its blocks between them."""

    def __init__(self, text: str):
        self.lines: List[str] = []
        self.heads: List[int] = []
        self.methods: List[List[List[Part]]] = []
        self.block: List[List[Part]] = []
        self.open: List[Tuple[List[Part], List[List[Part]]]] = []
        for row in text.splitlines():
            words = row.split()
            if words[0] == 'class':
                self.heads += [self.line(piece, int(at > 0)) for at, piece in enumerate(class_pieces(words))]
            elif words[0] == 'method':
                self.heads.append(self.line(words, 0))
                self.block = []
                self.methods.append(self.block)
            else:
                for piece in pieces(words):
                    self.piece(piece)

    def line(self, words: List[str], indent: int) -> int:
        self.lines.append('  ' * indent + joined(words))
        return len(self.lines) - 1

    def piece(self, words: List[str]) -> None:
        """Adds a line that is a statement or part of one."""
        deep = len(self.open)
        if words[0] in OPENS:
            inner: List[List[Part]] = []
            statement: List[Part] = [self.line(words, deep + 1), inner]
            self.block.append(statement)
            self.open.append((statement, self.block))
            self.block = inner
        elif words[0] in GOES_ON:
            self.block = []
            self.open[-1][0].extend([self.line(words, deep), self.block])
        elif words[0] in CLOSES:
            statement, self.block = self.open.pop()
            statement.append(self.line(words, deep))
        else:
            self.block.append([self.line(words, deep + 1)])


def joined(words: List[str]) -> str:
    """Words with a space between two of them, but where none is usual."""
    text = ' '.join(words)
    text = re.sub(r"\b([A-Za-z][\w']*) \(", lambda found: found[0] if found[1] in KEYWORDS else found[1] + '(', text)
    return re.sub(r' (?=[)\],\[])|(?<=[(\[]) | (?=::)|(?<=::) ', '', text)


def pieces(words: List[str]) -> List[List[str]]:
    """The words of a printed line, cut before each one that goes on with or closes a statement."""
    cut: List[List[str]] = [[]]
    for word in words:
        if word in GOES_ON + CLOSES:
            cut.append([])
        cut[-1].append(word)
    return [piece for piece in cut if piece]


def class_pieces(words: List[str]) -> List[List[str]]:
    """A class's head, and each of its fields."""
    at = 4 if words[2:3] == ['inherits'] else 2
    cut = [words[:at]]
    while at < len(words):
        end = at + (4 if words[at + 1] == '[' else 2)
        cut.append(words[at:end])
        at = end
    return cut


def pairs_of_blocks(one: list, other: list) -> Iterator[Tuple[int, int]]:
    """The lines that belong together in two blocks that are each other's inverse: of statements the last first, of a
    statement the head with the foot."""
    for statement, partner in zip(one, reversed(other)):
        yield statement[0], partner[-1]
        for part, part_of_partner in zip(statement[1:-1], partner[1:-1]):
            if isinstance(part, list):
                yield from pairs_of_blocks(part, part_of_partner)
            else:
                yield part, part_of_partner
        if len(statement) > 1:
            yield statement[-1], partner[0]


def pairs(program: LaidOut, inverse: LaidOut) -> Iterator[Tuple[int, int]]:
    """The numbers of the lines of a program and of its inverse that belong together."""
    yield from zip(program.heads, inverse.heads)
    for one, other in zip(program.methods, inverse.methods):
        yield from pairs_of_blocks(one, other)


def inverse_text(program: Program, source: str, folder: Folder, name: str) -> str:
    """What `show-inverse` writes of a source."""
    answer = program.call('show-inverse', source, folder.name(name))
    if answer.status != 0:
        raise Refused(read_answer(answer))
    with open(folder.name(name), encoding='utf-8') as file:
        return file.read()


def side_texts(program: Program, source: str) -> Tuple[str, str]:
    """A program as `show-inverse` writes it, and its inverse."""
    with program.folder() as folder:
        inverse = inverse_text(program, source, folder, 'inverse')
        return inverse_text(program, folder.name('inverse'), folder, 'program'), inverse


def side_rows(texts: Tuple[str, str], most: Optional[int] = None) -> List[str]:
    """The two texts side by side, in so many columns: each line of the inverse has the number of the one that it undoes."""
    program, inverse = LaidOut(texts[0]), LaidOut(texts[1])
    number = {of_inverse: of_program + 1 for of_program, of_inverse in pairs(program, inverse)}
    shape = shape_of(program.lines, inverse.lines, most)
    rows = [f'{"":{shape.margin}}  {"program":{shape.width}}   {"":{shape.margin}}  inverse']
    for at, (line, other) in enumerate(zip_longest(program.lines, inverse.lines, fillvalue='')):
        rows += side_row((at + 1, line), (number.get(at, ''), other), shape)
    return rows


def shape_of(lines: List[str], others: List[str], most: Optional[int]) -> Shape:
    """As wide as the lines are, or as the terminal allows: the halves share it, and a narrow one leaves what it does not need."""
    own, other = max(map(len, lines)), max(map(len, others))
    if most is None or FRAME + own + other <= most:
        return Shape(own, other, NUMBER)
    margin = len(str(max(len(lines), len(others))))
    left = most - FRAME + 2 * (NUMBER - margin)
    width = min(own, max(left // 2, left - other))
    return Shape(width, left - width, margin)


def cell_rows(line: str, width: int) -> List[str]:
    """A line of a program in rows of so many columns, the later ones further in: broken at spaces, after `::` and brackets, and
    within a name only where it is longer than a row."""
    if len(line) <= width:
        return [line]
    margin = line[:len(line) - len(line.lstrip())][:width // 3]
    rows, room = [''], width - len(margin)
    for piece in PIECE.findall(line.strip()):
        if len(rows[-1] + piece) <= room:
            rows[-1] += piece
            continue
        room = width - len(margin) - 2
        piece = piece.lstrip()
        rows += [piece[at:at + room] for at in range(0, len(piece), room)]
    return [margin + rows[0], *(f'{margin}  {row}' for row in rows[1:])]


def side_row(one: Tuple[int, str], other: Tuple[Union[int, str], str], shape: Shape) -> List[str]:
    """Two lines side by side, each in as many rows as it needs."""
    (width, of_other, margin), rows = shape, []
    for own, partner in zip_longest(cell_rows(one[1], width), cell_rows(other[1], of_other), fillvalue=''):
        first = not rows
        rows.append(f'{one[0] if first else "":{margin}}  {own:{width}} | {other[0] if first else "":{margin}}  {partner}'.rstrip())
    return rows


def side_page(name: str, texts: Tuple[str, str]) -> str:
    data = as_script({'program': texts[0], 'inverse': texts[1]})
    return page(f'{name} and its inverse', WORDS, FILES, script=SCRIPT.format(data=data))


def parser() -> Parser:
    made = Parser(prog='rpp side', description='Shows a program next to its inverse.')
    add_source(made)
    made.add_argument('-o', '--out', metavar='OUT.html', help='write a page instead of text')
    return made


def main(words: List[str]) -> int:
    given = parser().parse_args(words)
    try:
        texts = side_texts(Program.found(), given.source)
    except Refused as refused:
        return tell_refused(refused, given.source)
    if given.out:
        write_page(given.out, side_page(title(given.source), texts), given.source)
        say([given.out])
    else:
        say(side_rows(texts, columns()))
    return 0
