"""`rpp list F`: Prints the instructions of the compiled program, with the statement of each. F is a source or an image."""
from typing import List, NamedTuple, Optional

from .memory import notes_of
from .messages import read_answer
from .options import Parser, Unfit, add_source
from .page import tell_refused
from .places import Text
from .program import Program
from .reading import readable
from .screen import columns, cut, paint, say
from .trace import Refused

IMAGE_MARK = b'RPPI'
NOTES = ('STATIC ', 'MARK ', 'NAME ')


class Listed(NamedTuple):
    """A line of a listing, and the place of the statement that it is of, where it is of one."""
    text: str
    place: Optional[int]


def parser() -> Parser:
    made = Parser(prog='rpp list', description=__doc__.split(':', 1)[1].strip())
    add_source(made)
    made.add_argument('--source', dest='source_of_image', metavar='F', type=readable, help='the source that the image was compiled from')
    made.add_argument('--line', type=int, metavar='N', help='print only the instructions of the statements that begin in this line')
    return made


def main(words: List[str]) -> int:
    given = parser().parse_args(words)
    with open(given.source, 'rb') as file:
        is_image = file.read(4) == IMAGE_MARK
    try:
        listed = cells(Program.found(), given.source, is_image)
    except Refused as refused:
        return tell_refused(refused, given.source)
    source = given.source_of_image if is_image else given.source
    if given.line and not source:
        raise Unfit('--line needs the source of the image: --source F')
    say(rows(listed, Text.read(source) if source else None, given.line))
    return 0


def cells(program: Program, file: str, is_image: bool) -> List[Listed]:
    """What `list` writes of an image, or of the image of a source."""
    with program.folder() as folder:
        image, listing = file if is_image else folder.name('image'), folder.name('listing')
        for words in ([] if is_image else [('compile', file, image)]) + [('list', image, listing)]:
            answer = program.call(*words)
            if answer.status != 0:
                raise Refused(read_answer(answer))
        with open(listing, encoding='utf-8') as text:
            written = text.read()
    places = {}
    for mark in sorted(notes_of(written), key=lambda mark: mark.first - mark.last):
        places.update(dict.fromkeys(range(mark.first, mark.last), mark.place))
    lines = [line for line in written.splitlines() if not line.startswith(('MARK ', 'NAME '))]
    return [Listed(line, None if line.startswith(NOTES) else places.get(at)) for at, line in enumerate(lines)]


def rows(listed: List[Listed], text: Optional[Text], line: Optional[int]) -> List[str]:
    """The lines that are shown: the number of a cell, the cell, and its statement where another begins."""
    width = min(32, max(len(each.text) for each in listed))
    most, shown, before = columns(), [], None
    for at, each in enumerate(listed):
        if line and (each.place is None or text.place(each.place).line != line):
            before = None
            continue
        beside = statement(text, each.place) if text and each.place is not None and each.place != before else ''
        before = each.place
        cell = f'{at:6d}  {each.text:{width}}  '
        shown.append((cell + paint('where', beside if most is None else cut(beside, most - len(cell)))).rstrip())
    if not shown:
        raise Unfit(f'no instruction belongs to a statement that begins in line {line}')
    return shown


def statement(text: Text, at: int) -> str:
    """Where a statement begins, and its text up to the end of that line."""
    place = text.place(at)
    return f'{place.line}:{place.column} {text.line(place.line)[place.column - 1:].strip()}'
