"""`rpp film F [-o OUT.html]`: a page of a run, along which a browser goes both ways. What it shows of the run is what
`trace` printed."""
import os
import sys
from typing import Any, Dict, List, Optional, Tuple

from .failing import FailedTest
from .faults import failing
from .options import Parser, Unfit, add_run_options, add_source, input_file, input_lines
from .outline import Outline
from .page import as_script, page, tell_refused, write_page
from .places import Text
from .program import Interrupted, Program
from .reading import shown, title
from .screen import say
from .session import Session
from .trace import Moment, Refused, SourceRun, Thing

MOST_POINTS = 2000
CHUNK = 500
FILES = ['film.css', 'film.js']
WORDS = ('The arrow keys left and right go one statement, with shift over calls; home and end, the slider and the picture of '
         'the active calls above it go anywhere. A statement that is being undone has another colour.')
SCRIPT = '''const film = RooplFilm.show(document.querySelector('main'), {data},
  {{keys: document, start: Number(location.hash.slice(1)), onmove: index => history.replaceState(null, '', '#' + index)}});
'''


class Directions:
    """Says, point by point, whether the body of a statement runs backward: it does if an odd number of
    the calls open round it are written `uncall`."""

    def __init__(self, outline: Outline):
        self.outline = outline
        self.open = [False]
        self.before: Optional[int] = None

    def uncalled(self, place: Optional[int], depth: Optional[int]) -> bool:
        """For the next point, with its place and depth."""
        if depth is not None and depth > len(self.open) and self.before is not None:
            call = self.outline.call_at(self.before)
            self.open.append(self.open[-1] != (call is not None and call.is_uncall))
        del self.open[max(depth or 1, 1):]
        self.before = place
        return self.open[-1]


class Film:
    """The data of film.js: each object that occurs at several positions is written once."""

    def __init__(self, text: Text):
        self.directions = Directions(Outline(text, []))
        self.objects: List[Dict[str, Any]] = []
        self.numbers: Dict[Thing, int] = {}
        self.positions: List[Dict[str, Any]] = []

    def add(self, moment: Moment) -> None:
        """Adds the position after the last one."""
        point = moment.point
        position = {'place': point.place, 'depth': point.depth or 0,
                    'uncalled': self.directions.uncalled(point.place, point.depth),
                    'variables': moment.variables, 'objects': [self.number(thing) for thing in moment.objects.values()]}
        if point.fault:
            position['note'] = point.fault.title
        self.positions.append(position)

    def add_test(self, test: FailedTest, note: str) -> None:
        """Adds the test that fails after the last position."""
        self.positions[-1].pop('note', None)
        self.add(test.moment._replace(point=test.moment.point._replace(place=test.at, fault=None)))
        self.positions[-1].update(note=f'{note}: {test.title}', end=test.end)

    def number(self, thing: Thing) -> int:
        """The index of an object as it is now."""
        if thing not in self.numbers:
            self.numbers[thing] = len(self.objects)
            self.objects.append({'name': f'#{thing.number}', 'head': thing.head, 'count': thing.count, 'cells': thing.cells})
        return self.numbers[thing]


def moments_of(run: SourceRun, most: int) -> Tuple[List[Moment], str]:
    """The first moments of a run, at most so many, and why they are not all, or ''."""
    found: List[Moment] = []
    chunk = CHUNK
    while len(found) < most:
        try:
            part = run.states(len(found), min(chunk, most - len(found)))
        except Interrupted:
            return found, 'stopped by ^C'
        except Refused as refused:
            if refused.told.kind != 'memory' or not found and chunk == 1:
                raise
            if chunk == 1:
                return found, 'the program ran out of memory for what comes next'
            chunk //= 2
            continue
        found += part
        progress(len(found))
        if not part or run.last and run.last.position < len(found):
            return found, ''
    # (only a move beyond shows whether there is one more, or a fault after the last one)
    try:
        goes_on = run.point(len(found)).position == len(found)
    except (Interrupted, Refused):
        goes_on = True
    return found, f'--most {10 * most} shows more' if goes_on else ''


def progress(count: int) -> None:
    """Says on a terminal how far the reading of a long run has come."""
    if sys.stderr.isatty():
        print(f'{count} positions', end='\r', file=sys.stderr, flush=True)


def film_data(run: SourceRun, most: int) -> Tuple[Dict[str, Any], str]:
    """The data of film.js for the first positions of a run, at most so many, and why they are not all, or ''."""
    film = Film(run.text)
    moments, lacking = moments_of(run, most)
    for moment in moments:
        film.add(moment)
    # (a fault is reported where a move beyond was tried)
    if moments and run.last and run.last.fault and run.last.position == moments[-1].point.position:
        film.positions[-1]['note'] = run.last.fault.title
        test = test_at_end(run)
        if test is not None:
            film.add_test(test, run.last.fault.title)
    data = {'source': as_text(run.text.content), 'name': title(run.source), 'positions': film.positions, 'objects': film.objects}
    return {**data, 'rest': goes_on_because(lacking)} if lacking else data, lacking


def goes_on_because(lacking: str) -> str:
    """What is said of a run whose end is not shown."""
    return f'the run goes on: {lacking}'


def positions_said(count: int) -> str:
    return f'the first {count} positions' if count != 1 else 'the first position'


def test_at_end(run: SourceRun) -> Optional[FailedTest]:
    """The test at the end of a statement that fails where the run ends."""
    session = Session(run, Outline.made(run.program, run.text))
    session.position = run.last.position
    return failing(session, with_objects=True).test


def as_text(source: bytes) -> str:
    """The characters of a source; a byte that is no UTF-8 is a question mark, so that places stay."""
    return ''.join('?' if '\udc80' <= each <= '\udcff' else each for each in source.decode('utf-8', 'surrogateescape'))


def film_page(data: Dict[str, Any], lacking: str = '') -> str:
    return page(f'{data["name"]}: the film of its run', film_words(data, lacking), FILES, script=SCRIPT.format(data=as_script(data)))


def film_words(data: Dict[str, Any], lacking: str) -> str:
    """What a page says of its film: the keys, and that the run goes on if it does."""
    return WORDS + (f' The film has {positions_said(len(data["positions"]))}, and {goes_on_because(lacking)}.' if lacking else '')


def parser() -> Parser:
    made = Parser(prog='rpp film', description='Writes a page that shows a run in both directions.')
    add_source(made)
    add_run_options(made)
    made.add_argument('-o', '--out', metavar='OUT.html', help='the page (default: F with .html instead of .rpp)')
    made.add_argument('--most', type=int, default=MOST_POINTS, metavar='N', help=f'show the first N positions ({MOST_POINTS})')
    return made


def read_film(given) -> Tuple[Dict[str, Any], str]:
    """The data of the film, and why it is not the whole run, or ''."""
    program = Program.found()
    with program.folder() as folder:
        inputs = input_file(given, folder)
        with SourceRun(program, given.source, given.heap, given.depth, inputs, is_held=True) as run:
            return film_data(run, given.most)


def main(words: List[str]) -> int:
    given = parser().parse_intermixed_args(words)
    if given.most < 1:
        raise Unfit('--most is 1 or more')
    name = 'film' if shown(given.source) != given.source else os.path.splitext(given.source)[0]
    out = given.out or f'{name}.html'
    try:
        data, lacking = read_film(given)
    except Refused as refused:
        return tell_refused(refused, given.source, input_lines(given))
    write_page(out, film_page(data, lacking), *filter(None, (given.source, given.input)))
    tests = sum('end' in each for each in data['positions'])
    count = len(data['positions']) - tests
    whole = f'all {count} positions, and the test that fails' if tests else f'all {count} positions'
    say([f'{out}: ' + (f'{positions_said(count)}, and {goes_on_because(lacking)}' if lacking else whole)])
    return 0
