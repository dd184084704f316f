"""`rpp picture F --at N -o OUT`: the store at a position of a run, as a figure for a paper (SVG or PDF)."""
import os
import shutil
import subprocess
from typing import List, Optional, Set, Tuple

from .frames import Statements
from .options import Parser, Unfit, add_run_options, add_source, input_file, input_lines
from .page import tell_refused
from .places import decoded
from .program import Folder, Program, keep_apart
from .reading import title
from .screen import say
from .session import Session
from .store_picture import Store
from .trace import FAR, Moment, Refused

# What makes a PDF of an SVG, the first that is there; Debian has the packages librsvg2-bin and inkscape.
CONVERTERS = [('rsvg-convert', ['-f', 'pdf', '-o']), ('inkscape', ['--export-type=pdf', '-o'])]
MOST_CALLS = 8


def store_at(session: Session, bare: bool = False) -> str:
    """The SVG of the store where the session is; `bare` leaves out the caption and the active calls."""
    moment, statements = session.moment, Statements(session.run.text.content)
    fields, inner = statements.parted(moment)
    frames = session.stack()
    own = frames[0].number if frames else 1
    if own not in moment.objects:
        # (the number of the object is not known: its fields are shown with the variables)
        inner = fields + inner
    heading = frames[0].method + (', uncalled' if frames[0].uncalled else '') if frames else 'the end of the run'
    calls = [f'{frame.method}, line {session.run.text.place(frame.place).line}, calls' for frame in frames[:0:-1]]
    if len(calls) > MOST_CALLS:
        calls = calls[:2] + [f'.. {len(calls) - 4} calls more ..'] + calls[-2:]
    store = Store(heading, [] if bare else calls, inner, moment.objects, own, changed(session))
    return store.picture('' if bare else caption(session, moment))


def caption(session: Session, moment: Moment) -> str:
    """The file, the position, and the statement that comes next."""
    name, place = title(session.run.source), moment.point.place
    if place is None:
        return f'{name}, position {moment.point.position}: the end'
    text = session.run.text
    words = decoded(text.line_bytes(text.row(place)))[text.place(place).column - 1:].split('//')[0].strip()
    return f'{name}, position {moment.point.position}, line {text.place(place).line}: {words}'


def changed(session: Session) -> Set[Tuple[Optional[int], str]]:
    """What the statement before has changed: pairs of an object's number, or None for a variable, and a name."""
    if session.position == 0:
        return set()
    before, now = session.run.moment(session.position - 1), session.moment
    found: Set[Tuple[Optional[int], str]] = set()
    if before.point.depth == now.point.depth:
        found |= {(None, name) for name, value in now.variables if (name, value) not in before.variables}
    for number, thing in now.objects.items():
        old = dict(before.objects[number].cells) if number in before.objects else {}
        found |= {(number, name) for name, value in thing.cells if old and old.get(name) != value}
    return found


def position_of(session: Session, given) -> int:
    """The position that is asked for."""
    if given.at is not None:
        return given.at
    if given.line is None:
        return FAR
    stop = session.until(given.line) if session.run.text.place(session.point.place).line != given.line else None
    if stop is not None and stop.reason != 'break':
        raise Unfit(f'the run comes to no statement of line {given.line}')
    return session.position


def write_pdf(svg: str, out: str, folder: Folder) -> None:
    """Makes a PDF of an SVG by a program that this machine has."""
    path = folder.write('picture.svg', svg)
    for program, words in CONVERTERS:
        if shutil.which(program):
            done = subprocess.run([program, *words, out, path], stdin=subprocess.DEVNULL, stdout=subprocess.DEVNULL,
                                  stderr=subprocess.PIPE, check=False)
            if done.returncode:
                raise Unfit(f'{program} made no PDF: {done.stderr.decode("utf-8", "replace").strip()}')
            return
    raise Unfit('a PDF needs rsvg-convert or inkscape (Debian: librsvg2-bin, inkscape); name OUT.svg without them')


def parser() -> Parser:
    made = Parser(prog='rpp picture', description='Draws the store at a position of a run: variables, objects and references.')
    add_source(made)
    add_run_options(made)
    made.add_argument('--at', type=int, metavar='N', help='draw this position, as `trace` and `rpp debug` count it (default: the end)')
    made.add_argument('--line', type=int, metavar='L', help='draw the first position at this line')
    made.add_argument('--bare', action='store_true', help='leave out the caption and the active calls')
    made.add_argument('-o', '--out', metavar='OUT', required=True, help='OUT.svg or OUT.pdf')
    return made


def main(words: List[str]) -> int:
    given = parser().parse_intermixed_args(words)
    ending = os.path.splitext(given.out)[1]
    if ending not in ('.svg', '.pdf'):
        raise Unfit(f'{given.out}: its name must end with .svg or .pdf')
    if (given.at or 0) < 0 or given.at is not None and given.line is not None:
        raise Unfit('--at is 0 or more, and comes without --line')
    keep_apart(given.out, *filter(None, (given.source, given.input)))
    program = Program.found()
    with program.folder() as folder:
        try:
            with Session.begun(program, given.source, given.heap, given.depth, input_file(given, folder)) as session:
                session.go(position_of(session, given))
                if given.at is not None and session.position != given.at:
                    raise Unfit(f'the run has no position {given.at}; its last one is {session.position}')
                svg, position = store_at(session, given.bare), session.position
        except Refused as refused:
            return tell_refused(refused, given.source, input_lines(given))
        if ending == '.pdf':
            write_pdf(svg, given.out, folder)
        else:
            with open(given.out, 'w', encoding='utf-8') as file:
                file.write(svg)
    say([f'{given.out}: position {position}'])
    return 0
