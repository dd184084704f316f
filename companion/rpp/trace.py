"""A run as the program reports it: of a source by `trace` or by a session that is held open, of an image by `debug`. Nothing here
computes a run: positions, places, depths and values are those that the program printed.

    with SourceRun(program, 'list.rpp', heap=12, depth=64, inputs=None) as run:
        run.point(7)              # Point(position=7, place=375, depth=2, fault=None)
        run.points(0, 500)        # the points 0 to 499, fewer where the run ends before
        run.states(0, 500)        # the same with variables and objects: Moment(point, variables, objects)
        run.end()                 # the last point: at_end, or with a fault
        run.seek(7, 375, 10**6)   # the first later point at this place of the text, or the last one within so many moves
        run.seek_back(7, 375, 10**6)

What was read once is kept, so that it costs no second call. A call that the program refuses raises Refused with its
answer; `Refused.told.kind` is 'memory' where it ended with status 7, out of memory.
"""
import os
import re
import time
from typing import Callable, Dict, List, NamedTuple, Optional, Sequence, Set, Tuple, TypeVar

from .live import Live, Lost
from .messages import Told, read_answer
from .places import Text
from .program import SCRIPT_LIMIT, Closing, Program
from .tokens import NAME

FAR = 10 ** 17
MOST_CELLS = 1000
MOST_NAMES = 2000
MOST_ROUNDS = 50
MOST_LINES = 4000
# How far a session looks for several places at first, so that a near one is found before others are looked for far away.
REACHES = (100, 3000)
AROUND = 10
AROUND_SECONDS = 0.2
AT_SOURCE = re.compile(r'^at (\d+) (?:place (\d+) depth (\d+)|end)(?: (?:start|fault (-?\d+)(?: (\w+))?))?$')
FAULT = re.compile(r'^fault (-?\d+)(?: (\w+))?$')
TEST = re.compile(r'^test (\w+) at (\d+) of (\d+)$')
AT_IMAGE = re.compile(r'^at (\d+) pc (-?\d+) br (-?\d+) dir (-?1)(?: (start|end .*))?$')
VARIABLE = re.compile(rf'^({NAME}) = (.+)$')
OBJECT = re.compile(r'^#(\d+) (\S+) count (\d+)$')
CELL = re.compile(r'^  (\S+) = (.+)$')
CELL_PATH = re.compile(rf'#(\d+)(?:\.{NAME}|\[\d+\])')
COST = re.compile(r'cost (\d+)')
HEAP_STATE = re.compile(r'order (\d+)\nlive (\d+)\nnext #(\d+)(?:\n|$)')
FREE = re.compile(r'free (\d+) (\d+)')
ACTIVE = re.compile(r'^depth (\d+) (?:place (\d+)|end) object #(\d+) dir (-?1)$')


Answered = TypeVar('Answered')


class Refused(Exception):
    """The program did not carry the script out; `told` is its answer."""

    def __init__(self, told: Told):
        super().__init__(told.first_line or f'status {told.status}')
        self.told = told


class Fault(NamedTuple):
    number: int
    name: str

    @property
    def title(self) -> str:
        return f'fault {self.number} {self.name}'.rstrip()


class Point(NamedTuple):
    """A position of a run: the place of the statement that begins there and how many calls are open; at the end of the run
    both are None. `fault` is what stops the run there, where that is known (it is when a move beyond was tried)."""
    position: int
    place: Optional[int]
    depth: Optional[int]
    fault: Optional[Fault] = None

    @property
    def at_end(self) -> bool:
        return self.place is None


class Thing(NamedTuple):
    """An object or array: its number, its class or `int[5]`, its count, and its cells as (label, value)."""
    number: int
    head: str
    count: int
    cells: Tuple[Tuple[str, str], ...]


class Moment(NamedTuple):
    """A point with what `regs` and `cells` print there: the variables in their order (fields of the current object, then
    parameters, then locals from the outermost in), and the live objects by their numbers. These are all whose numbers are up
    to 2000, and those later ones that are reachable from what is shown. A value is a number, `nil` or `#K`, as printed."""
    point: Point
    variables: Tuple[Tuple[str, str], ...]
    objects: Dict[int, Thing]

    def value(self, name: str) -> Optional[str]:
        """The value of the innermost variable of this name."""
        found = [value for each, value in self.variables if each == name]
        return found[-1] if found else None


class Failure(NamedTuple):
    """What a session says of the step that stops with a fault. That is the word of the test that fails, its place and that of its
    statement, and the value that it has with the one that it must have, if it has them. Then come the number of active calls and the
    variables."""
    fault: Fault
    word: str
    at: int
    statement: int
    found: Optional[str]
    wanted: Optional[str]
    depth: int
    variables: Tuple[Tuple[str, str], ...]


class Active(NamedTuple):
    """An active call: how many calls are active with it, and the offset of its statement that runs (None at the end of the run). Then the
    number of its object, and whether its text runs backward."""
    depth: int
    place: Optional[int]
    number: int
    is_back: bool


class HeapState(NamedTuple):
    """The heap as a session prints it: it has 2^order words. `living` is how many objects and arrays live, `next` the number that the
    next one gets, and `free` has for each order of free blocks how many there are."""
    order: int
    living: int
    next: int
    free: Tuple[Tuple[int, int], ...]


class SourceRun(Closing):
    """The run of a source, read through `trace`. `text` is the source as it was at the beginning, and stays so; `copy` and
    `inputs` are files that keep it and its input. `patience` is the time that a call may take; without it, any. With `is_held`,
    one session is held open for all questions, where there is a program for it; it gives the same."""

    def __init__(self, program: Program, source: str, heap: int = 12, depth: int = 64, inputs: Optional[str] = None,
                 is_held: bool = False):
        self.program = program
        self.source = source
        self.text = Text.read(source)
        self.bounds = (heap, depth)
        self.last: Optional[Point] = None
        self.patience: Optional[float] = None
        self._pace = 0.0
        self._paced_at = 0
        self._is_held = is_held
        self._live: Optional[Live] = None
        self._stands = 0
        self._folder = program.folder()
        self._points: Dict[int, Point] = {}
        self._moments: Dict[int, Moment] = {}
        self._folder.__enter__()
        self.copy = self._folder.name(os.path.basename(source) or 'source')
        with open(self.copy, 'wb') as out:
            out.write(self.text.content)
        self.inputs = [self._kept(inputs)] if inputs else []

    def close(self) -> None:
        self._end_session()
        self._folder.__exit__()

    def point(self, position: int) -> Point:
        """The point at this position, or the last one before."""
        if position not in self._points and not self._is_past(position) and not self._read_around(position):
            return self._walk([f'step {position}'])[-1].point
        return self._points.get(position) or self.last

    def end(self) -> Point:
        """The last point of the run."""
        if self.last is None:
            self._walk([f'step {FAR}'])
        return self.last

    def points(self, first: int, count: int) -> List[Point]:
        """The points from the first on, at most so many."""
        missing = self._missing(first, count, self._points)
        if missing and self._special(missing[0], f'points {missing[-1] - missing[0]}') is None:
            self._walk([f'step {missing[0]}'] + ['step 1'] * (missing[-1] - missing[0]))
        return [self._points[each] for each in range(first, first + count) if each in self._points]

    def moment(self, position: int) -> Moment:
        """The point at this position, or the last one before, with its state."""
        position = self.point(position).position
        if position not in self._moments and not self._read_around(position):
            self.states(position, 1)
        return self._moments[position]

    def states(self, first: int, count: int) -> List[Moment]:
        """The points from the first on, at most so many, with their states."""
        missing = self._missing(first, count, self._moments)
        if missing:
            lines: List[str] = []
            for each in range(missing[0], missing[-1] + 1):
                lines += [f'step {1 if lines else each}', 'regs'] + cells_lines(min(each + 2, MOST_NAMES))
            self._walk(lines)
            for each in missing:
                self._complete(each)
        return [self._moments[each] for each in range(first, first + count) if each in self._moments]

    def looks(self, first: int, count: int, lines: List[str]) -> List[Moment]:
        """The points from the first on, at most so many, each with no more than these lines show there."""
        script: List[str] = []
        for each in range(first, first + count):
            script += [f'step {1 if script else each}', *lines]
        moments = self._walk(script, keep=False) if script and not self._is_past(first) else []
        return [moment for position, moment in enumerate(moments, first) if moment.point.position == position]

    def change(self, position: int, name: str, back: bool) -> Optional[Point]:
        """Where a session finds that a variable has changed, or the end or the start of the run; None if it cannot be asked."""
        return self._special(position, f'{"back " if back else ""}until change {name} {FAR}')

    def shallower(self, position: int, depth: int, back: bool) -> Optional[Point]:
        """Where a session comes to a point with at most so many open calls, or to the end or the start of the run; None if it cannot be
        asked."""
        return self._special(position, f'{"back " if back else ""}depth {depth} {FAR}')

    def calls(self, position: int) -> Optional[List[Active]]:
        """The active calls at a position, the outermost first, as a session prints them; None if it cannot be asked."""
        def question(live: Live) -> Optional[List[Active]]:
            reply = live.served('stack', self.patience)
            found = [ACTIVE.fullmatch(line) for line in reply.lines] if reply is not None and reply.end == 'done' else []
            return [Active(int(each[1]), int(each[2]) if each[2] else None, int(each[3]), each[4] == '-1') for each in found if each] or None
        return self._asked_at(position, question)

    def value(self, position: int, path: str) -> Optional[str]:
        """The value of a variable or of a cell of an object at a position, '' if there is none; None if no session can be asked."""
        return self._asked_at(position, lambda live: live.value(path, self.patience)) if lines_of(path) else None

    def heap(self, position: int) -> Optional[HeapState]:
        """The heap at a position; None if no session can be asked."""
        def question(live: Live) -> Optional[HeapState]:
            reply = live.served('heap', self.patience)
            return read_heap(reply.lines) if reply is not None else None
        return self._asked_at(position, question)

    def cost(self, position: int) -> Optional[int]:
        """What the run has cost up to a position, in the units of `explain`; None if no session can be asked."""
        def question(live: Live) -> Optional[int]:
            reply = live.served('spend', self.patience)
            found = COST.fullmatch(reply.lines[0]) if reply is not None and reply.lines else None
            return int(found[1]) if found else None
        return self._asked_at(position, question)

    def is_read(self, position: int) -> bool:
        """Whether the state at a position was read before."""
        return position in self._moments

    def failure(self) -> Optional[Failure]:
        """What a session says of the fault at the end of the run; None if it cannot be asked."""
        def question(live: Live) -> Optional[Failure]:
            reply = live.served('fault', self.patience)
            return read_failure(reply.lines) if reply is not None and reply.end == 'done' else None
        return self._asked_at(self.end().position, question)

    def looked(self, lines: List[str]) -> Moment:
        """The point after the last move of these lines, with what they showed there."""
        return self._walk(lines)[-1]

    def seek(self, position: int, place: int, limit: int) -> Point:
        """From the position on, the point after the fewest moves at this place of the text; else the last one within
        the limit."""
        return self._walk([f'step {position}', f'to {place} {limit}'])[-1].point

    def seek_back(self, position: int, place: int, limit: int) -> Point:
        """The same toward the start."""
        return self._walk([f'step {position}', f'backto {place} {limit}'])[-1].point

    def seek_all(self, position: int, places: List[int], limit: int, back: bool = False) -> List[Point]:
        """What `seek` (or `seek_back`) finds for each of the places. A session is asked for the nearest, so what lies beyond it is not
        looked at."""
        word = 'backto' if back else 'to'
        if self._is_held:
            return self._seek_nearest(position, places, limit, back)
        lines = []
        for place in places:
            lines += [f'back {FAR}', f'step {position}', f'{word} {place} {limit}']
        return [moment.point for moment in self._walk(lines)[2::3]]

    def hits(self, position: int, places: List[int], limit: int, count: int, back: bool, shown: Sequence[str] = ()) -> List[List[Moment]]:
        """For each of the places, the moments after so many searches for it in a row, each within the limit, with what these lines show
        there. A session that looks for any of them gives one list for all."""
        together = self._hits_of_any(position, places, limit, count, back, shown) if len(places) > 1 else None
        if together is not None:
            return [together]
        searches = [[f'{"backto" if back else "to"} {place} {limit}', *shown] * count for place in places]
        if self._is_held:
            return [self._walk([f'step {position}', *search], keep=not shown)[1:] for search in searches]
        lines = [line for search in searches for line in [f'back {FAR}', f'step {position}', *search]]
        walked = self._walk(lines, keep=not shown)
        return [walked[at + 2:at + 2 + count] for at in range(0, len(walked), 2 + count)]

    def affordable(self, seconds: float, position: int) -> int:
        """About how many lines of a script the program carries out at this position in this time, as it did the last ones. Farther
        on they are taken to cost more in proportion, until some were measured there. To a session all positions are near."""
        farther = max(1.0, (position + 1000) / (self._paced_at + 1000)) if self._live is None else 1.0
        return int(max(4.0, min(MOST_LINES, seconds / max(self._pace * farther, 1e-6))))

    def _complete(self, position: int) -> None:
        """Adds to a state the objects with later names, as far as references lead to them."""
        for _ in range(MOST_ROUNDS):
            moment = self._moments.get(position)
            names = sorted(unknown_names(moment))[:MOST_CELLS] if moment else []
            if not names:
                return
            found = self._walk([f'step {position}', 'regs'] + [f'cells {name} 1' for name in names])[-1]
            self._moments[position] = moment._replace(objects={**moment.objects, **found.objects})

    def _read_around(self, position: int) -> bool:
        """Reads the states around a position, where that is quick; whether the position is among them, or past the end."""
        if self.affordable(AROUND_SECONDS, position) < 6 * AROUND:
            return False
        try:
            self.states(max(0, position - AROUND), 2 * AROUND)
        except Refused as refused:
            if refused.told.kind != 'memory':
                raise
            return False
        return position in self._moments or self._is_past(position)

    def _missing(self, first: int, count: int, kept: Dict) -> List[int]:
        """The positions that are asked for, not kept, and not known to lie past the end."""
        return [each for each in range(first, first + count) if each not in kept and not self._is_past(each)]

    def _is_past(self, position: int) -> bool:
        return self.last is not None and position > self.last.position

    def _kept(self, inputs: str) -> str:
        """A copy of the input, so that the session is of one input."""
        with open(inputs, 'rb') as file, open(self._folder.name('input'), 'wb') as out:
            out.write(file.read())
        return self._folder.name('input')

    def _walk(self, lines: List[str], keep: bool = True) -> List[Moment]:
        """Carries the lines out, the first of which is `step N`, and gives the point after each move; states are kept where the lines
        show all of them. Without a session it takes as few calls as scripts allow."""
        if self._is_held:
            try:
                return self._asked(lines, keep)
            except Lost:
                self._is_held = False
        walked: List[Moment] = []
        for script in scripts(lines):
            if walked:
                script = [f'step {walked[-1].point.position}'] + script
            walked += self._call(script, keep)[1 if walked else 0:]
        return walked

    def _call(self, script: List[str], keep: bool) -> List[Moment]:
        path = self._folder.write('script', '\n'.join(script) + '\n')
        begin = time.monotonic()
        answer = self.program.call('trace', self.copy, *self.bounds, path, *self.inputs, timeout=self.patience)
        self._pace = (time.monotonic() - begin) / len(script)
        if answer.status != 0:
            raise Refused(read_answer(answer))
        moments = self._noted(script, answer.output.split('\n'), keep)
        self._paced_at = moments[-1].point.position if moments else 0
        return moments

    def _noted(self, script: List[str], lines: List[str], keep: bool) -> List[Moment]:
        """The moments after the moves of a script, from the lines that answer it."""
        moments = read_moments(lines)
        for moment, whole in zip(moments, looked_at(script)):
            self._keep(moment, whole and keep)
        return moments

    def _asked(self, lines: List[str], keep: bool) -> List[Moment]:
        """What `_walk` gives, by the session: it goes from its position."""
        def question(live: Live) -> List[Moment]:
            script = [self._way_to(int(lines[0].split()[1])), *lines[1:]]
            begin = time.monotonic()
            replies = live.ask(script, self.patience)
            if 'regs' in script:
                self._pace = (time.monotonic() - begin) / len(script)
            moments = self._noted(script, [line for reply in replies for line in reply.lines], keep)
            self._stands = moments[-1].point.position
            return moments
        return self._ask(question)

    def _ask(self, question: Callable[[Live], Answered]) -> Answered:
        """Asks the session, which is begun where none is held. One that was left in the middle is ended; the next question begins another
        at the start of the run."""
        if self._live is None:
            self._live, self._stands = Live.begun(self.program, self.copy, *self.bounds, self.inputs), 0
        if self._live is None:
            raise Lost()
        try:
            return question(self._live)
        except BaseException:
            self._end_session()
            raise

    def _end_session(self) -> None:
        if self._live is not None:
            self._live.close()
        self._live = None

    def _way_to(self, position: int) -> str:
        """The move from the position of the session to another one."""
        return f'step {position - self._stands}' if position >= self._stands else f'back {self._stands - position}'

    def _special(self, position: int, line: str) -> Optional[Point]:
        """Where a request leads from this position; None if no session is held that has such requests."""
        def question(live: Live) -> Optional[Point]:
            reply = live.served(line, self.patience)
            if reply is None or not reply.lines:
                return None
            self._stands = self._noted(['step'] * len(reply.lines), reply.lines, False)[-1].point.position
            return self._points[self._stands]
        return self._asked_at(position, question)

    def _asked_at(self, position: int, question: Callable[[Live], Optional[Answered]]) -> Optional[Answered]:
        """What a session answers at this position; None if no session is held."""
        if self._is_held:
            self._walk([f'step {position}'])
        try:
            return self._ask(question) if self._is_held else None
        except Lost:
            self._is_held = False
            return None

    def _seek_nearest(self, position: int, places: List[int], limit: int, back: bool) -> List[Point]:
        """Where searches for the places from a position lead, the nearest hit among them."""
        any_of = ' '.join(str(place) for place in places)
        nearest = self._special(position, f'{"back " if back else ""}any {limit} {any_of}') if len(places) > 1 else None
        if nearest is not None:
            return [nearest]
        found: List[Point] = []
        for reach in sorted({min(limit, each) for each in (*REACHES, limit)}):
            found, is_met = [], False
            for place in places:
                found.append(self._walk([f'step {position}', f'{"backto" if back else "to"} {place} {reach}'])[-1].point)
                if found[-1].place == place and found[-1].position != position:
                    reach, is_met = abs(found[-1].position - position), True
            if is_met:
                break
        return found

    def _hits_of_any(self, position: int, places: List[int], limit: int, count: int, back: bool, shown: Sequence[str]) -> Optional[List[Moment]]:
        """The moments after so many searches in a row for the nearest of the places; None if no session is held that has such searches."""
        search = f'{"back " if back else ""}any {limit} {" ".join(str(place) for place in places)}'
        if self._special(position, search) is None:
            return None

        def question(live: Live) -> List[Moment]:
            script = ['step 0', *shown, *[search, *shown] * (count - 1)]
            begin = time.monotonic()
            replies = live.ask(script, self.patience)
            self._pace = (time.monotonic() - begin) / len(script)
            moments = self._noted(script, [line for reply in replies for line in reply.lines], not shown)
            self._stands = moments[-1].point.position
            return moments
        try:
            return self._ask(question)
        except Lost:
            self._is_held = False
            return None

    def _keep(self, moment: Moment, whole: bool) -> None:
        """Keeps a point, and where the script looked at all of it its state; notes where the run ends."""
        point = moment.point
        known = self._points.get(point.position)
        if known is None or known.fault is None:
            self._points[point.position] = point
        if point.at_end or point.fault:
            self.last = point
        if whole:
            self._moments[point.position] = moment
        kept = self._moments.get(point.position)
        if kept and point.fault:
            self._moments[point.position] = kept._replace(point=point)


def cells_lines(names: int) -> List[str]:
    """The lines that show all objects with a name up to this one."""
    return [f'cells {first} {min(MOST_CELLS, names - first + 1)}' for first in range(1, names + 1, MOST_CELLS)]


def unknown_names(moment: Moment) -> Set[int]:
    """The names of objects that a state refers to and does not show."""
    values = [value for _, value in moment.variables]
    values += [value for thing in moment.objects.values() for _, value in thing.cells]
    return {int(value[1:]) for value in values if value.startswith('#')} - set(moment.objects)


def scripts(lines: List[str]) -> List[List[str]]:
    """The lines parted, only before moves, into scripts of allowed length."""
    parts: List[List[str]] = [[]]
    size = 0
    for line in lines:
        is_move = not line.startswith(('regs', 'cells'))
        if is_move and size > SCRIPT_LIMIT * 3 // 4:
            parts.append([])
            size = 0
        parts[-1].append(line)
        size += len(line) + 1
    return parts


def looked_at(script: List[str]) -> List[bool]:
    """For each move of a script whether `regs` follows it."""
    looked: List[bool] = []
    for line in script:
        if line == 'regs':
            looked[-1] = True
        elif not line.startswith('cells'):
            looked.append(False)
    return looked


def read_moments(lines: List[str]) -> List[Moment]:
    """The point after each move of a script of `trace`, from the lines that it prints."""
    read: List[Tuple[Point, List[Tuple[str, str]], List[Tuple[int, str, int, List[Tuple[str, str]]]]]] = []
    for line in lines:
        begin, things = line[:1], read[-1][2] if read else []
        if begin == '#':
            thing = OBJECT.match(line)
            if thing:
                things.append((int(thing[1]), thing[2], int(thing[3]), []))
        elif begin == ' ':
            cell = CELL.match(line)
            if cell and things:
                things[-1][3].append((cell[1], cell[2]))
        else:
            at = AT_SOURCE.match(line)
            variable = None if at else VARIABLE.match(line)
            if at:
                read.append((source_point(at), [], []))
            elif variable and read:
                read[-1][1].append((variable[1], variable[2]))
    return [Moment(point, tuple(variables), {number: Thing(number, head, count, tuple(cells)) for number, head, count, cells in things})
            for point, variables, things in read]


def lines_of(path: str) -> List[str]:
    """The lines of a script that show all that a path needs: a variable, or a cell of an object. Others lead from one object to another."""
    if re.fullmatch(NAME, path):
        return ['regs']
    found = CELL_PATH.fullmatch(path)
    return [f'cells {found[1]} 1'] if found else []


def read_heap(lines: List[str]) -> Optional[HeapState]:
    """The reply to `heap`; None if it has another form."""
    found = HEAP_STATE.match('\n'.join(lines))
    free = [FREE.fullmatch(line) for line in lines[3:]]
    if not found or not all(free):
        return None
    return HeapState(int(found[1]), int(found[2]), int(found[3]), tuple((int(each[1]), int(each[2])) for each in free if each))


def read_failure(lines: List[str]) -> Optional[Failure]:
    """The reply to `fault`; None if it has another form."""
    end = next((number for number, line in enumerate(lines) if line.startswith('depth ')), 0)
    fault, test = (FAULT.match(lines[0]), TEST.match(lines[1])) if end > 1 else (None, None)
    if not fault or not test:
        return None
    values = dict(line.split(' ', 1) for line in lines[2:end])
    variables = [VARIABLE.match(line) for line in lines[end + 1:]]
    return Failure(Fault(int(fault[1]), fault[2] or ''), test[1], int(test[2]), int(test[3]), values.get('found'), values.get('wanted'),
                   int(lines[end].split()[1]), tuple((each[1], each[2]) for each in variables if each))


def source_point(at) -> Point:
    place, depth = (int(at[2]), int(at[3])) if at[2] is not None else (None, None)
    return Point(int(at[1]), place, depth, Fault(int(at[4]), at[5] or '') if at[4] is not None else None)


class Standing(NamedTuple):
    """Where a machine is: steps made, place, branch register, direction; `note` is `start`, or `end` with the stop."""
    position: int
    pc: int
    br: int
    dir: int
    note: str


def standing_of(at) -> Standing:
    return Standing(int(at[1]), int(at[2]), int(at[3]), int(at[4]), at[5] or '')


class MachineRun(Closing):
    """The run of an image from the loaded memory: of a live session, or read through `debug`."""

    def __init__(self, program: Program, image: str, heap: int = 12, depth: int = 64):
        self.program = program
        self.image = image
        self.bounds = (heap, depth)
        self._live = Live.begun_image(program, image, heap, depth)
        self._at = 0
        self._folder = program.folder()
        self._folder.__enter__()

    def close(self) -> None:
        self._folder.__exit__()
        if self._live:
            self._live.close()

    def search(self, position: int, line: str) -> Optional[Tuple[Standing, str]]:
        """Where a request that not every session has leads from a position, and how it ends; None if it cannot be asked."""
        if self._live is None:
            return None
        self.walk([f'step {position}'])
        try:
            reply = self._live.served(line) if self._live else None
        except Lost:
            self._live = None
            return None
        except BaseException:
            # (^C ends the session; the next question begins another at the start of the run)
            self._live, self._at = Live.begun_image(self.program, self.image, *self.bounds), 0
            raise
        found = [AT_IMAGE.match(each) for each in reply.lines] if reply is not None else []
        standings = [standing_of(at) for at in found if at]
        if not standings:
            return None
        self._at = standings[-1].position
        return standings[-1], reply.end

    def walk(self, lines: List[str]) -> Tuple[List[Standing], str]:
        """Carries the lines out from the start: where the machine was after each move, and all the text."""
        output = self._asked(lines)
        if output is None:
            output = self._called(lines)
        found = [AT_IMAGE.match(line) for line in output.split('\n')]
        standings = [standing_of(at) for at in found if at]
        self._at = standings[-1].position if standings else self._at
        return standings, output

    def _asked(self, lines: List[str]) -> Optional[str]:
        """What the session prints; it begins where the last lines led. None without a session."""
        first = re.fullmatch(r'step (\d+)', lines[0])
        if self._live is None or not first:
            return None
        moves = int(first[1]) - self._at
        try:
            replies = self._live.ask([f'step {moves}' if moves >= 0 else f'back {-moves}', *lines[1:]])
        except Lost:
            self._live = None
            return None
        if any(reply.end == 'bad' for reply in replies):
            raise ValueError(lines)
        return ''.join(f'{line}\n' for reply in replies for line in reply.lines)

    def _called(self, lines: List[str]) -> str:
        """What one call of `debug` prints."""
        path = self._folder.write('script', '\n'.join(lines) + '\n')
        answer = self.program.call('debug', self.image, *self.bounds, path)
        if answer.status != 0:
            raise Refused(read_answer(answer))
        return answer.output

    def registers(self, position: int) -> Dict[int, int]:
        """The registers that are not 0 after so many steps."""
        _, output = self.walk([f'step {position}', 'regs'])
        return {int(number): int(value) for number, value in re.findall(r'^\$(\d+) = (-?\d+)$', output, re.M)}

    def cells(self, position: int, first: int, count: int) -> Dict[int, int]:
        """The cells from the first on, so many as there are, after so many steps."""
        lines = [f'cells {each} {min(MOST_CELLS, first + count - each)}' for each in range(first, first + count, MOST_CELLS)]
        _, output = self.walk([f'step {position}'] + lines)
        return {int(number): int(value) for number, value in re.findall(r'^cell (\d+) = (-?\d+)$', output, re.M)}
