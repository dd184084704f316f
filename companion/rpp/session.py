"""A session that goes both ways along a run of a source, with no terminal: the prompt of `rpp debug` and the debug adapter
use it. It adds nothing to what `trace` says; positions are the program's.

    session = Session.begun(program, 'list.rpp', heap=12, depth=64, inputs=None)
    session.break_at(15)           # Breakpoint(number=1, line=15, places=(375,))
    session.break_at(15, Formula('n > 3'))      # only where this is not 0
    session.break_in('Node.append')             # where a call of this method begins
    stop = session.run_on()        # Stop(point, reason, detail); session.point is where it is
    session.stack()                # the active calls, innermost first: Frame(depth, method, place, uncalled, number)
    session.moment.variables       # what `regs` shows there
    session.value('list.head')     # '#3'; the objects are session.moment.objects
    session.close()

The moves (step, back, next, previous, finish, leave_back, until, run_on, run_back, watch, watch_back, go) each give a Stop.
Its reason is `step`, `break`, `change`, `end`, `fault`, `start`, `memory` (the program answered with status 7 to a move beyond) or
`interrupted`. For `break`, `by` is the number of the breakpoint; for `change`, the detail is a sentence on it.
"""
from typing import Callable, List, NamedTuple, Optional, Tuple

from .changes import computed, value_of
from .formulas import BadFormula, Formula
from .outline import Call, Outline
from .program import Closing, Interrupted, Program
from .trace import FAR, HeapState, Moment, Point, Refused, SourceRun, cells_lines, lines_of

FIRST_BOUND = 100_000
WINDOW_SECONDS = 1.0
MOST_ROUNDS = 200
# the names of objects that are shown with each hit
MOST_SHOWN = 200


class Breakpoint(NamedTuple):
    """A breakpoint at the statements of a line; or, with a method, where a call of it begins. With a condition it counts only where
    that is not 0."""
    number: int
    line: int
    places: tuple
    condition: Optional[Formula] = None
    method: str = ''

    @property
    def is_plain(self) -> bool:
        return self.condition is None and not self.method


class Stop(NamedTuple):
    point: Point
    reason: str
    detail: str = ''
    by: int = 0


class Frame(NamedTuple):
    """An active call: `method` is `Class.name`, `place` the statement at which it is, `position` where that was begun,
    `uncalled` whether its body runs backward, `number` that of its object (None if the printed texts do not say it)."""
    depth: int
    method: str
    place: int
    position: int
    uncalled: bool
    number: Optional[int]


class Session(Closing):
    """A run, a position on it, and breakpoints. `notify` is called with a text while a long search goes on."""

    def __init__(self, run: SourceRun, outline: Outline, notify: Optional[Callable[[str], None]] = None):
        self.run = run
        self.outline = outline
        self.notify = notify or (lambda text: None)
        self.position = 0
        self.breakpoints: List[Breakpoint] = []
        self._numbers = 0
        # (what fails at the end of the run, once it was asked for)
        self.failing = None

    @classmethod
    def begun(cls, program: Program, source: str, heap: int = 12, depth: int = 64, inputs: Optional[str] = None,
              is_held: bool = False) -> 'Session':
        """A session at the start of the run; raises Refused where the program refuses the text or the bounds."""
        run = SourceRun(program, source, heap, depth, inputs, is_held)
        try:
            run.point(0)
            return cls(run, Outline.made(program, run.text))
        except BaseException:
            run.close()
            raise

    def close(self) -> None:
        self.run.close()

    @property
    def point(self) -> Point:
        return self.run.point(self.position)

    @property
    def moment(self) -> Moment:
        return self.run.moment(self.position)

    # Breakpoints

    def break_at(self, line: int, condition: Optional[Formula] = None) -> Optional[Breakpoint]:
        """Sets a breakpoint at the first line from this one on where a statement begins."""
        found, places = self.outline.breakable(line)
        return self.add_breakpoint(found, places, condition) if places else None

    def break_in(self, name: str, condition: Optional[Formula] = None) -> Optional[Breakpoint]:
        """Sets a breakpoint where a call of a method begins: `Class.name`, or `name` in all classes."""
        methods = self.outline.methods_named(name)
        places = sorted({place for method in methods for place in self.outline.entries(method)})
        if not places:
            return None
        label = ', '.join(method.label for method in methods)
        return self.add_breakpoint(self.outline.line_of(places[0]), places, condition, label)

    def add_breakpoint(self, line: int, places: List[int], condition: Optional[Formula], method: str = '') -> Breakpoint:
        self._numbers += 1
        self.breakpoints.append(Breakpoint(self._numbers, line, tuple(places), condition, method))
        return self.breakpoints[-1]

    def clear(self, number: int) -> bool:
        kept = [each for each in self.breakpoints if each.number != number]
        cleared = len(kept) != len(self.breakpoints)
        self.breakpoints = kept
        return cleared

    def clear_all(self) -> None:
        self.breakpoints = []

    @property
    def break_places(self) -> List[int]:
        return sorted({place for each in self.breakpoints for place in each.places})

    # Moves

    def go(self, position: int) -> Stop:
        """Stands at this position, or at the last one."""
        return self._guarded(lambda: self._stand(self.run.point(max(0, position)), 'step'), position)

    def step(self, count: int = 1) -> Stop:
        wanted = self.position + count
        return self._guarded(lambda: self._stand(self._reached(wanted), 'step', wanted), wanted)

    def back(self, count: int = 1) -> Stop:
        wanted = self.position - count
        return self._stand(self.run.point(max(0, wanted)), 'start' if wanted < 0 else 'step')

    def next(self) -> Stop:
        """On to the next statement that is no deeper: over a call."""
        depth = self.point.depth
        return self._by_depth(depth) if depth else self.step()

    def finish(self) -> Stop:
        """On to the first statement after the current call."""
        depth = self.point.depth
        return self._by_depth(depth - 1) if depth else self.step()

    def previous(self) -> Stop:
        """Back to the last statement that is no deeper: over a call."""
        depth = self.point.depth or 1
        return self._guarded(lambda: self._scan(lambda at: at.depth <= depth, depth, back=True), None)

    def leave_back(self) -> Stop:
        """Back to the statement that called the present body."""
        opener = self.opener(self.position)
        return self._stand(opener, 'step') if opener else self.back(self.position + 1)

    def until(self, line: int) -> Stop:
        """On to the next statement of this line."""
        _, places = self.outline.breakable(line)
        return self._guarded(lambda: self._seek(places, back=False), None)

    def run_on(self) -> Stop:
        """On to the next breakpoint, or to the end."""
        return self._guarded(lambda: self._to_breakpoint(back=False), None)

    def run_back(self) -> Stop:
        """Back to the last breakpoint, or to the start."""
        return self._guarded(lambda: self._to_breakpoint(back=True), None)

    def watch(self, path: str) -> Stop:
        """On to the first position where the value has changed."""
        return self._guarded(lambda: self._watch(path, back=False), None)

    def watch_back(self, path: str) -> Stop:
        """Back to the last position before the value changed to what it is: the statement there changes it."""
        return self._guarded(lambda: self._watch(path, back=True), None)

    # Looking

    def value(self, path: str) -> Optional[str]:
        """The value of NAME, #K, NAME.FIELD or NAME[2], as printed; None where there is no such thing here."""
        told = self.run.value(self.position, path) if not self.run.is_read(self.position) else None
        return value_of(self.moment, path) if told is None else told or None

    def heap(self) -> Optional[HeapState]:
        """The orders and blocks of the heap here; None if no session says them."""
        return self.run.heap(self.position)

    def cost(self) -> Optional[int]:
        """What the run has cost up to here, in the units of `explain`; None if no session says it."""
        return self.run.cost(self.position)

    def opener(self, position: int) -> Optional[Point]:
        """The call statement that opened the call in which this position is; None for `main`."""
        depth = self.run.point(position).depth
        if depth is None or depth == 1:
            return None
        found = self.run.shallower(position, depth - 1, back=True)
        if found is None:
            found = self._near_before(position, lambda at: at.depth == depth - 1)
        return found or self._opener_by_sites(position, depth)

    def stack(self) -> List[Frame]:
        """The active calls, the innermost first; at the end of the run none."""
        point = self.point
        if point.at_end:
            return []
        points = [point]
        while points[-1].depth > 1:
            opener = self.opener(points[-1].position)
            if opener is None:
                break
            points.append(opener)
        return self._frames(points)

    def _frames(self, points: List[Point]) -> List[Frame]:
        """The frames of points that open each other, the innermost first."""
        frames: List[Frame] = []
        uncalled, number = False, 1 if points[-1].depth == 1 else None
        told = self.run.calls(points[0].position) or []
        is_told = [call.place for call in told] == [point.place for point in reversed(points)]
        for index in range(len(points) - 1, -1, -1):
            point = points[index]
            if is_told:
                uncalled, number = told[-1 - index].is_back, told[-1 - index].number
            method = self.outline.method_at(point.place)
            label = method.label if method else '?'
            frames.insert(0, Frame(point.depth, label, point.place, point.position, uncalled, number))
            call = self.outline.call_at(point.place) if index and not is_told else None
            if call:
                uncalled ^= call.is_uncall
                number = self._receiver(point, call, number)
        return frames

    def _receiver(self, point: Point, call: Call, number: Optional[int]) -> Optional[int]:
        """The number of the object on which the call at this point is made."""
        if not call.receiver:
            return number
        value = self.run.moment(point.position).value(call.receiver)
        if value is None or not value.startswith('#'):
            return None
        return self._element_called(point, int(value[1:])) if call.is_element else int(value[1:])

    def _element_called(self, point: Point, array: int) -> Optional[int]:
        """The object that left this array as the call on an element began."""
        first = point.position
        while first > 0 and first > point.position - 3 and self.run.point(first - 1)[1:3] == point[1:3]:
            first -= 1
        before = self.run.moment(first).objects.get(array)
        after = self.run.moment(point.position + 1).objects.get(array)
        if not before or not after:
            return None
        left = [old for (_, old), (_, new) in zip(before.cells, after.cells) if old != new and new == 'nil']
        return int(left[0][1:]) if len(left) == 1 else None

    # How the moves search

    def _stand(self, point: Point, reason: str, wanted: Optional[int] = None) -> Stop:
        """Stops at the point; if the run ended before what was asked for, the reason is its end."""
        self.position = point.position
        if wanted is not None and point.position < wanted:
            reason = 'end' if point.at_end else 'fault' if point.fault else reason
        elif point.at_end:
            reason = 'end'
        return Stop(point, reason)

    def _reached(self, position: int) -> Point:
        """The point there, read with a move beyond where the run may have ended before."""
        point = self.run.point(position)
        return self.run.last if self.run.last and point.position == self.run.last.position else point

    def _guarded(self, move: Callable[[], Stop], wanted: Optional[int]) -> Stop:
        """Makes the move; where the program finds no memory for it, or ^C ends it, says so and stops where it can."""
        try:
            return move()
        except (Interrupted, KeyboardInterrupt):
            return Stop(self.point, 'interrupted')
        except Refused as refused:
            if refused.told.kind != 'memory':
                raise
        return self._stand(self.run.point(self._furthest(wanted)), 'memory')._replace(reason='memory')

    def _furthest(self, wanted: Optional[int]) -> int:
        """The last position that the program reaches with the memory that it finds."""
        reached, beyond = self.position, self.position + 1
        while (wanted is None or beyond < wanted) and self._reaches(beyond):
            reached, beyond = beyond, self.position + 2 * (beyond - self.position)
        if wanted is not None:
            beyond = min(beyond, wanted)
        while beyond - reached > 1:
            middle = (reached + beyond) // 2
            reached, beyond = (middle, beyond) if self._reaches(middle) else (reached, middle)
        return reached

    def _reaches(self, position: int) -> bool:
        try:
            return self.run.point(position).position == position
        except Refused:
            return False

    def _seek(self, places: List[int], back: bool) -> Stop:
        """To the nearest point at one of the places, or to the end or the start; looks ever further."""
        if not places:
            return self._stand(self.run.point(0), 'start') if back else self._stand(self.run.end(), 'end', FAR)
        bound = FIRST_BOUND
        while True:
            found = self.run.seek_all(self.position, places, bound, back)
            hits = [at for at in found if at.place in places and at.position != self.position]
            if hits:
                nearest = (max if back else min)(hits, key=position_of)
                return self._stand(nearest, 'break')
            furthest = (min if back else max)(found, key=position_of)
            if abs(furthest.position - self.position) < bound:
                return self._stand(furthest, 'start') if back else self._stand(self._reached(furthest.position), 'end', FAR)
            bound *= 2
            self.notify(f'looked up to position {furthest.position}')

    def _to_breakpoint(self, back: bool) -> Stop:
        """To the nearest breakpoint that counts. Those that have to be tested are looked at many at once, and ever more."""
        if all(each.is_plain for each in self.breakpoints):
            stop = self._seek(self.break_places, back)
            return self._broken(self.moment) if stop.reason == 'break' else stop
        begin, bound, count, way = self.position, FIRST_BOUND, 1, -1 if back else 1
        shown = self._shown()
        while True:
            walks = self.run.hits(begin, self.break_places, bound, count, back, shown)
            ended = [self._is_over(walk, begin, back) for walk in walks]
            reached = [walk[-1].point.position for walk, is_over in zip(walks, ended) if not is_over]
            horizon = (max if back else min)(reached) if reached else None
            found = {moment.point.position: moment for walk in walks for moment in walk
                     if moment.point.place in self.break_places and moment.point.position != begin}
            for position in sorted(found, reverse=back):
                if horizon is None or way * position <= way * horizon:
                    stop = self._broken(found[position])
                    if stop is not None:
                        return stop
            if horizon is None:
                return self._stand(self.run.point(0), 'start') if back else self._stand(self.run.end(), 'end', FAR)
            most = self.run.affordable(WINDOW_SECONDS, horizon) // (len(walks) * (1 + len(shown))) + 1
            # (of several places, one that the run no longer reaches costs the whole bound at each search)
            is_far = abs(horizon - begin) >= bound
            begin, bound, count = horizon, min(FAR, 2 * bound) if is_far else bound, min(most, 4 * count)
            self.notify(f'looked {"back" if back else "up"} to position {horizon}')

    @staticmethod
    def _is_over(walk: List[Moment], begin: int, back: bool) -> bool:
        """Whether a walk has come to the end of the run, or to its start."""
        positions = [begin, *(moment.point.position for moment in walk)]
        last = walk[-1].point
        return last.at_end or last.fault is not None or back and last.position == 0 or positions[-1] == positions[-2]

    def _shown(self) -> List[str]:
        """The lines that show what the conditions of the breakpoints need at once; what is not shown is asked for later."""
        formulas = [each.condition for each in self.breakpoints if each.condition]
        if not formulas:
            return []
        return ['regs'] + cells_lines(MOST_SHOWN) * any(set(formula.text) & set('.[#') for formula in formulas)

    def _broken(self, moment: Moment) -> Optional[Stop]:
        """The stop of the first breakpoint that counts at this moment, where one does."""
        for each in self.breakpoints:
            if moment.point.place not in each.places:
                continue
            held, why = self._held(each.condition, moment)
            if held and (not each.method or self._begins(moment.point)):
                return self._stand(self.run.point(moment.point.position), 'break')._replace(reason='break', detail=why, by=each.number)
        return None

    def _held(self, condition: Optional[Formula], moment: Moment) -> Tuple[bool, str]:
        """Whether a condition holds; it is also taken to hold where it has no value, and then with the reason."""
        if condition is None:
            return True, ''
        try:
            return computed(moment, condition) not in (0, 'nil'), ''
        except BadFormula:
            pass
        try:
            return computed(self.run.moment(moment.point.position), condition) not in (0, 'nil'), ''
        except BadFormula as why:
            return True, f'its condition has no value here: {why}'

    def _begins(self, point: Point) -> bool:
        """Whether a call begins with this statement."""
        return point.position == 0 or self.run.point(point.position - 1).depth == point.depth - 1

    def _by_depth(self, depth: int) -> Stop:
        """On to the first point that is no deeper, or to a breakpoint."""
        if depth == 0:
            return self.run_on()
        breaks, hits = set(self.break_places), []

        def fits(at: Point) -> bool:
            if at.depth <= depth:
                return True
            hits[:] = [stop for stop in [self._broken(self.run.moment(at.position)) if at.place in breaks else None] if stop]
            return bool(hits)
        stop = self._guarded(lambda: self._scan(fits, depth), None)
        return hits[0] if hits and stop.reason == 'step' and stop.point.position == hits[0].point.position else stop

    def _scan(self, fits: Callable[[Point], bool], depth: int, back: bool = False) -> Stop:
        """On or back to the first point that fits. It looks point by point in a window, and then at the statements of all
        bodies that are active and no deeper, and at breakpoints: the point is at one of these."""
        stop = self._by_session(depth, back)
        if stop is not None:
            return stop
        places = self._places_above(depth) if self.point.depth else self.outline.places
        count = self._window(self.position)
        first = max(0, self.position - count) if back else self.position + 1
        window = self.run.points(first, min(count, self.position) if back else count)
        for point in reversed(window) if back else window:
            if point.at_end or fits(point):
                return self._stand(point, 'step')
        position = first if back else self.position + len(window)
        while True:
            found = [at for at in self.run.seek_all(position, places, FAR, back) if at.place in places]
            found = [at for at in found if at.position != position]
            if not found:
                return self._stand(self.run.point(0), 'start') if back else self._stand(self.run.end(), 'end', FAR)
            nearest = (max if back else min)(found, key=position_of)
            if fits(nearest):
                return self._stand(nearest, 'step')
            position = nearest.position
            self.notify(f'looked {"back" if back else "up"} to position {position}')

    def _by_session(self, depth: int, back: bool) -> Optional[Stop]:
        """The stop at a point with so many open calls, by a session; None if it was not asked, since breakpoints are looked for too."""
        if self.point.at_end or self.break_places and not back:
            return None
        point = self.run.shallower(self.position, depth, back)
        if point is None or point.position == self.position:
            return None
        if point.at_end or point.depth <= depth:
            return self._stand(point, 'step')
        return self._stand(self.run.point(0), 'start') if back else self._stand(self.run.end(), 'end', FAR)

    def _places_above(self, depth: int) -> List[int]:
        """The places of the statements of the open bodies up to this depth, and of breakpoints."""
        methods = [self.outline.method_at(frame.place) for frame in self.stack() if frame.depth <= depth]
        places = [place for method in methods if method for place in self.outline.places_in(method)]
        return sorted(set(places) | set(self.break_places))

    def _near_before(self, position: int, fits: Callable[[Point], bool]) -> Optional[Point]:
        """The last point before the position that fits, if one window has it."""
        count = min(position, self._window(position))
        near = [point for point in self.run.points(position - count, count) if fits(point)]
        return near[-1] if near else None

    def _window(self, position: int) -> int:
        """How many points to read at once."""
        return 64 if position < 64 else self.run.affordable(WINDOW_SECONDS, position)

    def _opener_by_sites(self, position: int, depth: int) -> Optional[Point]:
        """The opener, found among the calls that name the method: for calls that were opened long before."""
        method = self.outline.method_at(self.run.point(position).place)
        sites = self.outline.call_sites(method.name) if method else []
        for _ in range(MOST_ROUNDS):
            hits = [at for at in self.run.seek_all(position, sites, FAR, back=True) if at.place in sites]
            if not hits:
                return None
            nearest = max(hits, key=position_of)
            if nearest.depth == depth - 1:
                return nearest
            position = nearest.position
        return None

    def _watch(self, path: str, back: bool) -> Stop:
        """On or back to where the value changes; a variable is watched as long as its call is open."""
        cell, watched = self._watched(path, back)
        stop = self._stop_of_change(cell, watched, back)
        if stop is not None:
            return stop
        last, lines = self.position, lines_of(cell)
        while True:
            count = min(256, self.run.affordable(WINDOW_SECONDS, last) // 3 + 1)
            first, count = (max(0, last - count), min(count, last)) if back else (last + 1, count)
            window = self.run.looks(first, count, lines) if lines else self.run.states(first, count)
            for moment in reversed(window) if back else window:
                changed = watched(moment)
                if changed:
                    return self._changed(moment.point, changed)
            if not window or (back and first == 0):
                return self._stand(self.run.point(0), 'start') if back else self._stand(self.run.end(), 'end', FAR)
            last = first if back else window[-1].point.position
            self.notify(f'looked {"back" if back else "up"} to position {last}')

    def _changed(self, point: Point, detail: str) -> Stop:
        return self._stand(point, 'change')._replace(reason='change', detail=detail)

    def _stop_of_change(self, cell: str, watched: Callable[[Moment], str], back: bool) -> Optional[Stop]:
        """The stop at a change that a session finds, of a variable or of a cell of an object; None if it was not asked, or what it
        found is another's."""
        lines = lines_of(cell)
        point = self.run.change(self.position, cell, back) if lines else None
        if point is None or point.position == self.position:
            return None
        looked = self.run.looks(point.position, 1, lines)
        changed = watched(looked[0]) if looked else ''
        if changed:
            return self._changed(point, changed)
        if back and point.position == 0:
            return self._stand(point, 'start')
        is_last = self.run.last is not None and point.position == self.run.last.position
        return self._stand(self.run.end(), 'end', FAR) if is_last and not back else None

    def _watched(self, path: str, back: bool) -> Tuple[str, Callable[[Moment], str]]:
        """What is watched, with the number of its object if it is a field of the current one. The second result says of a moment, in a
        sentence, how the value differs from what it is here, or ''."""
        here, depth = self.value(path), self.point.depth
        number, named = self._owner(path), path
        if number is not None:
            path = f'#{number}.{path}'

        def changed(moment: Moment) -> str:
            if number is None and not path.startswith('#'):
                if moment.point.depth is None or moment.point.depth < depth:
                    return f'the call that has {path} {"begins here" if back else "has ended"}'
                if moment.point.depth > depth:
                    return ''
            value = value_of(moment, path)
            if value == here:
                return ''
            old, new = (value, here) if back else (here, value)
            return f'{"this statement changes" if back else "changed:"} {named}: {old or "none"} -> {new or "none"}'
        return path, changed

    def _owner(self, path: str) -> Optional[int]:
        """The number of the current object where the path begins with one of its fields."""
        name = path.split('.')[0].split('[')[0]
        frames = self.stack()
        number = frames[0].number if frames else 1
        thing = self.moment.objects.get(number) if number else None
        fields = [label for label, _ in thing.cells] if thing else []
        names = [each for each, _ in self.moment.variables]
        return number if name in fields and names.count(name) == 1 else None


def position_of(point: Point) -> int:
    return point.position
