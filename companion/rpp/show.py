"""What the prompt shows: a stop with its source line, the stack, objects, listings. Only texts, with no terminal."""
from typing import List, Optional

from .changes import PATH, changes, computed, no_value, thing_of, value_of
from .explain import of_fault
from .fault_slots import Where
from .faults import Failing
from .formulas import BadFormula, Formula
from .outline import Outline
from .reading import title
from .report import caret_lines, message_lines, test_lines
from .screen import columns, cut, paint
from .session import Breakpoint, Frame, Session, Stop
from .trace import HeapState, Moment, Thing

ENDINGS = {
    'start': 'this is the start',
    'end': 'this is the end of the run',
    'interrupted': 'stopped by ^C, and nothing has moved',
    'memory': 'the program ended with status 7, out of memory, at a move beyond this position',
}
MOST_FRAMES = 20
MOST_CHANGES = 30
MOST_NEAR = 5


def place_line(session: Session, frame: Optional[Frame]) -> str:
    """`[7] list.rpp:14:13 in Node.append of #3, uncalled`."""
    point = session.point
    if point.at_end or frame is None:
        return f'[{point.position}] the end'
    return frame_line(session, frame)


def frame_line(session: Session, frame: Frame) -> str:
    return f'[{frame.position}] {paint("where", session.run.text.spelled(title(session.run.source), frame.place))} {framed(frame)}'


def frame_lines(session: Session, frame: Frame) -> List[str]:
    """A frame that was chosen, its source line, and of which moment its variables are."""
    lines = [frame_line(session, frame)] + caret_lines(session.run.text, frame.place)
    return lines if frame.position == session.position else lines + ['its variables are those of the moment when this call began']


def framed(frame: Frame) -> str:
    """The body of a frame: its method, its object, its depth where it is not `main`, and its direction."""
    of = f' of #{frame.number}' if frame.number not in (None, 1) else ''
    deep = f', depth {frame.depth}' if frame.depth > 1 else ''
    return f'in {frame.method}{of}{deep}{", uncalled" if frame.uncalled else ""}'


def stop_lines(session: Session, stop: Stop, before: Optional[Moment], failing: Optional[Failing] = None) -> List[str]:
    """Where the session is, its source line, why it stopped, and what changed on the way. `failing` is what fails, at a fault."""
    frames = session.stack()
    frame = frames[0] if frames else None
    lines = [place_line(session, frame)]
    if frame:
        lines += caret_lines(session.run.text, stop.point.place)
    lines += fault_lines(session, stop, failing) if failing is not None else reason_lines(session, stop)
    if before is not None and before.point.position != stop.point.position:
        told = changes(before, session.moment, frame.number if frame else 1)
        lines += [f'  {paint("changed", each)}' for each in told[:MOST_CHANGES]]
        if len(told) > MOST_CHANGES:
            lines.append(f'  and {len(told) - MOST_CHANGES} more changes')
    return lines


def fault_lines(session: Session, stop: Stop, failing: Failing) -> List[str]:
    """The fault after this statement, and where it came if that is at the end of another one."""
    number, name = stop.point.fault
    lines = [f'{paint("wrong", f"fault {number} {name}")}: the run goes no further']
    place, test = failing.place, failing.test
    file, text = title(session.run.source), session.run.text
    if place != stop.point.place:
        lines[0] += ', and stops within this statement:'
        lines += [paint('where', text.spelled(file, place))] + caret_lines(text, place)
    lines += test_lines(file, text, test) if test is not None else []
    message = of_fault(number, fault_where(session, failing))
    return lines + message_lines(message)


def fault_where(session: Session, failing: Failing) -> Where:
    """The statement that fails, with what was there before it, and the direction in which its body runs."""
    run, test = session.run, failing.test
    return Where(run.text.content, failing.place, session.moment, failing.is_back, *run.bounds, test and test.moment, *failing.index)


def reason_lines(session: Session, stop: Stop) -> List[str]:
    if stop.reason == 'break' and not stop.by:
        return []
    if stop.reason == 'break':
        return [f'breakpoint {stop.by}{": " * bool(stop.detail)}{stop.detail}']
    if stop.reason == 'change':
        return [stop.detail]
    return [ENDINGS[stop.reason]] if stop.reason in ENDINGS else []


def breakpoint_title(each: Breakpoint) -> str:
    at = f'in {each.method}' if each.method else f'at line {each.line}'
    return f'breakpoint {each.number} {at}' + (f' if {each.condition.text}' if each.condition else '')


def no_method(outline: Outline, name: str) -> str:
    """What is said of a breakpoint in a method that is not there."""
    near = [f'`{each}`' for each in outline.methods_near(name)[:MOST_NEAR]]
    if not near:
        return f'there is no method {name} with a statement; break takes a line, or a method as Node.append or append'
    meant = ' or '.join(filter(None, [', '.join(near[:-1]), near[-1]]))
    return f'there is no method {name}; did you mean {meant}?'


def stack_lines(session: Session) -> List[str]:
    """The active calls, the innermost first."""
    frames = session.stack()
    if not frames:
        return ['no call is open']
    file = title(session.run.source)
    lines = [f'{frame.depth:4d}  {framed_short(frame)} at {session.run.text.spelled(file, frame.place)}' for frame in frames]
    if frames[-1].depth > 1:
        lines.append('      the calls around it began too long ago to be read')
    if len(lines) > MOST_FRAMES:
        lines[MOST_FRAMES - 3:-2] = [f'      .. {len(lines) - MOST_FRAMES + 1} calls more']
    return lines


def framed_short(frame: Frame) -> str:
    of = f' of #{frame.number}' if frame.number is not None else ''
    return f'{frame.method}{of}{", uncalled" if frame.uncalled else ""}'


def variable_lines(moment: Moment) -> List[str]:
    return [f'{name} = {value}' for name, value in moment.variables] or ['there are no variables here']


def value_lines(moment: Moment, text: str) -> List[str]:
    """A value by its path, and the object that it refers to; or the value of an expression."""
    path = text.replace(' ', '')
    if not PATH.match(path):
        return expression_lines(moment, text)
    value = value_of(moment, path)
    if value is None:
        return [no_value(moment, path)]
    lines = [] if path.startswith('#') and path == value else [f'{path} = {value}']
    thing = thing_of(moment, value)
    return lines + (thing_lines(thing) if thing else [] if lines else [f'there is no object {path} here'])


def expression_lines(moment: Moment, text: str) -> List[str]:
    try:
        value = computed(moment, Formula(text))
    except BadFormula as why:
        return [f'{text}: {why}']
    thing = thing_of(moment, value) if isinstance(value, str) else None
    return [f'{text} = {value}'] + (thing_lines(thing) if thing else [])


def display_line(moment: Moment, number: int, formula: Formula) -> str:
    """What is shown at each stop."""
    try:
        return f'{number}: {formula.text} = {computed(moment, formula)}'
    except BadFormula as why:
        return f'{number}: {formula.text}: {why}'


def thing_lines(thing: Thing) -> List[str]:
    """An object as `cells` prints it."""
    return [f'#{thing.number} {thing.head} count {thing.count}'] + [f'  {label} = {value}' for label, value in thing.cells]


def object_lines(moment: Moment) -> List[str]:
    return [line for number in sorted(moment.objects) for line in thing_lines(moment.objects[number])]


def heap_lines(state: HeapState) -> List[str]:
    """The heap in words: its size, what lives, and its free blocks from the smallest."""
    size, free = 1 << state.order, sum(count << order for order, count in state.free)
    blocks = [f'{count:,} of {1 << order:,}' for order, count in state.free]
    return [f'heap of order {state.order}: {size:,} words', f'living objects: {state.living:,}, with main; the next one is #{state.next}',
            f'free blocks, in words: {", ".join(blocks)}; {free:,} in all' if blocks else 'no block is free']


def listing_lines(session: Session, line: int, around: int = 5) -> List[str]:
    """Lines of the source: the current one with `>`, those with breakpoints with `*`."""
    text, point = session.run.text, session.point
    here = text.place(point.place).line if not point.at_end else 0
    breaks = {each.line for each in session.breakpoints}
    lines = []
    for number in range(max(1, line - around), min(text.line_count, line + around) + 1):
        mark = ('>' if number == here else ' ') + ('*' if number in breaks else ' ')
        lines.append(shortened(f'{mark}{number:5d} | {text.line(number)}'))
    return lines


def shortened(line: str) -> str:
    """A line with a source line at its end, cut to the terminal where there is one."""
    most = columns()
    return line.rstrip() if most is None else cut(line.expandtabs().rstrip(), most)


def history_lines(session: Session, count: int) -> List[str]:
    """The statements that led here, the last one below; deeper calls are indented further."""
    first = max(0, session.position - count)
    file = title(session.run.source)
    lines = []
    for point in session.run.points(first, session.position - first):
        place = session.run.text.place(point.place)
        source = '  ' * min(20, point.depth - 1) + session.run.text.line(place.line).strip()
        lines.append(shortened(f'[{point.position}] {file}:{place.line}:{place.column} {source}'))
    return lines or ['nothing was done before']
