"""The test that fails at the end of a statement (of `fi`, a loop, a `local` or a call), with the variables at that moment.

A session says which test it is, what it found, and the variables; `test_of` reads this. Where there is none, `failed_test` finds it.
`trace` ends at the last statement that began, which then is inside the one that fails. So a `skip` is written at both ends of each
block of the failing statement, and `trace` is asked about that text: its last statement is the `skip` next to the test. For a call
whose argument or receiver was changed during it, the block is the body of the method. So the objects at that moment are found too,
which a session does not say.

    # (a SourceRun, the byte of the statement, the fault, whether its body runs backward, and the active calls)
    found = failed_test(run, place, 3, False, session.stack())
    found.title                                   # '`a` is 7 after the block, and must be 5'
    found.moment.variables                        # the variables at the moment of the test
"""
import os
from typing import Dict, List, NamedTuple, Optional, Sequence, Tuple

from .changes import computed
from .formulas import BadFormula, Formula
from .names import Names
from .program import OutOfTime
from .session import Frame
from .slots import Slots, spelled
from .source import Source, Statement, parsed
from .trace import Failure, Moment, Point, Refused, SourceRun, Thing

PROBE = b' skip '
DELOCAL, INDEX, TOUCHED = 3, 9, 15
FULL = {'if': 3, 'from': 3, 'local': 1}
# The words of tests: the form of the statement, and whether the test is at its head.
WORDS = {'if': ('if', True), 'fi': ('if', False), 'from': ('from', True), 'until': ('from', False), 'local': ('local', True),
         'delocal': ('local', False)}
Tokens = Tuple[int, int]


class FailedTest(NamedTuple):
    """A test: its first byte, a sentence on what was found, the variables when it was made, and the byte after it."""
    at: int
    title: str
    moment: Moment
    end: int


class Edge(NamedTuple):
    """An end of a block: where the `skip` is in the text, which block it is, and whether the block ends there."""
    at: int
    block: int
    is_end: bool


def failed_test(run: SourceRun, place: int, fault: int, is_back: bool, frames: Sequence[Frame]) -> Optional[FailedTest]:
    """The test with which the statement at this place fails, if `trace` comes to it; `frames` are the calls that are open at the last
    statement that began."""
    source = parsed(run.text.content)
    here = statement_at(source, place)
    if here is not None and here.form in ('call', 'uncall') and fault == TOUCHED:
        moment = at_end_of_body(run, source, here, is_back)
        return touched(source, here, is_back, frames, moment) if moment else None
    if here is None or here.form not in FULL or len(here.closers) != FULL[here.form]:
        return None
    edges = edges_of(source, here)
    moment, number = probed(run, [each.at for each in edges], fault)
    edge = edges[number] if number is not None else None
    return told(source, here, edge, is_back, moment) if edge is not None and edge.is_end != is_back else None


def statement_at(source: Source, place: int) -> Optional[Statement]:
    return next((each for each in source.statements() if source.tokens[each.first].at == place), None)


def test_of(run: SourceRun, told: Failure, last: Moment, is_back: bool, frames: Sequence[Frame],
            with_objects: bool) -> Optional[FailedTest]:
    """The test that a session says; None if a statement fails as it begins, a loop too. `last` and `frames` are of the last statement that began.
    The objects of the moment are those of the test if that is asked for, or if the values of the test are not said."""
    source = parsed(run.text.content)
    here = statement_at(source, told.statement)
    is_begin = here is not None and here.form == 'from' and (told.statement, told.depth) == (last.point.place, last.point.depth)
    if here is None or told.word == 'statement' or is_begin:
        return None
    objects, number = objects_then(source, told, last, frames), told.fault.number
    # (if the expression of a test fails, the values are those of an element)
    has_value = number <= DELOCAL
    if objects is None and (with_objects or not has_value):
        probe = failed_test(run, told.statement, number, is_back, frames)
        if number == TOUCHED:
            return probe
        objects = probe.moment.objects if probe and probe.moment.variables == told.variables else None
    moment = Moment(Point(last.point.position, told.statement, told.depth), told.variables, objects or {})
    if told.word == 'call':
        return touched(source, here, is_back, frames, moment) if number == TOUCHED else element_told(source, here, told, is_back, moment)
    form, at_head = WORDS.get(told.word, ('', False))
    if here.form != form or len(here.closers) != FULL[form]:
        return None
    tokens = test_tokens(source, here, at_head)
    values = (told.found, told.wanted) if has_value else (None, None)
    title = titled(source, here, block_told(source, here, told, frames), is_back, spelled(source, *tokens), values)
    return FailedTest(source.tokens[tokens[0]].at, title, moment, source.tokens[tokens[1]].end)


def index_told(told: Failure) -> Tuple[str, str]:
    """The index that fails and the length of its array, which a session says as `below L`; else two empty texts."""
    if told.fault.number != INDEX or not told.found or not (told.wanted or '').startswith('below '):
        return '', ''
    return told.found, told.wanted[len('below '):]


def objects_then(source: Source, told: Failure, last: Moment, frames: Sequence[Frame]) -> Optional[Dict[int, Thing]]:
    """The objects at the moment of the test if the last statement cannot have changed any but the current one, whose fields are said; else
    None."""
    here, number = statement_at(source, last.point.place), frames[0].number if frames else None
    mine = last.objects.get(number) if number else None
    if mine is None or last.point.depth != told.depth or here is None or here.form not in ('skip', 'update', 'swap'):
        return None
    if any(each.text == '[' for each in source.tokens[here.first:here.last + 1]):
        return None
    return {**last.objects, number: mine._replace(cells=told.variables[:len(mine.cells)])}


def block_told(source: Source, here: Statement, told: Failure, frames: Sequence[Frame]) -> int:
    """Which block of a statement has ended: the one that has the last statement."""
    inner = next((each.place for each in frames if each.depth == told.depth), told.statement)
    return sum(source.tokens[each].at < inner for each in here.closers[1:len(here.blocks)])


def element_told(source: Source, here: Statement, told: Failure, is_back: bool, moment: Moment) -> Optional[FailedTest]:
    """That an element was filled during a call on it."""
    slots = Slots.over(source, Names(source))
    token, last = here.first + 1, slots.method_named(here)
    if last is None:
        return None
    title = call_title(spelled(source, token, last - 2), told.found, told.wanted, is_back)
    return FailedTest(source.tokens[token].at, title, moment, source.tokens[last - 2].end)


def at_end_of_body(run: SourceRun, source: Source, here: Statement, is_back: bool) -> Optional[Moment]:
    """The moment at which the body of a called method ends, and the call then fails."""
    slots = Slots.over(source, Names(source))
    name = slots.method_named(here)
    if name is None:
        return None
    is_undone = is_back != (here.form == 'uncall')
    bodies = [each.body for each in source.methods() if each.name == slots.word_at(name) and each.body]
    ends = [source.tokens[body[0].first].at if is_undone else source.tokens[body[-1].last].end for body in bodies]
    return probed(run, sorted(ends), TOUCHED)[0]


def touched(source: Source, here: Statement, is_back: bool, frames: Sequence[Frame], moment: Moment) -> Optional[FailedTest]:
    """The first argument or receiver of a call that is a field and no longer 0 or nil, at the moment when the body of the method has
    ended. The variables are the fields of the caller."""
    slots = Slots.over(source, Names(source))
    place, name = source.tokens[here.first].at, slots.method_named(here)
    caller = next((each for each in frames if each.depth == moment.point.depth - 1), None)
    owner = moment.objects.get(caller.number) if caller and caller.number else None
    if owner is None or name is None:
        return None
    cells, arguments = dict(owner.cells), slots.arguments(here)
    changed = [each for each in slots.variables(here) if (each in arguments or each < name) and
               slots.word_at(each + 1) != '[' and cells.get(slots.word_at(each), '0') not in ('0', 'nil')]
    if not changed:
        return None
    then = moment._replace(point=Point(moment.point.position, place, caller.depth), variables=owner.cells)
    value = cells[slots.word_at(changed[0])]
    title = call_title(slots.word_at(changed[0]), value, 'nil' if value.startswith('#') else '0', is_back)
    return FailedTest(source.tokens[changed[0]].at, title, then, source.tokens[changed[0]].end)


def call_title(place: str, value: str, wanted: str, is_back: bool) -> str:
    return f'`{place}` is {value} {"after the call was undone" if is_back else "after the call"}, and must be {wanted}'


def edges_of(source: Source, here: Statement) -> List[Edge]:
    """Both ends of each block, in the order of the text."""
    ends = here.closers[-len(here.blocks):]
    return [edge for number, (block, end) in enumerate(zip(here.blocks, ends)) for edge in (
        Edge(source.tokens[block[0].first].at, number, False), Edge(source.tokens[end].at, number, True))]


def probed(run: SourceRun, places: List[int], fault: int) -> Tuple[Optional[Moment], Optional[int]]:
    """The last moment of the run of the text with a `skip` at each of these places, and which of them it is, if the same fault ends
    it there."""
    text, at = b'', 0
    for place in places:
        text, at = text + run.text.content[at:place] + PROBE, place
    with run.program.folder() as folder:
        path = folder.name(os.path.basename(run.copy))
        with open(path, 'wb') as out:
            out.write(text + run.text.content[at:])
        try:
            with SourceRun(run.program, path, *run.bounds, *run.inputs) as other:
                other.patience = run.patience
                last = other.end()
                starts = [each + number * len(PROBE) + 1 for number, each in enumerate(places)]
                if last.fault is not None and last.fault.number == fault and last.place in starts:
                    return other.moment(last.position), starts.index(last.place)
        except (OutOfTime, Refused):
            pass
    return None, None


def told(source: Source, here: Statement, edge: Edge, is_back: bool, moment: Moment) -> Optional[FailedTest]:
    """The test at this end of the block, and what was found. That is the assertion of `fi` or of `from`, or the final value of a local;
    on the way back it is the test at the other end."""
    # (after its first block, a loop tests whether it ends)
    is_exit = here.form == 'from' and edge.block == 0
    tokens = test_tokens(source, here, is_back == (here.form != 'from' or is_exit))
    test = spelled(source, *tokens)
    value = evaluated(test, moment)
    found = moment.value(here.variable.name) if here.form == 'local' else str(value)
    title = titled(source, here, edge.block, is_back, test, (found, str(value)) if value is not None else (None, None))
    return FailedTest(source.tokens[tokens[0]].at, title, moment, source.tokens[tokens[1]].end)


def titled(source: Source, here: Statement, block: int, is_back: bool, test: str, values: Tuple[Optional[str], Optional[str]]) -> str:
    """What was found after a block, and for a local what must be, where that is known."""
    found, wanted = values
    after = f'after {block_name(source, here, block)}{" was undone" if is_back else ""}'
    if found is None:
        return after
    if here.form == 'local':
        return f'`{here.variable.name}` is {found} {after}, and must be {wanted}'
    return f'`{test}` is {"false" if found == "0" else "true"} {after}'


def test_tokens(source: Source, here: Statement, at_head: bool) -> Tokens:
    """The first and the last token of a test at the head of a statement, or at its end."""
    if here.form == 'local':
        if at_head:
            return here.variable.name_at + 2, here.blocks[0][0].first - 1
        return here.closing_at + 2, here.last
    return (here.first + 1, here.closers[0] - 1) if at_head else (here.closers[-1] + 1, here.last)


def block_name(source: Source, here: Statement, block: int) -> str:
    if here.form == 'if':
        return f'the `{source.tokens[here.closers[block]].text}` block'
    return 'a round' if here.form == 'from' else 'the block'


def evaluated(test: str, moment: Moment):
    """The value of an expression at this moment; None if it is not known."""
    try:
        return computed(moment, Formula(test))
    except BadFormula:
        return None
