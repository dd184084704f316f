"""`rpp run F [NAME=NUMBER ..]`: Runs a source. If it stops, shows where and why."""
import itertools
import json
import sys
from typing import List, NamedTuple, Optional

from .explain import of_fault
from .fault_slots import Where, fault_slots
from .faults import FaultPlaces, find_fault
from .messages import Told, read_answer
from .options import MOST_DEPTH, MOST_HEAP, STEPS, Parser, Unfit, add_run_options, add_source, input_file
from .places import Text
from .program import Interrupted, Program
from .reading import shown, title
from .report import failure_lines, fault_title, input_refused, message_lines, pointed_lines, source_refused, test_lines
from .run_values import run_value
from .screen import say, wrapped
from .session import Frame
from .folding import folded

MOST_CALLERS = 12


class Wanted(NamedTuple):
    """What is to be run."""
    source: str
    heap: int
    depth: int
    steps: int
    inputs: Optional[str]
    back: bool


def parser() -> Parser:
    made = Parser(prog='rpp run', description=__doc__.split(':', 1)[1].strip())
    add_source(made)
    add_run_options(made)
    made.add_argument('--steps', type=int, default=STEPS, metavar='N', help=f'the most steps of the machine (default {STEPS:,})')
    made.add_argument('--back', action='store_true', help='then run backward, and report again')
    made.add_argument('--json', action='store_true', help='print the answer as one JSON value')
    return made


def main(words: List[str]) -> int:
    given = parser().parse_intermixed_args(words)
    if given.steps < 0:
        raise Unfit('--steps is 0 or more')
    program = Program.found()
    with program.folder() as folder:
        inputs = input_file(given, folder)
        wanted = Wanted(given.source, given.heap, given.depth, given.steps, inputs, given.back)
        told = run_up_to(program, wanted)
        if told is None:
            return 130
        if given.json:
            json.dump(run_value(program, wanted, told), sys.stdout, indent=2)
            print()
        else:
            say(said(program, wanted, told))
    return told.status


def run_up_to(program: Program, wanted: Wanted) -> Optional[Told]:
    """The answer of the run, by bounds that double, so that ^C ends it with what is known."""
    bound, known = min(STEPS, wanted.steps), 0
    try:
        while True:
            told = call(program, wanted, bound)
            if told.kind != 'bound' or bound >= wanted.steps:
                return told
            known, bound = bound, min(2 * bound, wanted.steps)
            if sys.stderr.isatty():
                print(f'\r{known:,} steps, and it goes on; ^C ends it', end='', file=sys.stderr, flush=True)
    except (Interrupted, KeyboardInterrupt):
        print(f'\nstopped by ^C: after {known:,} steps it had not ended' if known else '\nstopped by ^C', file=sys.stderr)
        return None
    finally:
        if known and sys.stderr.isatty():
            print(file=sys.stderr)


def call(program: Program, wanted: Wanted, bound: int) -> Told:
    inputs = [wanted.inputs] if wanted.inputs else []
    command = 'turn' if wanted.back else 'go'
    return read_answer(program.call(command, wanted.source, wanted.heap, wanted.depth, bound, *inputs))


def said(program: Program, wanted: Wanted, told: Told) -> List[str]:
    """The lines that report the answer."""
    if told.kind == 'done':
        return folded(told.output.rstrip('\n').split('\n'))
    if told.kind == 'refused' and told.status == 3:
        return source_refused(shown(wanted.source), Text.read(wanted.source), told)
    if told.kind == 'refused':
        return bounds_refused(wanted, told)
    if told.kind == 'fault':
        return faulted(program, wanted, told)
    if told.kind == 'bound':
        return [f'{shown(wanted.source)}: it had not ended after {wanted.steps:,} steps',
                f'A larger bound is --steps {max(1000, 10 * wanted.steps)}; `rpp debug {shown(wanted.source)}` shows what it does.']
    return failure_lines(told, shown(wanted.source), wanted.inputs)


def bounds_refused(wanted: Wanted, told: Told) -> List[str]:
    """What is said where H, D or a line of the input is refused."""
    if told.name == 'HeapOrder':
        return [f'--heap {wanted.heap}: it must be a number from 1 to {MOST_HEAP}; the heap has 2^H words']
    if told.name == 'DeepRange':
        return [f'--depth {wanted.depth}: it must be a number from 1 to {MOST_DEPTH}, the most active calls']
    rows: List[str] = []
    if wanted.inputs:
        with open(wanted.inputs, encoding='utf-8', errors='replace') as file:
            rows = file.read().split('\n')
    return input_refused(wanted.source, told, rows)


def faulted(program: Program, wanted: Wanted, told: Told) -> List[str]:
    """What is said of a fault: where it came, what is wrong, what was there, and a larger bound if that may help."""
    text = Text.read(wanted.source)
    found = find_fault(program, wanted, text)
    lines = place_lines(wanted, text, told, found)
    where = where_of(wanted, text, found)
    message = of_fault(told.number, where)
    lines += message_lines(message) if message.rule else ['No rule of the language has this number: the image is no compiled program.']
    lines += larger_bound(wanted, told, where)
    lines += state_lines(wanted, text, found)
    steps = told.number_behind('steps')
    if steps is not None:
        lines.append(f'The machine made {steps:,} steps.')
    return lines


def where_of(wanted: Wanted, text: Text, found: FaultPlaces) -> Optional[Where]:
    if found.statement is None:
        return None
    return Where(text.content, found.statement, found.moment, found.is_back, wanted.heap, wanted.depth, found.test and found.test.moment,
                 *found.index)


def place_lines(wanted: Wanted, text: Text, told: Told, found: FaultPlaces) -> List[str]:
    title = fault_title(told)
    if found.statement is not None:
        return pointed_lines(shown(wanted.source), text, found.statement, title)
    return [f'{shown(wanted.source)}: {title}', 'Neither `trace` nor `run` reports at which statement.'] + wrapped(found.why)


def larger_bound(wanted: Wanted, told: Told, where: Optional[Where]) -> List[str]:
    """The option that gives more space, if the fault is that there was none."""
    if told.name == 'HeapFull':
        needed = order_of_block(where)
        if needed > MOST_HEAP:
            return [f'No heap is large enough: the largest, --heap {MOST_HEAP}, has {1 << MOST_HEAP:,} words.']
        if wanted.heap >= MOST_HEAP:
            return [f'The run had the largest heap, --heap {MOST_HEAP}.']
        return [f'The run had --heap {wanted.heap}; a larger one is --heap {min(MOST_HEAP, max(needed, wanted.heap + 4))}.']
    if told.name == 'TooDeep':
        if wanted.depth >= MOST_DEPTH:
            return [f'The run had the most calls, --depth {MOST_DEPTH}.']
        return [f'The run had --depth {wanted.depth}; more is --depth {min(MOST_DEPTH, 16 * wanted.depth)}.']
    return []


def order_of_block(where: Optional[Where]) -> int:
    """The order of the block that the heap did not have; 0 if it is not known."""
    words = fault_slots(where, 8).get('words', '') if where else ''
    return (int(words.replace(',', '')) - 1).bit_length() if words else 0


def state_lines(wanted: Wanted, text: Text, found: FaultPlaces) -> List[str]:
    """The test that failed with the variables at that moment; or the last statement that began, with the variables before it; and
    the active calls."""
    if found.test is not None:
        lines = test_lines(shown(wanted.source), text, found.test)
        return lines + caller_lines(wanted, text, [each for each in found.frames if each.depth < found.test.moment.point.depth])
    if found.point is None:
        return wrapped(found.why) if found.statement is not None and found.why else []
    lines = ['The last statement that began, and the variables before it:']
    lines += pointed_lines(shown(wanted.source), text, found.point.place, f'position {found.point.position}')
    lines += [f'  {name} = {value}' for name, value in found.moment.variables]
    return lines + caller_lines(wanted, text, found.frames[1:])


def caller_lines(wanted: Wanted, text: Text, frames: List[Frame]) -> List[str]:
    """The calls around, a line each; equal ones in a row are counted."""
    file = title(wanted.source)
    told = [f'called in {frame.method} at {text.spelled(file, frame.place)}' for frame in frames]
    lines = []
    for line, group in itertools.groupby(told):
        count = len(list(group))
        lines.append(line if count == 1 else f'{line}, {count} times')
    return lines[:MOST_CALLERS] + ([f'and {len(lines) - MOST_CALLERS} calls more'] if len(lines) > MOST_CALLERS else [])
