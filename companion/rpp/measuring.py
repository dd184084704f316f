"""`rpp stat F [NAME=RANGE ..]`: what the runs of a program take over a range of inputs.

Steps come from `go`, the cost from `explain`, instructions from `compile`, and statements, active calls and objects from `trace`.
An object's block has the least power of two of words that is enough, as docs/reference/language.md says."""
import csv
import io
import itertools
import json
import re
from typing import Any, Dict, List, NamedTuple, Optional, Tuple

from .film import Directions
from .heap_words import block_words, garbage_words
from .json_values import JSON_VERSION
from .messages import Told, read_answer
from .options import DEPTH, HEAP, STEPS, MOST_DEPTH, MOST_HEAP, Parser, Unfit, add_source, refuse_sources
from .outline import Outline
from .page import tell_refused
from .plot import Panel, Series, plot
from .program import Program, keep_apart
from .reading import title
from .results import Result
from .screen import columns, say
from .tokens import NAME
from .trace import MOST_CELLS, Refused, SourceRun

RANGE = re.compile(rf'^({NAME})=(-?\d+(?:\.\.-?\d+(?::\d+)?)?(?:,-?\d+)*)$')
MOST_RUNS = 2000
MOST_POINTS = 100_000
FRAME_WORDS = 512
EXPLAINED_DEPTH = 32
GAP = '  '
MEASURES = {
    'steps': ('steps', 'of the machine, by `go`'),
    'cost': ('cost', 'units of the language, by `explain`'),
    'ratio': ('steps a unit of cost', 'steps divided by cost'),
    'statements': ('statements', 'that began, by `trace`'),
    'heap': ('heap', 'words of blocks in use at most'),
    'stack': ('stack', f'words of frames in use at most, {FRAME_WORDS} a call'),
    'garbage': ('garbage', 'words neither result nor as at the start'),
    'code': ('code', 'instructions of the compiled program'),
}


class Measured(NamedTuple):
    """What one run took; what is not known is None, and `end` says how the run ended."""
    inputs: Dict[str, int]
    end: str
    values: Dict[str, Optional[float]]

    @property
    def plain(self) -> Dict[str, Any]:
        return {**self.inputs, 'end': self.end, **self.values}


class Measuring(NamedTuple):
    """The program that is measured, under which bounds, and which of its fields are results."""
    program: Program
    source: str
    heap: int
    depth: int
    steps: int
    results: Optional[List[str]]


# ---- inputs


def numbers_of(text: str) -> List[int]:
    """The numbers of `5`, `1..20`, `0..100:10` or `1,2,4,8`."""
    if '..' not in text:
        return [int(each) for each in text.split(',')]
    first, rest = text.split('..', 1)
    last, _, step = rest.partition(':')
    if not re.match(r'^-?\d+$', last) or step == '0':
        raise Unfit(f'{text}: a range is FIRST..LAST or FIRST..LAST:STEP')
    return list(range(int(first), int(last) + 1, int(step or 1)))


def inputs_of(words: List[str]) -> Tuple[List[str], List[Dict[str, int]]]:
    """The names whose numbers differ, and all inputs: each number with each of the others."""
    ranges: Dict[str, List[int]] = {}
    for given in words:
        found = RANGE.match(given)
        if not found or found[1] in ranges:
            raise Unfit(f'{given}: an input is NAME=5, NAME=1..20, NAME=0..100:10 or NAME=1,2,4, and each name comes once')
        ranges[found[1]] = numbers_of(found[2])
    rows = [dict(zip(ranges, numbers)) for numbers in itertools.product(*ranges.values())]
    if not 0 < len(rows) <= MOST_RUNS:
        raise Unfit(f'these are {len(rows)} runs; 1 to {MOST_RUNS} can be measured')
    return [name for name, numbers in ranges.items() if len(numbers) > 1], rows


# ---- measuring


def measured(measuring: Measuring, inputs: Dict[str, int], code: int) -> Measured:
    """Measures one run."""
    program, source = measuring.program, measuring.source
    with program.folder() as folder:
        lines = ''.join(f'{name} = {number}\n' for name, number in inputs.items())
        words = [folder.write('input', lines)] if lines else []
        told = answered(program.call('go', source, measuring.heap, measuring.depth, measuring.steps, *words))
        values: Dict[str, Optional[float]] = dict.fromkeys(MEASURES)
        values.update(steps=told.number_behind('steps'), code=code)
        if told.kind == 'done':
            cost = answered(program.call('explain', source, measuring.heap, EXPLAINED_DEPTH, measuring.steps, *words))
            values['cost'] = cost.number_behind('cost') if cost.kind == 'done' else None
            values['ratio'] = round(values['steps'] / values['cost'], 3) if values['cost'] else None
            values['garbage'] = garbage_words(Result.read(told.output), inputs, measuring.results)
        if told.kind in ('done', 'fault'):
            with SourceRun(program, source, measuring.heap, measuring.depth, *words) as run:
                values.update(in_use(run, program))
    end = 'done' if told.kind == 'done' else told.first_line
    return Measured(inputs, end, values)


def answered(answer) -> Told:
    told = read_answer(answer)
    if told.kind not in ('done', 'fault', 'bound', 'memory'):
        raise Refused(told)
    return told


def in_use(run: SourceRun, program: Program) -> Dict[str, Optional[float]]:
    """The statements of a run, and the words of heap and stack in use at most; nothing of a run that is too long to look at."""
    try:
        last = run.point(MOST_POINTS + 1).position
        if last > MOST_POINTS:
            return {}
        points = run.points(0, last + 1)
        depth = max([point.depth for point in points if point.depth] or [0])
        heap = max([block_words(run_things(run, position)) for position in fullest(run, points, program)] or [0])
    except Refused:
        return {}
    return {'statements': points[-1].position, 'heap': heap, 'stack': FRAME_WORDS * depth}


def fullest(run: SourceRun, points, program: Program) -> List[int]:
    """The positions at which most can be in use: before a block is given back, where one was taken since, and the last one.
    A body that runs backward deletes what is written `new`; a `construct` does both."""
    outline = Outline.made(program, run.text)
    words = dict(outline.tokens)
    directions, found, is_fuller = Directions(outline), [points[-1].position], False
    for point in points:
        word, uncalled = words.get(point.place), directions.uncalled(point.place, point.depth)
        gives = word == 'construct' or word == ('new' if uncalled else 'delete')
        takes = word == 'construct' or word == ('delete' if uncalled else 'new')
        if gives and is_fuller:
            found.append(point.position)
        is_fuller = takes or is_fuller and not gives
    return found


def run_things(run: SourceRun, position: int):
    """The objects that are live at a position, as `cells` shows them. Each `new` before it gave one name."""
    lines = [f'step {position}', 'regs'] + [f'cells {first} {MOST_CELLS}' for first in range(1, position + 3, MOST_CELLS)]
    return [thing for thing in run.looked(lines).objects.values() if thing.number != 1]


def code_of(program: Program, source: str) -> int:
    """How many instructions the program is compiled to."""
    with program.folder() as folder:
        told = read_answer(program.call('compile', source, folder.name('image')))
        found = re.match(r'compiled (\d+) cells', told.output)
        if not found:
            raise Refused(told)
        return int(found[1])


# ---- printing


def cell(value: Optional[float]) -> str:
    return '-' if value is None else f'{value:g}' if isinstance(value, float) else str(value)


def table(rows: List[Measured], most: Optional[int] = None) -> List[str]:
    """The rows in columns. If the terminal is too narrow for all, several tables one below the other, each with the inputs in front."""
    heads = [*rows[0].inputs, *MEASURES, 'end']
    lines = [heads] + [[cell(row.plain[head]) if head != 'end' else row.end for head in heads] for row in rows]
    widths = [max(len(line[at]) for line in lines) for at in range(len(heads))]
    found: List[str] = []
    for part in parts(widths, len(rows[0].inputs), most):
        found += [''] * bool(found) + [aligned(line, part, widths) for line in lines]
    return found


def parts(widths: List[int], inputs: int, most: Optional[int]) -> List[List[int]]:
    """Which columns each table has: first those of the inputs, then as many others as fit, but one at least."""
    front = list(range(inputs))
    found = [front + [inputs]]
    for at in range(inputs + 1, len(widths)):
        if most is None or sum(widths[each] + len(GAP) for each in found[-1] + [at]) - len(GAP) <= most:
            found[-1].append(at)
        else:
            found.append(front + [at])
    return found


def aligned(line: List[str], part: List[int], widths: List[int]) -> str:
    """Some cells of a line: numbers to the right, and how the run ended to the left."""
    return GAP.join(line[at] if at == len(line) - 1 else line[at].rjust(widths[at]) for at in part)


def as_csv(rows: List[Measured]) -> str:
    out = io.StringIO()
    writer = csv.DictWriter(out, [*rows[0].inputs, *MEASURES, 'end'], lineterminator='\n')
    writer.writeheader()
    writer.writerows({name: '' if value is None else value for name, value in row.plain.items()} for row in rows)
    return out.getvalue()


def as_plot(name: str, ranging: List[str], rows: List[Measured], measures: List[str]) -> str:
    """A panel for each measure over the first input that differs, and a line for each number of the others."""
    if not ranging:
        raise Unfit('a plot needs an input that ranges, as n=1..20')
    axis, others = ranging[0], ranging[1:]
    panels = []
    for measure in measures:
        series: Dict[str, List[Tuple[float, float]]] = {}
        for row in rows:
            label = ', '.join(f'{other} = {row.inputs[other]}' for other in others)
            points = series.setdefault(label, [])
            if row.values[measure] is not None:
                points.append((row.inputs[axis], row.values[measure]))
        panels.append(Panel(*MEASURES[measure], [Series(label, sorted(points)) for label, points in series.items() if points]))
    return plot(name, axis, panels)


def write(out: str, text: str, source: str) -> None:
    if out == '-':
        print(text, end='')
        return
    keep_apart(out, source)
    with open(out, 'w', encoding='utf-8') as file:
        file.write(text)


# ---- the command


def parser() -> Parser:
    made = Parser(prog='rpp stat', description='Measures the runs of a program over a range of inputs.',
                  epilog=f'Measures: {", ".join(MEASURES)}. docs/reference/testing.md says what each of them is.')
    add_source(made)
    made.add_argument('ranges', metavar='NAME=RANGE', nargs='*', help='an input: 5, 1..20, 0..100:10 or 1,2,4')
    made.add_argument('--results', metavar='NAMES', help='the fields that are results, joined by commas; the others are garbage')
    made.add_argument('--heap', type=int, default=HEAP, metavar='H', help=f'1 to {MOST_HEAP} (default {HEAP})')
    made.add_argument('--depth', type=int, default=DEPTH, metavar='D', help=f'1 to {MOST_DEPTH} (default {DEPTH})')
    made.add_argument('--steps', type=int, default=STEPS, metavar='N', help=f'the most steps of a run (default {STEPS:,})')
    made.add_argument('--measures', metavar='NAMES', help='the measures of the plot, joined by commas (default: all that differ)')
    for word, text in (('--csv', 'the table'), ('--json', 'the table as JSON'), ('--svg', 'a plot')):
        made.add_argument(word, metavar='OUT', help=f'write {text}; `-` is standard output')
    return made


def measures_of(given: Optional[str], rows: List[Measured]) -> List[str]:
    """The measures of a plot: those that are named, or those that are not the same in all rows."""
    if given:
        wrong = [name for name in given.split(',') if name not in MEASURES]
        if wrong:
            raise Unfit(f'{", ".join(wrong)}: the measures are {", ".join(MEASURES)}')
        return given.split(',')
    differ = [name for name in MEASURES if len({row.values[name] for row in rows}) > 1]
    return differ or ['steps']


def main(words: List[str]) -> int:
    given = parser().parse_intermixed_args(words)
    refuse_sources(given.csv, given.json, given.svg)
    program = Program.found()
    ranging, inputs = inputs_of(given.ranges)
    results = given.results.split(',') if given.results else None
    measuring = Measuring(program, given.source, given.heap, given.depth, given.steps, results)
    name = title(given.source)
    try:
        code = code_of(program, given.source)
        rows = [measured(measuring, each, code) for each in inputs]
    except Refused as refused:
        return tell_refused(refused, given.source, list(inputs[0]))
    if '-' not in (given.csv, given.json, given.svg):
        say(table(rows, columns()))
    if given.csv:
        write(given.csv, as_csv(rows), given.source)
    if given.json:
        plain = {'version': JSON_VERSION, 'source': name, 'heap': given.heap, 'depth': given.depth, 'results': results,
                 'rows': [row.plain for row in rows]}
        write(given.json, json.dumps(plain, indent=1) + '\n', given.source)
    if given.svg:
        write(given.svg, as_plot(name, ranging, rows, measures_of(given.measures, rows)), given.source)
    return 0
