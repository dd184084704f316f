"""`rpp test F ..`: checks programs by what their comments expect, or by what an exercise expects of them.

A submission is only read. It is copied into a new folder, under a name that it did not choose, before the program sees it. The
program runs under limits (confined.py)."""
import concurrent.futures
import csv
import io
import json
import os
import stat
import sys
import textwrap
import time
from typing import Any, Dict, List, NamedTuple, Optional

from .confined import EACH_SECONDS, Confined
from .expectations import BadExpectation, Expectations
from .json_values import JSON_VERSION
from .judging import Judge, Verdict, cleaned
from .judging_assembly import AssemblyJudge
from .messages import placed
from .options import SOURCES, Parser, Unfit, refuse_sources
from .program import OverSource, Program, keep_apart
from .reading import meant_by, readable, shown
from .screen import columns, say

MOST_BYTES = 262_144
WHOLE_SECONDS = 30.0
GAP = '  '
# The columns that the table leaves for what is wrong, or else this is in a line of its own.
LEAST_WHY = 24
COLUMNS = ('submission', 'exercise', 'verdict', 'held', 'expected', 'seconds', 'why')
TOLD = {'right': 'all expectations hold', 'wrong': 'not all expectations hold', 'open': 'answers are still open',
        'refused': 'the text is refused', 'fault': 'a run stopped with a fault', 'endless': 'a run did not end',
        'late': 'a run took too long', 'unreadable': 'it cannot be checked', 'none': 'it expects nothing'}


class Trouble(Exception):
    """A file that cannot be checked; the text says why."""


class Row(NamedTuple):
    """What became of a submission."""
    path: str
    exercise: str
    verdict: Verdict
    expected: int
    seconds: float

    @property
    def name(self) -> str:
        return cleaned([os.fsencode(shown(self.path)).decode('utf-8', 'replace')])[0]

    @property
    def cells(self) -> List[str]:
        return [self.name, self.exercise, self.verdict.kind, str(self.verdict.held), str(self.expected), f'{self.seconds:.1f}',
                self.verdict.first_line]

    @property
    def plain(self) -> Dict[str, Any]:
        """All of it as plain data."""
        findings = [{'line': each.line, 'expected': each.text, 'held': each.held, 'why': each.why} for each in self.verdict.findings]
        return {**dict(zip(COLUMNS, self.cells)), 'held': self.verdict.held, 'expected': self.expected,
                'seconds': round(self.seconds, 1), 'lines': self.verdict.lines, 'findings': findings}


class Grading(NamedTuple):
    """How texts are checked: by which exercise, and in what time."""
    by: Optional[str]
    seconds: float
    each: float


# ---- reading


def read_plain(path: str, is_named: bool) -> bytes:
    """The bytes of a file of a submission: a plain file and no link, of at most 256 KiB, so that reading it has an end. A file
    that the caller named may be a link."""
    try:
        found = os.stat(path) if is_named else os.lstat(path)
        if not stat.S_ISREG(found.st_mode):
            raise Trouble('it is no plain file')
        with open(os.open(path, os.O_RDONLY | os.O_NONBLOCK | (0 if is_named else os.O_NOFOLLOW)), 'rb') as file:
            content = file.read(MOST_BYTES + 1)
    except OSError as wrong:
        raise Trouble(f'it cannot be read: {wrong.strerror}{meant_by(path)}') from None
    if len(content) > MOST_BYTES:
        raise Trouble('it is longer than 256 KiB')
    return content


def texts_below(folder: str) -> List[str]:
    """The sources and assembly texts in a folder and those below it; links to folders are not followed."""
    found = [os.path.join(above, name) for above, _, names in os.walk(folder) for name in names]
    return sorted(path for path in found if path.endswith(SOURCES))


def exercise_of(path: str, by: Optional[str]) -> Optional[str]:
    """The file whose expectations count: the exercise, or the one of the same name in a folder of exercises."""
    if by is None or not os.path.isdir(by):
        return by
    found = os.path.join(by, os.path.basename(path))
    if not os.path.isfile(found):
        raise Trouble(f'there is no exercise of its name in {by}')
    return found


# ---- checking


def judged(path: str, is_named: bool, grading: Grading) -> Row:
    """Checks one file."""
    begin = time.monotonic()
    exercise, expected = '', 0
    try:
        by = exercise_of(path, grading.by)
        exercise = os.path.basename(by) if by else ''
        verdict, expected = verdict_on(path, by, read_plain(path, is_named), grading)
    except (Trouble, BadExpectation) as wrong:
        verdict = Verdict('unreadable', [], cleaned([placed(str(wrong))]))
    except Exception as wrong:  # pylint: disable=broad-except
        # (whatever a text of a stranger does to this program, the others still get their verdicts)
        verdict = Verdict('unreadable', [], cleaned([f'it could not be checked: {type(wrong).__name__} {wrong}']))
    return Row(path, exercise, verdict, expected, time.monotonic() - begin)


def verdict_on(path: str, by: Optional[str], content: bytes, grading: Grading):
    """The verdict on a text, and how many expectations there are."""
    assembly = path.endswith('.pisa')
    expected = Expectations.read(content, assembly) if by is None else None
    if by is not None:
        exercise = read_plain(by, True)
        expected = Expectations.read(exercise, assembly)
        if expected.is_open:
            # (a question is of the exercise's own program; only the answers are the submission's)
            expected, content = expected.with_claims(Expectations.read(content, assembly)), exercise
    if not expected:
        raise Trouble('it has no comment `//?` with an expectation; see `rpp test --help`')
    program = Confined.found()
    program.each = grading.each
    program.begin(grading.seconds)
    with program.folder() as folder:
        judge = (AssemblyJudge if assembly else Judge)(program, folder, shown(path), content, expected)
        return judge.verdict(), len(expected.cases) + len(expected.rules)


def all_judged(paths: List[str], named: List[str], grading: Grading, jobs: int) -> List[Row]:
    """All files, some at a time, in their order."""
    with concurrent.futures.ThreadPoolExecutor(max_workers=jobs) as pool:
        rows = []
        for row in pool.map(lambda path: judged(path, path in named, grading), paths):
            rows.append(row)
            if sys.stderr.isatty():
                print(f'\r{len(rows)} of {len(paths)}', end='', file=sys.stderr, flush=True)
        if sys.stderr.isatty():
            print(file=sys.stderr)
        return rows


# ---- printing


def told(row: Row) -> List[str]:
    """All that is said of one file."""
    lines = [f'{row.name}: {TOLD[row.verdict.kind]}' + (f', {row.verdict.held} of {row.expected}' if row.expected else '')]
    for finding in row.verdict.findings:
        lines.append(f'  {"holds  " if finding.held else "FAILS  "}{finding.text}')
        lines += [f'         {line}' for line in finding.why]
    return lines + [f'  {line}' for line in row.verdict.lines]


def table(rows: List[Row], most: Optional[int] = None) -> List[str]:
    """A line for each file, in columns, and the sums. On a terminal that is too narrow, the names are in lines of their own."""
    cells = [[row.name, row.verdict.kind, f'{row.verdict.held} of {row.expected}', row.verdict.first_line] for row in rows]
    widths = [max(len(row[at]) for row in cells) for at in range(3)]
    if most is not None and sum(widths) + 3 * len(GAP) + LEAST_WHY > most:
        lines = [line for row in cells for line in [row[0], '  ' + GAP.join(each for each in row[1:] if each)]]
    else:
        lines = [line for row in cells for line in table_row(row, widths, most)]
    counts = {kind: sum(row.verdict.kind == kind for row in rows) for kind in TOLD}
    return lines + [', '.join(f'{count} {kind}' for kind, count in counts.items() if count)]


def table_row(row: List[str], widths: List[int], most: Optional[int]) -> List[str]:
    """A line of the table; on a terminal the last cell is in as many rows as it needs."""
    front = GAP.join(text.ljust(width) for text, width in zip(row, widths)) + GAP
    if most is None:
        return [(front + row[3]).rstrip()[:200]]
    rows = textwrap.wrap(row[3], most - len(front)) or ['']
    return [(front + rows[0]).rstrip(), *(' ' * len(front) + each for each in rows[1:])]


def as_csv(rows: List[Row]) -> str:
    """The table for a spreadsheet, which takes no cell as a formula."""
    out = io.StringIO()
    writer = csv.writer(out, lineterminator='\n')
    writer.writerow(COLUMNS)
    for row in rows:
        writer.writerow([f"'{cell}" if cell[:1] in ('=', '+', '-', '@') else cell for cell in row.cells])
    return out.getvalue()


def write_out(out: str, text: str, read: List[str]) -> None:
    """Writes into a file, or with `-` to standard output."""
    if out == '-':
        print(text, end='')
        return
    keep_apart(out, *read)
    with open(out, 'w', encoding='utf-8') as file:
        file.write(text)


# ---- the command


def parser() -> Parser:
    made = Parser(prog='rpp test', description='Checks programs by what their comments `//?` expect. For folders it prints a table.',
                  epilog='docs/reference/testing.md has the forms of expectations. The status is 0 if all hold, and 1 otherwise.')
    made.add_argument('paths', metavar='F', nargs='+', type=readable, help='sources, assembly texts, or folders with them; - is standard input')
    made.add_argument('--by', metavar='EXERCISE', help='the file whose expectations count, or a folder of files of the same names')
    made.add_argument('--seconds', type=float, default=WHOLE_SECONDS, metavar='S', help=f'the most time for a file ({WHOLE_SECONDS:.0f})')
    made.add_argument('--each', type=float, default=EACH_SECONDS, metavar='S', help=f'the most processor time for a call of the program ({EACH_SECONDS:.0f})')
    made.add_argument('--jobs', type=int, default=min(4, os.cpu_count() or 1), metavar='N', help='how many files are checked at a time')
    made.add_argument('--csv', metavar='OUT', help='write the table; `-` is standard output')
    made.add_argument('--json', metavar='OUT', help='write the table with all findings; `-` is standard output')
    made.add_argument('--table', action='store_true', help='print a line for each file, also if files are named')
    return made


def main(words: List[str]) -> int:
    given = parser().parse_args(words)
    refuse_sources(given.csv, given.json)
    if given.jobs < 1 or given.seconds <= 0 or given.each <= 0:
        raise Unfit('--jobs is 1 or more, --seconds and --each are above 0')
    named = [path for path in given.paths if not os.path.isdir(path)]
    paths = [each for path in given.paths for each in ([path] if path in named else texts_below(path))]
    if not paths:
        raise Unfit(f'{", ".join(given.paths)}: there is no file whose name ends with .rpp or .pisa')
    Program.found()
    rows = all_judged(paths, named, Grading(given.by, given.seconds, given.each), given.jobs)
    if '-' not in (given.csv, given.json):
        as_table = given.table or len(named) < len(paths)
        say(table(rows, columns()) if as_table else [line for row in rows for line in told(row)])
    try:
        if given.csv:
            write_out(given.csv, as_csv(rows), paths)
        if given.json:
            write_out(given.json, json.dumps({'version': JSON_VERSION, 'rows': [row.plain for row in rows]}, indent=1) + '\n', paths)
    except OverSource as wrong:
        raise Unfit(str(wrong)) from None
    return 0 if all(row.verdict.kind == 'right' for row in rows) else 1
