"""Whether a program does what is expected of it, and if not, why.

    with program.folder() as folder:
        checker = Judge(program, folder, 'product.rpp', content, Expectations.read(content))
        verdict = checker.verdict()

    verdict.kind           # 'right', 'wrong', 'open', 'refused', 'fault', 'endless' or 'late'

    verdict.findings       # Finding(text='a=6 b=7 -> product = 42', why=['product is 35, and must be 42', ..])

A finding holds if its `why` has no line. What a run came to is what `go`, `turn`, `explain`, `wrap` and `trace` print of it. Every line that quotes a text of a stranger
is cleaned of signs that a terminal would obey.
"""
from typing import Callable, List, NamedTuple, Optional

from .arena import CaseRun, open_parts
from .changes import value_of
from .expectations import Case, Expectations, Invariant, Rule
from .formulas import BadFormula
from .messages import Told, read_answer
from .places import Text
from .program import Folder, OutOfTime, Program
from .report import source_refused
from .tokens import Token, cut
from .trace import Moment, Refused

MOST_POINTS = 20_000
CHUNK = 500
MOST_SIGNS = 400


class Finding(NamedTuple):
    """An expectation, and why it does not hold: no line where it does. `kind` is what the whole verdict becomes by it."""
    line: int
    text: str
    why: List[str]
    kind: str = 'wrong'

    @property
    def held(self) -> bool:
        return not self.why


class Verdict(NamedTuple):
    """What became of a text: its kind, the findings in the order of the expectations, and lines that hold for the whole."""
    kind: str
    findings: List[Finding]
    lines: List[str]

    @property
    def held(self) -> int:
        return sum(finding.held for finding in self.findings)

    @property
    def first_line(self) -> str:
        """What made the verdict, in one line."""
        lines = self.lines + [finding.why[0] for finding in self.findings if not finding.held and finding.kind == self.kind]
        return lines[0] if lines else ''


class Judge:
    """Judges one text; `folder` is for the files of its runs."""

    def __init__(self, program: Program, folder: Folder, name: str, content: bytes, expected: Expectations):
        self.program, self.folder, self.name, self.expected = program, folder, name, expected
        self.text = Text(content)
        self.tokens = cut(content)[0]
        self.source = folder.name('source.rpp')
        with open(self.source, 'wb') as out:
            out.write(content)

    def verdict(self) -> Verdict:
        try:
            told = read_answer(self.program.call('check', self.source))
        except OutOfTime:
            return Verdict('late', [], ['it could not be checked in time'])
        if told.kind == 'refused':
            return self.refused(told)
        if told.kind != 'done':
            return Verdict('refused', [], [f'the program gave no verdict: status {told.status} {told.first_line}'.rstrip()])
        findings = [self.rule(rule) for rule in self.expected.rules] + [self.case(case) for case in self.expected.cases]
        return Verdict(kind_of(findings), findings, [])

    def refused(self, told: Told) -> Verdict:
        """The verdict on a refused text: right only where a refusal is what is expected."""
        findings = []
        for case in self.expected.cases:
            wanted = [each for each in case.wanted if each.kind == 'refused']
            why = [] if wanted else ['the text is refused']
            for each in wanted:
                why += open_parts(each) or stop_differs(each.parts, told, self.text.place(told.at).line)
            findings.append(Finding(case.line, case.text, why, 'refused'))
        if findings and all(finding.held for finding in findings):
            return Verdict('right', findings, [])
        return Verdict('refused', findings, cleaned(source_refused(self.name, self.text, told)))

    # ---- rules of the text

    def rule(self, rule: Rule) -> Finding:
        if rule.kind == 'fields':
            return Finding(rule.line, rule.text, self.fields_differ(list(rule.parts)))
        found = self.tokens_of(rule.method) if rule.method else self.tokens
        if found is None:
            return Finding(rule.line, rule.text, [f'there is no method {rule.method}'])
        *number, words = rule.parts
        count = occurrences([token.text for token in found], [token.text for token in cut(words.encode())[0]])
        where = f' in {rule.method}' if rule.method else ''
        if rule.kind == 'uses' and not count:
            return Finding(rule.line, rule.text, [f'`{words}` must be used{where}, and is not'])
        if rule.kind == 'no' and count:
            return Finding(rule.line, rule.text, [f'`{words}` must not be used{where}, and occurs {times(count)}'])
        if rule.kind == 'most' and count > int(number[0]):
            return Finding(rule.line, rule.text, [f'`{words}` must occur at most {times(int(number[0]))}{where}, and occurs {times(count)}'])
        return Finding(rule.line, rule.text, [])

    def tokens_of(self, method: str) -> Optional[List[Token]]:
        """The tokens of the methods of this name, in all classes, after their names; None if there is none."""
        found: Optional[List[Token]] = None
        inside = False
        for before, token in zip([None] + self.tokens, self.tokens):
            if token.text in ('class', 'method'):
                inside = False
            elif before and before.text == 'method' and token.text == method:
                inside, found = True, found or []
            elif inside:
                found.append(token)
        return found

    def fields_differ(self, wanted: List[str]) -> List[str]:
        """Why the main object has not just these fields."""
        with CaseRun(self.program, self.folder, self.source, Case(0, '', {}, {}, False, [])) as run:
            has = [label for label, _ in run.first_moment().objects[1].cells]
        lacking, over = [name for name in wanted if name not in has], [name for name in has if name not in wanted]
        return ([f'the main class has no field {", ".join(lacking)}'] if lacking else []) + (
            [f'the main class must have no field {", ".join(over)}'] if over else [])

    # ---- cases

    def case(self, case: Case) -> Finding:
        """Runs the case, and says why it does not hold."""
        opened = [line for wanted in case.wanted for line in open_parts(wanted)]
        if opened:
            return Finding(case.line, case.text, opened, 'open')
        try:
            with CaseRun(self.program, self.folder, self.source, case) as run:
                why = run.why(self.name) + self.invariants(run)
                kind = {'bound': 'endless', 'fault': 'fault'}.get(run.told.kind, 'wrong')
                return Finding(case.line, case.text, cleaned(why), kind)
        except OutOfTime:
            return Finding(case.line, case.text, ['the run took longer than it was allowed to'], 'late')
        except Refused as refused:
            return Finding(case.line, case.text, [f'its run could not be followed: {refused}'])

    def invariants(self, run: CaseRun) -> List[str]:
        """Why the first formula that does not hold along the run does not."""
        waiting = [] if run.case.inverse or run.told.kind != 'done' else list(self.expected.invariants)
        first = 0
        while waiting and first < MOST_POINTS:
            moments = run.session.run.states(first, CHUNK)
            for moment in moments:
                for invariant in list(waiting):
                    why = self.broken(invariant, moment)
                    if why and invariant.kind != 'sometime':
                        return why
                    if not why and invariant.kind == 'sometime':
                        waiting.remove(invariant)
            if len(moments) < CHUNK:
                return [f'`{each.formula.text}` must hold at some time in the run, and never does' for each in waiting
                        if each.kind == 'sometime'][:1]
            first += CHUNK
        return [f'the run has more than the {MOST_POINTS:,} statements that are looked at for `{each.formula.text}`'
                for each in waiting[:1]]

    def broken(self, invariant: Invariant, moment: Moment) -> List[str]:
        """Why a formula does not hold at a moment; no line where it holds, or is not of this moment."""
        point, is_here = moment.point, invariant.kind == 'here'
        if is_here and point.place != invariant.place:
            return []
        lookup = here(moment) if is_here else main_object(moment)
        values = ', '.join(f'{name} = {lookup(name)}' for name in dict.fromkeys(invariant.formula.names))
        place = self.text.spelled(self.name, point.place) if point.place is not None else 'the end'
        try:
            if invariant.formula.value(lookup):
                return []
            return [f'`{invariant.formula.text}` must hold, and does not at {place}, after {times(point.position, "statement")}: {values}']
        except BadFormula as bad:
            return [f'`{invariant.formula.text}` has no value at {place}: {bad}']


def main_object(moment: Moment) -> Callable[[str], Optional[str]]:
    """The fields of the main object, and what they lead to."""
    fields = moment._replace(variables=moment.objects[1].cells if 1 in moment.objects else ())
    return here(fields)


def here(moment: Moment) -> Callable[[str], Optional[str]]:
    return lambda path: value_of(moment, path)


def stop_differs(parts, told: Told, line: Optional[int]) -> List[str]:
    """Why a fault or a refusal is not the one that is expected: its number or name, and its line."""
    name, at = parts
    why = []
    if name and name not in (str(told.number), told.name):
        why.append(f'it is {told.kind} {told.number} {told.name}, and not {name}')
    if at and int(at) != line:
        why.append(f'{told.kind} {told.number} {told.name} comes at line {line}, and not {at}')
    return why


def occurrences(words: List[str], wanted: List[str]) -> int:
    """How often a list of tokens occurs in another one."""
    return sum(words[at:at + len(wanted)] == wanted for at in range(len(words)))


def times(count: int, what: str = 'time') -> str:
    return f'{count:,} {what}' + ('' if count == 1 else 's')


def kind_of(findings: List[Finding]) -> str:
    """The verdict of findings: where a run did not come to its end, that; else whether all hold."""
    kinds = [finding.kind for finding in findings if not finding.held]
    return next((kind for kind in kinds if kind != 'wrong'), 'wrong') if kinds else 'right'


def cleaned(lines: List[str]) -> List[str]:
    """The lines with a `?` for each sign that a terminal would obey, and each cut at MOST_SIGNS."""
    cut = [line if len(line) <= MOST_SIGNS else f'{line[:MOST_SIGNS]} ..' for line in lines]
    return [''.join(sign if sign == '\t' or sign.isprintable() else '?' for sign in line) for line in cut]
