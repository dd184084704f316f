"""What a program's own comments expect of it, for `rpp test`.

A comment that begins with `//?` (in assembly `;?`) is one of these.

    //? a=6 b=7 -> product = 42, back        a case: inputs, and what the run must come to.
    //? uses uncall in give                  a rule of the text: `uses`, `no`, `at most 2 <=>`, `fields a b`.

    //? always a + b = 12                    holds before each statement of each run, of the main object's fields.
    //? sometime list.length = 3             holds before one statement at least.

    //? here sum + sum = i * (i + 1)         holds whenever a run comes to the statement that follows.

docs/reference/testing.md has all forms. A `?` instead of a value is open: whoever solves the exercise writes it.

    expected = Expectations.read(b'//? a=6 b=7 -> product = 42\\nclass ..')
    expected.cases[0].inputs           # {'a': '6', 'b': '7'}
    expected.cases[0].wanted[0]        # Wanted(kind='compare', text='product = 42', parts=('product', '=', '42'))
"""
import re
from typing import Dict, List, NamedTuple, Optional, Tuple

from .formulas import BadFormula, Formula
from .places import Text
from .tokens import NAME, cut

OPEN = '?'
MOST_QUOTED = 80
PATH = rf"{NAME}(?:\.{NAME}|\[\d+\])*"
VALUE = rf"-?\d+|{PATH}|\?"
INPUT = re.compile(rf'^({NAME}|\d+)=(-?\d+)$')
BOUNDS = {'--heap': 'heap', '--depth': 'depth', '--steps': 'steps'}
# (a line such as `at 12` follows the number or name of a fault)
FORMS = [
    ('back', re.compile(r'^back$')),
    ('ends', re.compile(r'^ends (well|\d+|[A-Z]\w*|\?)$')),
    ('bound', re.compile(r'^bound$')),
    ('live', re.compile(r'^live (\d+|\?)$')),
    ('fault', re.compile(r'^fault(?: (\d+|[A-Z]\w*|\?))?(?: at (\d+|\?))?$')),
    ('refused', re.compile(r'^refused(?: (\d+|[A-Z]\w*|\?))?(?: at (\d+|\?))?$')),
    ('most', re.compile(r'^at most (\d+) (steps|cost)$')),
    ('wrap', re.compile(rf'^wrap ({NAME}) = (-?\d+|\?)$')),
    ('cell', re.compile(r'^cell (\d+) = (-?\d+|\?)$')),
    ('registers', re.compile(r'^registers 0$')),
    ('own inverse', re.compile(r'^own inverse$')),
    ('address', re.compile(rf'^({PATH}) at (\d+|\?)$')),
    ('class', re.compile(rf'^({PATH}) is ({NAME}(?:\[\d*\])?)$')),
    ('compare', re.compile(rf'^({PATH}) *(=|!=|<=|>=|<|>) *({VALUE})$')),
]
RULES = [
    ('uses', re.compile(rf'^uses (.+?)(?: in ({NAME}))?$')),
    ('no', re.compile(rf'^no (.+?)(?: in ({NAME}))?$')),
    ('most', re.compile(rf'^at most (\d+) (\S+)(?: in ({NAME}))?$')),
    ('fields', re.compile(rf'^fields((?: {NAME})*)$')),
]
FORMULAS = re.compile(r'^(always|sometime|here) (.+)$')


class BadExpectation(Exception):
    """A comment that is no expectation; the text says where and why."""


class Wanted(NamedTuple):
    """One thing that a run must come to: its kind, its text, and the parts of the text; an open part is `?`."""
    kind: str
    text: str
    parts: Tuple[Optional[str], ...]

    @property
    def is_open(self) -> bool:
        return OPEN in self.parts


class Case(NamedTuple):
    """A run and what it must come to. `bounds` has what is given of heap, depth and steps."""
    line: int
    text: str
    inputs: Dict[str, str]
    bounds: Dict[str, int]
    inverse: bool
    wanted: List[Wanted]


class Rule(NamedTuple):
    """What the text must be like: `uses`, `no`, `most` or `fields`, its parts, and the method in which it holds, or ''."""
    line: int
    kind: str
    text: str
    parts: Tuple[str, ...]
    method: str


class Invariant(NamedTuple):
    """A formula that holds along each run: `always` before each statement, `sometime` before one, `here` before the one at
    its place."""
    line: int
    kind: str
    formula: Formula
    place: Optional[int]


class Expectations(NamedTuple):
    """All that a text expects."""
    cases: List[Case]
    rules: List[Rule]
    invariants: List[Invariant]

    def __bool__(self) -> bool:
        return bool(self.cases or self.rules)

    @property
    def is_open(self) -> bool:
        return any(wanted.is_open for case in self.cases for wanted in case.wanted)

    @classmethod
    def read(cls, content: bytes, assembly: bool = False) -> 'Expectations':
        """What the comments of a source or an assembly text say."""
        found = cls([], [], [])
        lines = assembly_lines(content) if assembly else source_lines(content)
        for line, words, place in lines:
            try:
                found.add(line, words, place)
            except (BadFormula, BadExpectation) as bad:
                quoted = words if len(words) <= MOST_QUOTED else f'{words[:MOST_QUOTED]} ..'
                raise BadExpectation(f'line {line}: `{quoted}` is no expectation: {bad}') from None
        return found

    def add(self, line: int, words: str, place: Optional[int]) -> None:
        if '->' in words:
            self.cases.append(case_of(line, words))
            return
        formula = FORMULAS.match(words)
        if formula:
            self.invariants.append(Invariant(line, formula[1], Formula(formula[2]), place))
            return
        self.rules.append(rule_of(line, words))

    def with_claims(self, other: 'Expectations') -> 'Expectations':
        """The same with the open parts as another text says them, case by case."""
        claims = other.cases + [None] * len(self.cases)
        return self._replace(cases=[claimed(case, claim) for case, claim in zip(self.cases, claims)])


def source_lines(content: bytes):
    """The expectations of a source: line, text, and the place of the token that follows."""
    text = Text(content)
    tokens, comments = cut(content)
    for comment in comments:
        if comment.text.startswith('//?'):
            behind = next((token.at for token in tokens if token.at > comment.at), None)
            yield text.place(comment.at).line, decoded(comment.text[3:]), behind


def assembly_lines(content: bytes):
    for line, text in enumerate(content.decode('utf-8', 'replace').split('\n'), 1):
        if ';?' in text:
            yield line, text.split(';?', 1)[1].strip(), None


def decoded(text: str) -> str:
    """The characters of a comment's bytes."""
    return text.encode('latin-1').decode('utf-8', 'replace').strip()


def case_of(line: int, words: str) -> Case:
    left, right = words.split('->', 1)
    case = Case(line, ' '.join(words.split()), {}, {}, False, [wanted_of(part.strip()) for part in right.split(',')])
    given = left.split()
    while given:
        word = given.pop(0)
        found = INPUT.match(word)
        if found:
            case.inputs[found[1]] = found[2]
        elif word in BOUNDS and given and given[0].isdigit():
            case.bounds[BOUNDS[word]] = int(given.pop(0))
        elif word == 'inverse':
            case = case._replace(inverse=True)
        else:
            raise BadExpectation(f'before `->` come inputs NAME=NUMBER, --heap H, --depth D, --steps N and `inverse`, not {word}')
    return case


def wanted_of(text: str) -> Wanted:
    for kind, form in FORMS:
        found = form.match(text)
        if found:
            return Wanted(kind, text, found.groups())
    raise BadExpectation(f'`{text}` is none of the forms of docs/reference/testing.md')


def rule_of(line: int, words: str) -> Rule:
    for kind, form in RULES:
        found = form.match(words)
        if found and kind == 'fields':
            return Rule(line, kind, words, tuple(found[1].split()), '')
        if found:
            *parts, method = found.groups()
            return Rule(line, kind, words, tuple(parts), method or '')
    raise BadExpectation('a case has `->`, a rule begins with `uses`, `no`, `at most` or `fields`, a formula with `always`, `sometime` or `here`')


def claimed(case: Case, claim: Optional[Case]) -> Case:
    """The case, its open parts as the claim has them where it says the same otherwise."""
    if claim is None or len(claim.wanted) != len(case.wanted):
        return case
    return case._replace(wanted=[one_claimed(*pair) for pair in zip(case.wanted, claim.wanted)])


def one_claimed(wanted: Wanted, claim: Wanted) -> Wanted:
    same = wanted.kind == claim.kind and len(wanted.parts) == len(claim.parts) and all(
        own in (OPEN, said) for own, said in zip(wanted.parts, claim.parts))
    return claim if wanted.is_open and same else wanted
