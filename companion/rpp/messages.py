"""What the program answered, and what its refusals and faults mean.

    told = read_answer(program.call('check', 'list.rpp'))
    told.kind, told.number, told.name, told.at      # 'refused', 16, 'SelfUpdate', 1131
    rule = refusal(16)                              # or fault(16), of rules.py: None where there is no such number
    see(rule)                                       # the page that says more, where the reader has one
    placed('docs/reference/messages.md has them')   # the same text, with the path where the reader has that page
"""
import functools
import os
import re
from typing import Dict, List, NamedTuple, Optional

from .program import PACKAGE, TOP, Answer
from .rules import FAULT_OF, FAULTS, REFUSAL_OF, REFUSALS, Rule

FIRST_LINES = [
    ('refused', re.compile(r'^refused (\d+) (\w+)(?: at (\d+))?$', re.M)),
    ('fault', re.compile(r'^fault (-?\d+)(?: (\w+))?$', re.M)),
]



class Told(NamedTuple):
    """An answer, taken apart. `kind` is done, refused, fault, bound, words, read, write, memory or left. `at` is the place of a
    refusal: a byte of a source, an image or a state, or a line of an assembly text, an input or a script."""
    kind: str
    status: int
    output: str
    number: Optional[int] = None
    name: str = ''
    at: Optional[int] = None
    file: str = ''
    why: str = ''

    @property
    def first_line(self) -> str:
        return self.output.split('\n', 1)[0]

    def number_behind(self, word: str) -> Optional[int]:
        """The number of the last line `WORD N`, as `steps 42`, `cost 15` or `from 1330`."""
        found = re.findall(rf'^{word} (-?\d+)$', self.output, re.M)
        return int(found[-1]) if found else None


def read_answer(answer: Answer) -> Told:
    """Takes an answer of any command apart."""
    status, output = answer
    if status == 0:
        return Told('done', status, output)
    if status in (3, 4, 8, 5):
        for kind, form in FIRST_LINES:
            found = form.search(output)
            if found:
                at = int(found[3]) if kind == 'refused' and found[3] else None
                return Told(kind, status, output, int(found[1]), found[2] or '', at)
    if status == 2:
        found = re.match(r'^cannot (read|write) (.*): (\w[\w ]*)$', output.rstrip('\n'), re.S)
        if found:
            return Told(found[1], status, output, file=found[2], why=found[3])
    kinds = {1: 'words', 2: 'write', 6: 'bound', 7: 'memory', 9: 'left'}
    return Told(kinds.get(status, 'unknown'), status, output)


def refusal(number: int) -> Optional[Rule]:
    return REFUSAL_OF.get(number)


def fault(number: int) -> Optional[Rule]:
    return FAULT_OF.get(number)


def refusals() -> Dict[int, Rule]:
    """All refusals by their numbers."""
    return REFUSAL_OF


def faults() -> Dict[int, Rule]:
    """All faults by their numbers."""
    return FAULT_OF


def rules_of(word: str) -> List[Rule]:
    """The refusals and faults with this number or name, in any case of letters."""
    return [rule for rule in REFUSALS + FAULTS if word == str(rule.number) or word.lower() == rule.name.lower()]


@functools.lru_cache(maxsize=None)
def page_path(page: str) -> Optional[str]:
    """Where a page of docs/ is: in the repository, in the package, or where a package puts documents."""
    folders = [os.path.join(TOP, 'docs'), os.path.join(PACKAGE, 'docs')]
    above = PACKAGE
    for _ in range(4):
        above = os.path.dirname(above)
        folders += [os.path.join(above, 'share', 'doc', 'rooplpp', 'docs'), os.path.join(above, 'share', 'doc', 'rooplpp')]
    for folder in folders:
        if os.path.isfile(os.path.join(folder, page)):
            return os.path.join(folder, page)
    return None


PAGE = re.compile(r'docs/([\w/-]+\.md)')
SENTENCE_OF_PAGE = re.compile(r'(?<!\S)docs/([\w/-]+\.md) [^.]*\.(?!\S)(\s+(?=\S))?')


def placed(text: str) -> str:
    """A text with the pages of docs/ that it names: in the clone by their names there, else by their paths. A sentence that begins with
    a page that the reader does not have is left out."""
    def path(found) -> str:
        there = page_path(found[1])
        return found[0] if there in (None, os.path.join(TOP, found[0])) else there

    left = SENTENCE_OF_PAGE.sub(lambda found: found[0] if page_path(found[1]) else '', text)
    return PAGE.sub(path, left if left == text else re.sub(r' +$', '', left, flags=re.M))


def see(rule: Rule) -> str:
    """The page that says more of a rule, where the reader has it: in the clone by its name there, else by its path; '' of none."""
    page, heading = rule.link[len('docs/'):].split('#')
    path = page_path(page)
    if path is None:
        return ''
    return rule.link if path == os.path.join(TOP, 'docs', page) else f'{path}#{heading}'
