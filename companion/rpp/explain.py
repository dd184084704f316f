"""The message for a refusal or a fault: what is wrong with the names at hand, and what to write.

    said = of_refusal(text, 16, 1131)       # the bytes of the source, the number, the place
    said.sentence, said.fix, said.edits     # '`count` must not occur in its own value: ..', 'Read the value into ..', ()
    said.is_own                             # whether the sentence is of this very text, not the general one of the rule

Only the program says that a text is refused, and where; this module reads the text."""
import re
from typing import NamedTuple, Optional, Tuple

from .fault_slots import Where, fault_slots
from .rules import FAULT_OF, REFUSAL_OF, Rule
from .slots import filled, slots
from .spelling import Edit, byte_hint
from .syntax import syntax_hint

# A comment that goes on where a line ends with CR and no LF, and such a CR.
HIDING = re.compile(rb'//[^\n]*?\r[^\n]*[^\s]')
WORD = re.compile(rb"[A-Za-z][A-Za-z0-9_']*")
ONLY_CR = re.compile(rb'\r(?!\n)')


class Message(NamedTuple):
    """A message of one refusal or fault."""
    rule: Optional[Rule]
    sentence: str
    fix: str = ''
    detail: str = ''
    edits: Tuple[Edit, ...] = ()
    title: str = ''
    is_own: bool = False

    @property
    def one_line(self) -> str:
        """The sentence with its detail."""
        return f'{self.sentence} {self.detail}'.strip()


def of_refusal(text: bytes, number: int, at: Optional[int]) -> Message:
    rule = REFUSAL_OF.get(number)
    if rule is None or at is None:
        return Message(rule, rule.sentence if rule else '', rule.fix if rule else '')
    hiding = HIDING.search(text)
    if hiding and hiding.start() <= at and len(ONLY_CR.findall(text)) > text.count(b'\n'):
        return of_hiding_comment(text, rule, hiding.start())
    if rule.name == 'Syntax':
        return of_syntax(text, rule, at)
    if rule.name == 'BadByte':
        hint = byte_hint(text, at)
        if hint is not None:
            return Message(rule, hint.sentence, hint.fix, '', hint.edits, hint.title, True)
    found = filled(rule.forms, slots(text, number, at), rule.fix)
    if found is None:
        return Message(rule, rule.sentence, rule.fix)
    title = f'Write `{found.written}`' if found.written else ''
    return Message(rule, found.sentence, found.fix, '', written_at(text, at, found.written), title, True)


def written_at(text: bytes, at: int, written: str) -> Tuple[Edit, ...]:
    """The edit that writes a text for the word at a place; none where there is no text to write."""
    word = WORD.match(text[at:])
    return (Edit(at, at + word.end(), written),) if written and word else ()


def of_hiding_comment(text: bytes, rule: Rule, begin: int) -> Message:
    edits = tuple(Edit(found.start(), found.end(), '\n') for found in ONLY_CR.finditer(text))
    line = text.count(b'\n', 0, begin) + 1
    return Message(rule, f'Lines must end with LF: these end with CR and no LF, so the comment of line {line} goes on and hides what follows.',
                   'Save the source with line ends LF or CR LF.', '', edits, 'Write line feeds', True)


def of_syntax(text: bytes, rule: Rule, at: int) -> Message:
    hint = syntax_hint(text, at)
    found = filled(rule.forms, {'expected': hint.expected, 'found': hint.found} if hint.expected else {})
    detail = found.sentence if found else ''
    if hint.sentence:
        return Message(rule, hint.sentence, hint.fix, detail, hint.edits, hint.title, True)
    return Message(rule, detail or rule.sentence, rule.fix)


def of_fault(number: int, where: Optional[Where], is_back: bool = False) -> Message:
    """The message of a fault, in the words of the direction in which its body ran; `where` is None where that is not known."""
    rule = FAULT_OF.get(number)
    if rule is None:
        return Message(None, '')
    is_back = where.is_back if where else is_back
    fix = rule.fix_back if is_back and rule.fix_back else rule.fix
    found = filled(rule.back if is_back and rule.back else rule.forms, fault_slots(where, number), fix) if where else None
    if found is None:
        return Message(rule, rule.sentence, fix)
    return Message(rule, found.sentence, found.fix, is_own=True)
