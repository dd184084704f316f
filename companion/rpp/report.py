"""Messages about a source: where it is, the line with a caret, what is wrong, what to write, and where the pages say more."""
import os
from typing import List, Optional, Tuple

from .advice import of_refusal
from .explain import Message
from .failing import FailedTest
from .messages import Told, placed, refusal, see
from .names import input_fields
from .places import Text
from .reading import meant_by, shown
from .rules import Rule
from .screen import columns, paint, wrapped
from .spelling import similar


def rule_lines(rule: Rule) -> List[str]:
    """A rule in general: its sentence, what to do, and its page."""
    return message_lines(Message(rule, rule.sentence, placed(rule.fix)))


def message_lines(message: Message, margin: str = '', with_sentence: bool = True) -> List[str]:
    """The sentence, what was expected, what to write, and the page."""
    lines = wrapped(message.sentence, margin) if with_sentence else []
    lines += wrapped(message.detail, margin)
    lines += painted(wrapped(f'Fix: {message.fix}', margin), 'fix', 'Fix:') if message.fix else []
    page = see(message.rule) if message.rule else ''
    return lines + ([margin + paint('quiet', f'See {page}')] if page else [])


def painted(lines: List[str], role: str, word: str) -> List[str]:
    """The lines with the first such word in a colour."""
    return [lines[0].replace(word, paint(role, word), 1), *lines[1:]]


def pointed_lines(file: str, text: Text, at: int, what: str) -> List[str]:
    """FILE:LINE:COLUMN: what, and the source line with a caret."""
    return [f'{paint("where", text.spelled(file, at))}: {paint("wrong", what)}'] + caret_lines(text, at)


def caret_lines(text: Text, at: int) -> List[str]:
    """The source line of a place, and below it carets under the token; on a terminal as much of them as it has columns."""
    line, marks = text.pointed(at).split('\n')
    most = columns()
    if most is not None:
        line, marks = cut_around(line.expandtabs(), marks.expandtabs(), most)
    return [line, marks.replace(marks.lstrip(' |\t'), paint('mark', marks.lstrip(' |\t')))]


def cut_around(line: str, marks: str, most: int) -> Tuple[str, str]:
    """A source line with its number and the line of carets below it, cut to so many columns around the carets."""
    if len(line) <= most:
        return line, marks
    margin, begin = line.index('|') + 2, marks.index('^')
    room = most - margin - len('.. ' + ' ..')
    first = max(margin, min(begin - room // 2, len(line) - room))
    left, right = '.. ' if first > margin else '', ' ..' if first + room < len(line) else ''
    carets = marks[begin:first + room] or '^'
    return f'{line[:margin]}{left}{line[first:first + room]}{right}', f'{marks[:margin]}{" " * (len(left) + begin - first)}{carets}'


def test_lines(file: str, text: Text, test: FailedTest) -> List[str]:
    """The test that failed, what was found, and the variables at that moment."""
    return ['The test that failed, and the variables at that moment:', *pointed_lines(file, text, test.at, test.title),
            *[f'  {name} = {value}' for name, value in test.moment.variables]]


def named_in(row: str) -> str:
    """The name in a line of an input."""
    return row.split('=')[0].strip()


def input_refused(source: str, told: Told, rows: List[str]) -> List[str]:
    """What is said of a refused input: its line, and what a line must be."""
    lines = [f'the input is refused: {told.number} {told.name}']
    if told.at and told.at <= len(rows):
        lines[0] += f' at line {told.at}: {rows[told.at - 1].strip()}'
    if told.name == 'UnknownField':
        return lines + wrapped(fields_said(source, named_in(rows[told.at - 1]) if told.at and told.at <= len(rows) else ''))
    if told.name == 'BadInputLine':
        return lines + ['A line is NAME = NUMBER, the number from -2147483648 to 2147483647.']
    return lines + rule_lines(refusal(told.number))


def fields_said(source: str, name: str = '') -> str:
    """The int fields that an input of a source can name, and the one that is most like a name which is none of them."""
    with open(source, 'rb') as file:
        fields = input_fields(file.read())
    if not fields:
        return 'The main object has no int field.'
    near = similar(name, fields) if name not in fields else ''
    meant = f'There is no int field {name}; did you mean `{near}`? ' if near else ''
    return f'{meant}The main object has the int fields {", ".join(fields)}, and a line names each at most once.'


def refused_title(told: Told) -> str:
    return f'refused {told.number} {told.name}'


def source_refused(file: str, text: Text, told: Told) -> List[str]:
    """What is said of a refused source."""
    return pointed_lines(file, text, told.at, refused_title(told)) + message_lines(of_refusal(text.content, told.number, told.at))


def source_refused_line(file: str, text: Text, told: Told, message: Message) -> str:
    """The place and the sentence in one line, for editors."""
    return f'{paint("where", text.spelled(file, told.at))}: {paint("wrong", refused_title(told))}: {message.sentence}'


def fault_title(told: Told) -> str:
    return f'fault {told.number} {told.name}'.rstrip()


def failure_lines(told: Told, file: str, *others: Optional[str]) -> List[str]:
    """What is said where the program could not do its work: files, memory, words, or an answer of no known form. `others` are the
    files that it reads besides this one."""
    if told.kind == 'read' and told.file in others:
        return failure_lines(told, shown(told.file))
    if told.kind == 'read' and os.path.isdir(file):
        return [f'{file}: cannot read it: it is a folder']
    if told.kind in ('read', 'write'):
        meant = meant_by(file) if told.why == 'missing' else ''
        return [f'{file}: cannot {told.kind} it: {told.why or "failed"}{meant}']
    if told.kind == 'memory':
        return [f'{file}: the program answered with status 7: there was not enough memory']
    if told.kind == 'words':
        return [f'{file}: the program refuses the arguments that rpp passed, so this rpp does not fit it']
    return [f'{file}: the program answered with status {told.status}: {told.first_line or "nothing"}']
