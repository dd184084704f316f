"""`rpp check F ..`: Checks sources, with messages in the form F:LINE:COL: text."""
import json
import sys
from typing import Any, Dict, List, NamedTuple, Optional, Sequence

from .advice import of_refusal
from .editing import Analysis
from .explain import Message
from .json_values import JSON_VERSION, message_value, place_value
from .lint import Remark, warnings
from .messages import Told, read_answer
from .options import Parser
from .places import Text
from .program import Program
from .reading import readable, shown
from .report import caret_lines, failure_lines, message_lines, source_refused_line
from .screen import paint, say_located


class Verdict(NamedTuple):
    """What is said of one source. `message` is there where it is refused, `remarks` where they are asked for."""
    file: str
    told: Told
    text: Optional[Text] = None
    message: Optional[Message] = None
    remarks: Sequence[Remark] = ()

    @property
    def status(self) -> int:
        return {'done': 0, 'refused': 1}.get(self.told.kind, 2)


def parser() -> Parser:
    made = Parser(prog='rpp check', description=__doc__.split(':', 1)[1].strip(),
                  epilog='The status is 0 if all are accepted, 1 if one is refused, and 2 if one could not be read.')
    made.add_argument('sources', metavar='F', nargs='+', type=readable, help='a source; - is standard input')
    made.add_argument('--brief', action='store_true', help='print one line for a refusal, without source and advice')
    made.add_argument('--lint', action='store_true', help='also warn about accepted sources')
    made.add_argument('--json', action='store_true', help='print the verdicts as one JSON value')
    return made


def main(words: List[str]) -> int:
    given = parser().parse_args(words)
    program = Program.found()
    worst, values = 0, []
    for source in given.sources:
        verdict = judged(program, source, given.lint)
        worst = max(worst, verdict.status)
        if given.json:
            values.append(value_of(verdict))
        else:
            lines = lines_of(verdict, given.brief)
            if given.brief:
                print('\n'.join(lines))
            else:
                say_located(lines)
    if given.json:
        json.dump({'version': JSON_VERSION, 'command': 'check', 'sources': values}, sys.stdout, indent=2)
        print()
    return worst


def judged(program: Program, source: str, looks: bool) -> Verdict:
    """What the program says of a source, with the message of a refusal; and warnings of what is accepted."""
    told = read_answer(program.call('check', source))
    if told.kind != 'refused' and not (looks and told.kind == 'done'):
        return Verdict(shown(source), told)
    text = Text.read(source)
    if told.kind == 'done':
        return Verdict(shown(source), told, text, remarks=warnings(Analysis(text.content)))
    return Verdict(shown(source), told, text, of_refusal(text.content, told.number, told.at))


def lines_of(verdict: Verdict, brief: bool) -> List[str]:
    file, told, text, message, remarks = verdict
    if message is None or text is None:
        lines = failure_lines(told, file) if told.kind != 'done' else [f'{file}: {paint("good", "accepted")}']
        return lines + [line for each in remarks for line in warned(file, text, each, brief)]
    lines = [source_refused_line(file, text, told, message)]
    return lines if brief else lines + caret_lines(text, told.at) + message_lines(message, '  ', False)


def warned(file: str, text: Text, remark: Remark, brief: bool) -> List[str]:
    """A warning, in the form of a refusal."""
    head = f'{paint("where", text.spelled(file, remark.begin))}: {paint("changed", "warning")}: {remark.sentence}'
    return [head] if brief else [head] + caret_lines(text, remark.begin)


def value_of(verdict: Verdict) -> Dict[str, Any]:
    """The verdict as a value of JSON."""
    file, told, text, message, remarks = verdict
    if told.kind == 'done':
        found = [{'name': each.name, **place_value(text, each.begin), 'message': each.sentence} for each in remarks]
        return {'file': file, 'verdict': 'accepted', **({'warnings': found} if text else {})}
    if message is None or text is None:
        return {'file': file, 'verdict': 'unread', 'why': failure_lines(told, file)[0]}
    return {'file': file, 'verdict': 'refused', 'number': told.number, 'name': told.name, **place_value(text, told.at),
            **message_value(message)}
