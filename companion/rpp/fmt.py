"""`rpp fmt F ..`: Formats sources in place."""
import sys
from typing import List

from .advice import of_refusal
from .formatter import formatted
from .messages import read_answer
from .options import Parser
from .places import Text
from .program import Program
from .reading import STDIN, readable, shown
from .report import source_refused_line
from .screen import complain, say, say_located
from .source import parsed


def parser() -> Parser:
    made = Parser(prog='rpp fmt', description=__doc__.split(':', 1)[1].strip(),
                  epilog='Tokens, comments and the line breaks between statements stay. A source outside the grammar stays as it is, and '
                         'the status is 1. Standard input is formatted to standard output.')
    made.add_argument('sources', metavar='F', nargs='+', help='a source; - is standard input')
    made.add_argument('--check', action='store_true',
                      help='write nothing, name each source that is not formatted, and end with status 1 if there is one')
    return made


def main(words: List[str]) -> int:
    given = parser().parse_args(words)
    return max([laid_out(source, given.check) for source in given.sources])


def laid_out(source: str, only_looks: bool) -> int:
    """Lays one source out, or looks whether it is; the status that it asks for."""
    path = readable(source)
    with open(path, 'rb') as file:
        text = file.read()
    if not parsed(text).is_whole:
        tell_left(path, text)
        if source == STDIN and not only_looks:
            sys.stdout.buffer.write(text)
        return 1
    made = formatted(text)
    if only_looks:
        if made != text:
            say([f'{shown(path)}: not formatted'])
        return int(made != text)
    if path != source:
        sys.stdout.buffer.write(made)
    elif made != text:
        with open(path, 'wb') as out:
            out.write(made)
    return 0


def tell_left(path: str, text: bytes) -> None:
    """Says why a source is left as it is."""
    told = read_answer(Program.found().call('check', path))
    if told.kind == 'refused' and told.at is not None:
        message = of_refusal(text, told.number, told.at)
        say_located([source_refused_line(shown(path), Text(text), told, message)], sys.stderr)
    else:
        complain(f'{shown(path)}: not formatted: it does not follow the grammar')
