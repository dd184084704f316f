"""`rpp inverse F`: Prints the program that undoes a source, as `show-inverse` writes it, formatted."""
import sys
from typing import List

from .formatter import formatted
from .options import Parser, add_source
from .page import tell_refused
from .program import Program, keep_apart
from .side import LaidOut, inverse_text
from .trace import Refused


def parser() -> Parser:
    made = Parser(prog='rpp inverse', description=__doc__.split(':', 1)[1].strip())
    add_source(made)
    made.add_argument('-o', '--out', metavar='OUT', help='write it into this file')
    return made


def main(words: List[str]) -> int:
    given = parser().parse_args(words)
    program = Program.found()
    try:
        with program.folder() as folder:
            lines = LaidOut(inverse_text(program, given.source, folder, 'inverse')).lines
    except Refused as refused:
        return tell_refused(refused, given.source)
    text = formatted('\n'.join(lines).encode()).decode()
    if given.out:
        keep_apart(given.out, given.source)
        with open(given.out, 'w', encoding='utf-8') as out:
            out.write(text)
    else:
        sys.stdout.write(text)
    return 0
