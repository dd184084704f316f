"""The words that several commands share: bounds of a run, and inputs by file or by NAME=NUMBER.

    parser = Parser(prog='rpp film', description='..')
    add_source(parser)                      # F, the source
    add_run_options(parser)                 # --heap, --depth, --input, NAME=NUMBER ..
    given = parser.parse_intermixed_args(words)
    with program.folder() as folder:
        inputs = input_file(given, folder)  # the file of all inputs, or None; raises Unfit on a bad word
"""
import argparse
import re
from typing import List, Optional

from .messages import placed
from .program import Folder
from .reading import is_kept, readable, shown
from .spelling import similar
from .tokens import NAME

HEAP = 12
DEPTH = 64
STEPS = 100_000_000
MOST_HEAP = 20
MOST_DEPTH = 8192
SOURCES = ('.rpp', '.pisa')
COLOUR = '--color'
# How argparse begins what it says of words that nothing takes.
UNKNOWN = 'unrecognized arguments: '
ASSIGNMENT = re.compile(rf'^({NAME})=(-?[0-9]+)$')


class Unfit(Exception):
    """Words that no command understands; the text says why."""


class Parser(argparse.ArgumentParser):
    """A parser that raises Unfit where words do not fit, so that one place ends the command. Its help names pages where the reader
    has them."""

    def format_help(self):
        return placed(super().format_help())

    def error(self, message):
        # (inputs are never required, though argparse says so where the source is missing)
        said = self.unknown_option(message) or message.replace(', NAME=NUMBER', '')
        raise Unfit(f'{said}\n{self.format_usage().rstrip()}')

    def unknown_option(self, message: str) -> str:
        """What is said of words that begin as options, with the option that may be meant; '' if the message is not about one."""
        words = message[len(UNKNOWN):].split() if message.startswith(UNKNOWN) else []
        word = next((each.split('=')[0] for each in words if each.startswith('-')), '')
        if not word:
            return ''
        near = similar(word, [*self._option_string_actions, COLOUR])
        return f'there is no option {word}' + (f'; did you mean `{near}`?' if near else '')


def refuse_sources(*results: Optional[str]) -> None:
    """Raises Unfit where a result would be written over a source, as by `--json a.rpp b.rpp`."""
    for each in filter(None, results):
        if each.endswith(SOURCES):
            raise Unfit(f'{each} is a source: --csv, --json and --svg need the name of a file to write')


def add_source(parser) -> None:
    parser.add_argument('source', metavar='F', type=readable, help='a source; - is standard input')


def add_run_options(parser) -> None:
    parser.add_argument('assignments', metavar='NAME=NUMBER', nargs='*',
                        help='the number with which an int field of the main object starts')
    parser.add_argument('--heap', type=int, default=HEAP, metavar='H',
                        help=f'the heap has 2^H words, H from 1 to {MOST_HEAP} (default {HEAP})')
    parser.add_argument('--depth', type=int, default=DEPTH, metavar='D',
                        help=f'the most active calls, from 1 to {MOST_DEPTH} (default {DEPTH})')
    parser.add_argument('--input', metavar='FILE', type=readable, help='a file of lines NAME = NUMBER; - is standard input')


def input_file(given, folder: Folder) -> Optional[str]:
    """The file with all that is given as input: the lines of --input, and after them the words NAME=NUMBER, which replace
    lines for the same names."""
    if given.input and given.input == getattr(given, 'source', None) and is_kept(given.input):
        raise Unfit(f'{shown(given.input)} must not be the source and the input: it is read once')
    words = {}
    for word in given.assignments:
        found = ASSIGNMENT.match(word)
        if not found:
            raise Unfit(f'{word}: an input must be NAME=NUMBER, such as n=5')
        if found[1] in words:
            raise Unfit(f'{word}: {found[1]} has a number already')
        words[found[1]] = found[2]
    if not words:
        return given.input
    return folder.write('given-input', '\n'.join(input_lines(given)) + '\n')


def input_lines(given) -> List[str]:
    """The lines of all that is given as input."""
    words = dict(each.split('=', 1) for each in given.assignments)
    lines: List[str] = []
    if given.input:
        with open(given.input, encoding='utf-8', errors='replace') as file:
            lines = ['' if line.split('=')[0].strip() in words else line for line in file.read().split('\n')]
    return lines + [f'{name} = {number}' for name, number in words.items()]
