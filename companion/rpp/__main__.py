"""The command `rpp`: finds the module of the first word, and hands it the others.

A command is a line of COMMANDS. Its module has a function `main(words) -> status` and is loaded when the command is called;
a function `parser()` next to it gives completion and `rpp help` the words.
"""
import importlib
import os
import signal
import sys
from typing import List, NamedTuple

from .options import COLOUR, Unfit
from .program import Interrupted, Killed, NoProgram, OverSource
from .reading import meant_by
from .screen import WHEN, choose, complain, wrapped
from .spelling import similar


class Command(NamedTuple):
    """A command: its module below this package, and what it does."""
    module: str
    text: str


# In the order of `rpp --help`.
COMMANDS = {
    'run': Command('run', 'run a source; if it stops, show where and why'),
    'check': Command('check', 'check sources, with messages in the form F:LINE:COL: text'),
    'fmt': Command('fmt', 'format sources in place'),
    'debug': Command('debug', 'step through a run in both directions, by a prompt or a script'),
    'film': Command('film', 'write a page that shows a run in both directions'),
    'side': Command('side', 'show a source next to its inverse'),
    'inverse': Command('inverse', 'print the program that undoes a source'),
    'list': Command('listing', 'print the compiled instructions, with the statement of each'),
    'heap': Command('heap', 'show the memory of a run, as text or as a page'),
    'picture': Command('picture', 'draw the store at a position, as a figure for a paper'),
    'state': Command('state', 'write a start state with an input, for `rooplpp run`'),
    'test': Command('testing', 'check programs by what their comments or an exercise expect'),
    'stat': Command('measuring', 'measure runs over a range of inputs, as a table or a plot'),
    'kernel': Command('kernel', 'run ROOPL++ in Jupyter notebooks'),
    'lsp': Command('lsp', 'the language server, over standard input and output'),
    'dap': Command('dap', 'the debug adapter, over standard input and output'),
    'help': Command('help', 'explain a command, a refusal, a fault or a statement'),
    'complete': Command('complete', 'print what can follow on a command line, for shells'),
    'version': Command('version', 'print the commit, the program that is called, and who proved it'),
}
WRONG_WORDS = 1


def usage() -> str:
    rows = [line for name, command in COMMANDS.items() for line in wrapped(f'{name:9}{command.text}', '  ', ' ' * 9)]
    return '\n'.join([
        'rpp: the companion of rooplpp',
        '',
        'usage: rpp COMMAND ARGUMENTS ..',
        '', *rows, '',
        *wrapped('`rpp help COMMAND` lists its options, `rpp help 16` explains refusal or fault 16, and `rpp help if` a statement.'),
        *wrapped(f'Every command takes `{COLOUR} WHEN`: {", ".join(WHEN)}. `-` instead of a source is standard input.'), ''])


def without_colour(words: List[str]) -> List[str]:
    """The words without `--color WHEN` or `--color=WHEN`, which says whether colours are used."""
    left: List[str] = []
    waiting = list(words)
    while waiting:
        word = waiting.pop(0)
        if word == '--':
            return left + [word, *waiting]
        if word != COLOUR and not word.startswith(f'{COLOUR}='):
            left.append(word)
            continue
        when = word[len(COLOUR) + 1:] if '=' in word else waiting.pop(0) if waiting else ''
        if when not in WHEN:
            raise Unfit(f'{COLOUR} {when}: it is one of {", ".join(WHEN)}')
        choose(when)
    return left


def main(words: List[str]) -> int:
    try:
        return run_command(words if words[:1] == ['complete'] else without_colour(words))
    except Unfit as wrong:
        complain(f'rpp: {wrong}')
        return WRONG_WORDS


def run_command(words: List[str]) -> int:
    if not words or words[0] in ('--help', '-h'):
        print(usage(), end='')
        return 0 if words else WRONG_WORDS
    command = COMMANDS.get({'--version': 'version', '-V': 'version'}.get(words[0], words[0]))
    if command is None:
        near = similar(words[0], COMMANDS)
        meant = f'; did you mean `{near}`?' if near else '; `rpp --help` names them all'
        complain(f'rpp: there is no command {words[0]}{meant}')
        return WRONG_WORDS
    try:
        status = importlib.import_module(f'rpp.{command.module}').main(words[1:])
        sys.stdout.flush()
        return status
    except (NoProgram, OverSource, Unfit, Killed) as wrong:
        text = str(wrong)
        complain(text if text.startswith('rpp:') else f'rpp: {text}')
        return 126 if isinstance(wrong, NoProgram) else WRONG_WORDS
    except BrokenPipeError:
        # The reader of the output has enough of it: as a filter does, end without a word.
        os.dup2(os.open(os.devnull, os.O_WRONLY), sys.stdout.fileno())
        return 141
    except OSError as wrong:
        complain(f'rpp: {wrong.filename}: {wrong.strerror}{meant_by(wrong.filename)}' if isinstance(wrong.filename, str) else f'rpp: {wrong}')
        return 2
    except (Interrupted, KeyboardInterrupt):
        print('rpp: stopped by ^C', file=sys.stderr)
        return 130


def command() -> int:
    """The command as a shell or an installation starts it. If its terminal is closed or a signal ends it, it ends the programs that it
    started too."""
    for name in ('SIGHUP', 'SIGTERM'):
        number = getattr(signal, name, None)
        if number is not None and signal.getsignal(number) == signal.SIG_DFL:
            signal.signal(number, end_by)
    return main(sys.argv[1:])


def end_by(number: int, _frame) -> None:
    raise SystemExit(128 + number)


if __name__ == '__main__':
    sys.exit(command())
