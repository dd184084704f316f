"""What the output is shown on: its width, and colours where a terminal has them.

    screen.paint('wrong', 'refused 16 SelfUpdate')      # with the codes of a colour, or as it is
    screen.wrapped('a long sentence ..')                # lines of the terminal's width, or of 100 where there is none
    screen.say(['a table ..'])                          # prints lines, on a terminal folded to its width
    screen.complain('rpp: ..')                          # the same on standard error

Colours are used where standard output is a terminal that has some and NO_COLOR is not set; `--color always` and `--color never` say
otherwise."""
import os
import re
import sys
import textwrap
from typing import Iterable, List, Optional

WIDTH = 100
LEAST, MOST = 40, 120
CODES = {'where': '1', 'wrong': '1;31', 'good': '32', 'mark': '1;32', 'fix': '1;36', 'quiet': '2', 'changed': '33'}
WHEN = ('auto', 'always', 'never')
CODE = re.compile('\x1b\\[[0-9;]*m')
# What the environment has in a terminal of Emacs, Vim, Neovim or Visual Studio Code, which read lines with locations.
EDITORS = ('INSIDE_EMACS', 'VIM_TERMINAL', 'VIMRUNTIME', 'NVIM')
# How far the later lines of a folded one are further in, and what is left where a text is cut.
HANGING = '  '
CUT = ' ..'

_chosen = 'auto'


def choose(when: str) -> None:
    """Whether colours are used: auto, always or never."""
    global _chosen
    _chosen = when


def is_coloured() -> bool:
    if _chosen != 'auto':
        return _chosen == 'always'
    # (what Emacs compiles in looks like a terminal, and reads places)
    has_none = os.environ.get('NO_COLOR') or os.environ.get('INSIDE_EMACS') or os.environ.get('TERM', 'dumb') == 'dumb'
    return not has_none and sys.stdout.isatty()


def paint(role: str, text: str) -> str:
    return f'\x1b[{CODES[role]}m{text}\x1b[0m' if text and is_coloured() else text


def width() -> int:
    most = columns()
    return WIDTH if most is None else min(MOST, most)


def columns(stream=None) -> Optional[int]:
    """The columns of the terminal that is standard output, or this stream; None where there is none."""
    stream = sys.stdout if stream is None else stream
    if not stream.isatty():
        return None
    try:
        of_terminal = os.get_terminal_size(stream.fileno()).columns
    except (OSError, ValueError):
        of_terminal = 0
    # (as a shell does, a person sets COLUMNS; a terminal may not know its own)
    chosen = os.environ.get('COLUMNS', '')
    return max(LEAST, int(chosen) if chosen.isdigit() and int(chosen) else of_terminal or WIDTH)


def wrapped(text: str, margin: str = '', later: str = '') -> List[str]:
    """Lines no longer than the width, all after a margin, and those after the first one further in by `later`."""
    return textwrap.wrap(text, width(), initial_indent=margin, subsequent_indent=margin + later, break_long_words=False,
                         break_on_hyphens=False)


def seen_length(text: str) -> int:
    """How many columns a text takes, without the codes of its colours."""
    return len(CODE.sub('', text))


def folded_line(line: str, most: int) -> List[str]:
    """A line broken at spaces into lines of at most so many columns, the later ones further in. A word that is longer than a line, such
    as a path or a checksum, stays whole, so that it can be copied."""
    if seen_length(line) <= most:
        return [line]
    margin = line[:len(line) - len(line.lstrip(' '))]
    lines, later = [margin], margin + HANGING
    for space, word in re.findall(r'( *)([^ ]+)', line[len(margin):]):
        begins = not lines[-1].strip()
        fits = seen_length(lines[-1] + space + word) <= most
        if begins or fits or len(later) + seen_length(word) > most:
            lines[-1] += (space if lines[-1].strip() else '') + word
        else:
            lines.append(later + word)
    return lines


def cut(text: str, most: int) -> str:
    """A text of at most so many columns, with its end left out."""
    return text if len(text) <= most else text[:max(0, most - len(CUT))].rstrip() + CUT


def say(lines: Iterable[str], stream=None) -> None:
    """Prints lines, on a terminal folded to its width."""
    stream = sys.stdout if stream is None else stream
    most = columns(stream)
    for line in lines:
        for each in [line] if most is None else folded_line(line, most):
            print(each, file=stream)


def say_located(lines: Iterable[str], stream=None) -> None:
    """Prints lines as `say` does. In an editor those without a margin stay whole, as it reads their locations."""
    is_read = any(os.environ.get(each) for each in EDITORS) or os.environ.get('TERM_PROGRAM') == 'vscode'
    for line in lines:
        if is_read and not line.startswith(' '):
            print(line, file=sys.stdout if stream is None else stream)
        else:
            say([line], stream)


def complain(text: str) -> None:
    """Prints a text of one or more lines on standard error, on a terminal folded to its width."""
    say(text.split('\n'), sys.stderr)
