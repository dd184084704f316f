"""The files that a command reads. Standard input (`-`) and pipes, as /dev/stdin and <(..), are read once and kept until the command
ends, so that the program can read them as often as it needs.

    parser.add_argument('source', type=readable)        # the path of a file that can be read again
    shown(given.source)                                 # the name that messages have: 'a.rpp', '<stdin>' or '/dev/fd/63'
"""
import atexit
import os
import re
import stat
import sys
from typing import Dict

from .program import Folder
from .spelling import similar

STDIN = '-'
# Open files of this process by name. A program that it starts has others.
OPEN = re.compile(r'/dev/stdin|/(?:dev|proc/self)/fd/\d+')

_folder = Folder()
_kept: Dict[str, str] = {}
_shown: Dict[str, str] = {}


def readable(word: str) -> str:
    """The path of what a word names; of what can be read only once that of a copy."""
    if not is_once(word):
        return word
    if word not in _kept:
        _kept[word] = keep(word)
        _shown[_kept[word]] = '<stdin>' if word == STDIN else word
    return _kept[word]


def shown(path: str) -> str:
    """What messages say for a path."""
    return _shown.get(path, path)


def title(path: str) -> str:
    """The last part of what messages say for a path; the whole of what is a pipe."""
    return _shown.get(path) or os.path.basename(path)


def is_kept(path: str) -> bool:
    """Whether a path is that of a copy, which goes when the command ends."""
    return path in _shown


def file_near(path: str) -> str:
    """The file that a path which leads nowhere is most like, name by name; '' if there is none."""
    found = os.path.sep if os.path.isabs(path) else ''
    for name in [each for each in path.split(os.path.sep) if each and not os.path.exists(path)]:
        try:
            there = sorted(os.listdir(found or '.'))
        except OSError:
            return ''
        is_there = name in there or name in (os.curdir, os.pardir)
        near = name if is_there else similar(name, [each for each in there if each[:1] != '.'])
        if not near:
            return ''
        found = os.path.join(found, near)
    return found if os.path.isfile(found) else ''


def meant_by(path: str) -> str:
    """What is said after a file that is not there: the one that may be meant."""
    near = file_near(path)
    return f'; did you mean `{near}`?' if near else ''


def keep(word: str) -> str:
    """Reads what a word names into a file of its own."""
    if word == STDIN:
        content = sys.stdin.buffer.read()
    else:
        with open(word, 'rb') as file:
            content = file.read()
    if not _folder.path:
        _folder.__enter__()
        atexit.register(_folder.__exit__)
    path = _folder.name(f'stdin{len(_kept)}.rpp')
    with open(path, 'wb') as out:
        out.write(content)
    return path


def is_once(word: str) -> bool:
    """Whether this can be read only once: standard input, an open file by its name, a pipe, a terminal or a socket."""
    if word == STDIN or OPEN.fullmatch(word):
        return True
    try:
        mode = os.stat(word).st_mode
    except OSError:
        return False
    return not stat.S_ISREG(mode) and not stat.S_ISDIR(mode)
