"""The repository: its files, its version, its commit, and the checksum of its sources."""
import functools
import hashlib
import os
import re
import shutil
import subprocess

TOP = os.path.dirname(os.path.dirname(os.path.dirname(os.path.realpath(__file__))))
RELEASE = os.path.join(TOP, 'release')
NOT_COPIED = {'__pycache__', 'tests', 'out', 'screenshots'}


class CannotRelease(Exception):
    """Something that a release is made of is missing, or is not what it must be; the text says what."""


def path_of(name):
    return os.path.join(TOP, name)


def read_bytes(name):
    with open(path_of(name), 'rb') as it:
        return it.read()


def read_text(name):
    return read_bytes(name).decode('utf-8')


def sum_of(data):
    return hashlib.sha256(data).hexdigest()


def printed_by(*words):
    """What a command prints, without the last line end."""
    return subprocess.run(words, cwd=TOP, check=True, stdout=subprocess.PIPE).stdout.decode().rstrip('\n')


def version():
    """The newest version of CHANGELOG.md."""
    return re.search(r'^## (\d[\w.]*)', read_text('CHANGELOG.md'), re.M).group(1)


@functools.lru_cache(maxsize=None)
def sources():
    """The checksum of the current sources."""
    return printed_by('bash', path_of('tools/made_of'))


def has_git():
    return os.path.exists(path_of('.git')) and shutil.which('git') is not None


def names_below(folder):
    """The files below a folder, by their paths from the top, except tests and what makes pictures: those that git knows, or all if there
    is no git."""
    if has_git():
        names = printed_by('git', 'ls-files', folder).split('\n')
    else:
        paths = [os.path.join(at, name) for at, _, files in os.walk(path_of(folder)) for name in files]
        names = [os.path.relpath(path, TOP).replace(os.sep, '/') for path in paths]
    return sorted(name for name in names if name and os.path.isfile(path_of(name)) and not NOT_COPIED & set(name.split('/')))


def commit():
    """The current commit. No file may differ from it, except in release/."""
    if not has_git():
        raise CannotRelease('a release is made of a commit, and there is no git here')
    changed = [line for line in printed_by('git', 'status', '--porcelain').split('\n') if line and not line[3:].startswith('release/')]
    if changed:
        raise CannotRelease('the tree has changes that no commit has:\n' + '\n'.join(changed[:9]))
    return printed_by('git', 'rev-parse', 'HEAD')


def day_of(name):
    """The second at which a commit was made, which every file of a release bears."""
    return int(printed_by('git', 'log', '-1', '--format=%ct', name))
