"""The reader's site of tools/site as an archive."""
import os
import subprocess
import sys
import tempfile

from .archives import FILE, tar_gz
from .repository import CannotRelease, path_of, version


def folder():
    return f'rooplpp-{version()}-site'


def name():
    return f'{folder()}.tar.gz'


def files_below(top):
    """The files below a folder, by their paths, each with its mode and its bytes."""
    paths = [os.path.join(at, it) for at, _, names in os.walk(top) for it in names]
    found = {}
    for path in paths:
        with open(path, 'rb') as it:
            found[os.path.relpath(path, top).replace(os.sep, '/')] = (FILE, it.read())
    return found


def package(day):
    with tempfile.TemporaryDirectory() as temporary:
        done = subprocess.run([sys.executable, path_of('tools/site'), f'{temporary}/site'], stdout=subprocess.PIPE, stderr=subprocess.STDOUT,
                              check=False)
        if done.returncode:
            raise CannotRelease(f'tools/site made no site:\n{done.stdout.decode()}')
        return tar_gz(files_below(f'{temporary}/site'), f'{folder()}/', day)
