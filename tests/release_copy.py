"""A copy of this repository in which tests make a release. Its programs are the released ones, with records as the gate writes them;
the built rooplpp-live is taken if the release has none. The page and the module of rooplpp-live are said to be of the copy's
sources."""
import glob
import hashlib
import os
import re
import shutil
import subprocess
import sys

TOP = os.path.dirname(os.path.dirname(os.path.realpath(__file__)))
sys.path.insert(0, f'{TOP}/tools')
from packing import debian, module, record  # noqa: E402

GATE = '4711 passed, 0 failed, 3 skipped'
# A module that does nothing, where the release has none of rooplpp-live.
NO_MODULE = b'\0asm\1\0\0\0'
SUITE = {'wrong bodies': '64 of 64 refused', 'test-cases': '812 passed, 0 failed', 'agree': '1000 passed, 0 failed'}


def read(path, mode='r'):
    with open(path, mode, **({} if 'b' in mode else {'encoding': 'utf-8'})) as it:
        return it.read()


def write(path, text):
    os.makedirs(os.path.dirname(path), exist_ok=True)
    with open(path, 'wb') as out:
        out.write(text if isinstance(text, bytes) else text.encode())


def run(*words, **how):
    return subprocess.run(words, stdin=subprocess.DEVNULL, stdout=subprocess.PIPE, stderr=subprocess.PIPE, universal_newlines=True,
                          check=False, **how)


def sum_of(data):
    return hashlib.sha256(data).hexdigest()


def below(folder):
    """The files below a folder, with their bytes."""
    paths = [os.path.join(at, name) for at, _, names in os.walk(folder) for name in names]
    return {os.path.relpath(path, folder): read(path, 'rb') for path in paths}


def copy_repository(to):
    """Copies the files that git has, or would take."""
    for name in run('git', 'ls-files', '-co', '--exclude-standard', cwd=TOP).stdout.splitlines():
        if os.path.isfile(f'{TOP}/{name}'):
            os.makedirs(os.path.dirname(f'{to}/{name}'), exist_ok=True)
            shutil.copy(f'{TOP}/{name}', f'{to}/{name}')


def programs():
    """The programs by their commands: the released ones, or the built rooplpp-live if the release has none; else nothing."""
    package = read(next(glob.iglob(f'{TOP}/release/*.deb')), 'rb')
    found = {'rooplpp': debian.program_in(package)}
    try:
        return {**found, 'rooplpp-live': debian.program_in(package, 'rooplpp-live')}
    except KeyError:
        path = f'{TOP}/{record.file_of("rooplpp-live")}'
        return {**found, 'rooplpp-live': read(path, 'rb')} if os.path.isfile(path) else None


class Copy:
    """A copy of the repository with the programs and their records."""

    def __init__(self, folder):
        self.folder, self.top = folder, f'{folder}/clone'
        copy_repository(self.top)
        self.programs = programs()
        self.sources = run(self.path('tools/made_of')).stdout.strip()
        self.record = {'origin': 'built here by the gate', 'sources': self.sources, 'kit': 'rattle-kit-0 logic 0', 'gate': GATE,
                       'date': '2026-11-29'}
        self.page = re.sub(r'"sources": "\w+"', f'"sources": "{self.sources}"', read(f'{TOP}/release/playground.html'))
        self.module = self.module_of()
        self.page = re.sub(r'"liveLinked": "\w+"', f'"liveLinked": "{module.origin_of(self.module)["linked"]}"', self.page)
        self.set()
        self.git('init', '-q')
        self.git('add', '-A')
        self.git('commit', '-q', '-m', 'all')

    def path(self, name):
        return os.path.join(self.top, name)

    def git(self, *words):
        who = ['-c', 'user.name=tests', '-c', 'user.email=tests@localhost', '-c', 'commit.gpgsign=false']
        run('git', '-C', self.top, *who, *words)

    def module_of(self, **changes):
        """The module of rooplpp-live, which says that it is of the sources and of the program here, with these changes."""
        path = f'{TOP}/release/rooplpp-live.wasm'
        data = module.without_origin(read(path, 'rb')) if os.path.isfile(path) else NO_MODULE
        origin = {'sources': self.sources, 'program': sum_of(self.programs['rooplpp-live']), 'linked': sum_of(data)}
        return module.with_origin(data, {**origin, **changes})

    def set(self, command='rooplpp', program=None, page=None, live=None, **changes):
        """Puts the programs, their records, the page and the module in place, with these changes of one program."""
        for each, data in self.programs.items():
            its = {'program': sum_of(data), **self.record, **(changes if each == command else {})}
            write(self.path(record.file_of(each)), program if program and each == command else data)
            os.chmod(self.path(record.file_of(each)), 0o755)
            write(self.path(f'{record.out_of(each)}/record'), ''.join(f'{name}: {value}\n' for name, value in its.items()))
        write(self.path('release/playground.html'), page or self.page)
        write(self.path('release/rooplpp-live.wasm'), live or self.module)

    def release(self, *words, **environment):
        return run(sys.executable, self.path('tools/release'), *words, env={**os.environ, **environment})

    def suite(self, program):
        lines = {'program': program, **SUITE}
        write(self.path('crates/rooplpp/out/suite'), ''.join(f'{name}: {said}\n' for name, said in lines.items()))
