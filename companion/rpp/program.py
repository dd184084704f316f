"""The built program: where it is, how it is called, and what it answered.

    program = Program.found()                       # raises NoProgram, whose text says what to do
    answer = program.call('check', 'list.rpp')
    answer.status, answer.output                    # 0, 'accepted\\n'
    with program.folder() as folder:                # a folder for scripts and images, which is removed at the end
        script = folder.write('script', 'step 1\\n')
        program.call('trace', 'list.rpp', 12, 64, script)

A call that is interrupted (^C, or `stop` from another thread) raises Interrupted, one that passes its time OutOfTime, and
one that a signal ended Killed. Nothing of it goes on running then.
"""
import contextlib
import os
import shutil
import subprocess
import sys
import tempfile
import threading
from typing import List, NamedTuple, Optional

PACKAGE = os.path.dirname(os.path.realpath(__file__))
TOP = os.path.dirname(os.path.dirname(PACKAGE))
BUILT = os.path.join(TOP, 'crates', 'rooplpp', 'out', 'rooplpp')
UNPACK = os.path.join(TOP, 'tools', 'unpack')
SCRIPT_LIMIT = 65536
# The status of a call that node had to end; the program itself never has it.
ABORTED = 134
WHAT_TO_DO = """rpp: there is no built program rooplpp to call. It may be
  - named by the environment variable ROOPLPP_PROGRAM,
  - unpacked from release/ in a clone, which this tool does if release/ is of the sources that are there,
  - built in a clone, by ./rooplpp check examples/first.rpp (up to an hour the first time),
  - installed next to this tool, or anywhere on the path."""


class NoProgram(Exception):
    """There is no program to call; the text says what to do."""


class Interrupted(Exception):
    """The call was ended by ^C or by `stop`."""


class OutOfTime(Exception):
    """The call took longer than it was allowed to."""


class Killed(Exception):
    """A signal ended the program; the text says which."""


class OverSource(Exception):
    """A file that is to be written is one of those that are read."""


class Answer(NamedTuple):
    """What the program answered: its status and all that it printed."""
    status: int
    output: str


class Closing:
    """What a `with` closes where it ends; a class of this kind has `close`."""

    def __enter__(self):
        return self

    def __exit__(self, *_):
        self.close()


class Folder:
    """A folder for files that only the program reads or writes; it goes with the `with` that opened it."""

    def __init__(self):
        self.path = ''

    def __enter__(self) -> 'Folder':
        self.path = tempfile.mkdtemp(prefix='rpp-')
        return self

    def __exit__(self, *_):
        shutil.rmtree(self.path, ignore_errors=True)

    def name(self, file: str) -> str:
        return os.path.join(self.path, file)

    def write(self, file: str, text: str) -> str:
        """Writes the text into a file of the folder, and gives its path."""
        with open(self.name(file), 'w', encoding='utf-8') as out:
            out.write(text)
        return self.name(file)


class Program:
    """A built program; `path` is its file, `origin` says how it was found."""

    def __init__(self, path: str, origin: str):
        self.path = path
        self.origin = origin
        self.calls = 0
        self._running: Optional[subprocess.Popen] = None
        self._lock = threading.Lock()
        self._stopped = False

    @classmethod
    def found(cls, unpacks: bool = True) -> 'Program':
        """The program to call. In a clone that has none, the released one is unpacked, where it is of the sources there."""
        named = os.environ.get('ROOPLPP_PROGRAM')
        if named:
            if not is_program(named):
                raise NoProgram(f'rpp: ROOPLPP_PROGRAM names {named}, which {why_no_program(named)}')
            return cls(os.path.abspath(named), 'ROOPLPP_PROGRAM')
        for path, origin in candidates():
            if is_program(path) or unpacks and path == BUILT and is_unpacked():
                return cls(path, origin)
        raise NoProgram(WHAT_TO_DO)

    def call(self, *words, timeout: Optional[float] = None) -> Answer:
        """Calls the program with these words."""
        line = self.line([str(word) for word in words])
        with self._lock:
            self._stopped = False
            self.calls += 1
            self._running = subprocess.Popen(line, stdin=subprocess.DEVNULL, stdout=subprocess.PIPE,
                                             stderr=subprocess.STDOUT)
        try:
            output, _ = self._running.communicate(timeout=timeout)
        except subprocess.TimeoutExpired:
            self._end()
            raise OutOfTime() from None
        except KeyboardInterrupt:
            self._end()
            raise Interrupted() from None
        except SystemExit:
            self._end()
            raise
        return self._answer(output)

    def line(self, words: List[str]) -> List[str]:
        """The command line of a call with these words."""
        return command_of(self.path) + words

    def stop(self) -> None:
        """Ends the call that is under way in another thread, which then raises Interrupted."""
        with self._lock:
            self._stopped = True
            if self._running is not None and self._running.poll() is None:
                self._running.kill()

    @contextlib.contextmanager
    def waiting_for(self, process: subprocess.Popen):
        """While this lasts, `stop` ends this process, which answers as a call does."""
        with self._lock:
            self._stopped, self._running = False, process
        try:
            yield
        finally:
            with self._lock:
                self._running = None

    @property
    def is_stopped(self) -> bool:
        """Whether `stop` ended what was under way last."""
        return self._stopped

    @staticmethod
    def folder() -> Folder:
        return Folder()

    def _answer(self, output: bytes) -> Answer:
        code = self._running.returncode
        if self._stopped and code != 0:
            raise Interrupted()
        if is_for_node(self.path) and code == ABORTED:
            raise Killed(output.decode('utf-8', 'replace').strip())
        if code < 0:
            if -code == 2:
                raise Interrupted()
            raise Killed(f'the program was ended by signal {-code}')
        return Answer(code, output.decode('utf-8', 'replace'))

    def _end(self) -> None:
        self._running.kill()
        self._running.communicate()


def candidates():
    """Where a built program may be, the likeliest place first."""
    yield BUILT, 'in this clone'
    # (PREFIX/share/rooplpp/rpp is the package of an installation)
    prefix = os.path.dirname(os.path.dirname(os.path.dirname(PACKAGE)))
    yield os.path.join(prefix, 'bin', 'rooplpp'), 'installed next to this tool'
    for folder in os.environ.get('PATH', '').split(os.pathsep):
        if folder:
            yield os.path.join(os.path.abspath(folder), 'rooplpp'), 'on the path'


def is_for_node(path: str) -> bool:
    """Whether the file is the program of the package for node. npm makes a link to it."""
    return os.path.realpath(path).endswith('.mjs')


def node() -> Optional[str]:
    return shutil.which('node') or shutil.which('nodejs')


def command_of(path: str) -> List[str]:
    """The words that call the program in a file."""
    return [node() or 'node', os.path.realpath(path)] if is_for_node(path) else [path]


def file_of(path: str) -> str:
    """The file whose checksum says which program it is: for node the module, which its host has next to it."""
    module = os.path.join(os.path.dirname(os.path.realpath(path)), 'rooplpp.wasm')
    return module if is_for_node(path) and os.path.isfile(module) else path


def is_unpacked() -> bool:
    """Unpacks the released program into a clone; whether it is there then. What is said of it goes to standard error."""
    if not os.path.isfile(UNPACK):
        return False
    subprocess.run(['bash', UNPACK], stdin=subprocess.DEVNULL, stdout=sys.stderr.fileno(), check=False)
    return is_program(BUILT)


def is_program(path: str) -> bool:
    """Whether the file can be run and is no script: the script ./rooplpp may prove for an hour before it answers."""
    if is_for_node(path):
        return os.path.isfile(path) and node() is not None
    return os.path.isfile(path) and os.access(path, os.X_OK) and not is_script(path)


def is_script(path: str) -> bool:
    try:
        with open(path, 'rb') as file:
            return file.read(2) == b'#!'
    except OSError:
        return False


def why_no_program(path: str) -> str:
    if not os.path.isfile(path):
        return 'is no file'
    if is_for_node(path):
        return 'node runs, and there is no node on the path'
    if is_script(path):
        return 'is a script; name the built file itself'
    return 'cannot be run'


def keep_apart(out: str, *read: str) -> None:
    """Raises OverSource where the file that is to be written is one of those that are read."""
    for each in read:
        same = os.path.realpath(out) == os.path.realpath(each)
        if same or (os.path.exists(out) and os.path.exists(each) and os.path.samefile(out, each)):
            raise OverSource(f'{out} is read as {each}: give the result another name')
