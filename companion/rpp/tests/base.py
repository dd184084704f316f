"""What the tests share: a folder of their own, the command `rpp`, and the built program itself."""
import os
import subprocess
import sys
import tempfile
import unittest

from rpp.program import TOP, Program

EXAMPLES = os.path.join(TOP, 'examples')
COMMAND = os.path.join(TOP, 'rpp')
LIST = os.path.join(EXAMPLES, 'list.rpp')
SUMS = os.path.join(EXAMPLES, 'sums.rpp')
# After so many seconds a call counts as hanging; on a machine with other work one may take a minute.
HANGS = 600


def shown_by(started: subprocess.Popen, ours: int) -> str:
    """What a program writes on a terminal up to its end; `ours` is the other side of the terminal, which is closed then."""
    said = b''
    while True:
        try:
            piece = os.read(ours, 65536)
        except OSError:
            piece = b''
        if not piece:
            break
        said += piece
    started.wait()
    os.close(ours)
    return said.decode().replace('\r\n', '\n')


class Case(unittest.TestCase):
    """A test in a folder of its own."""

    def setUp(self):
        folder = tempfile.TemporaryDirectory(prefix='rpp-test-')
        self.addCleanup(folder.cleanup)
        self.folder = folder.name
        self.program = Program.found()

    def write(self, name: str, text: str) -> str:
        path = os.path.join(self.folder, name)
        with open(path, 'w', encoding='utf-8') as out:
            out.write(text)
        return path

    def rpp(self, *words, stdin: str = '', env=None):
        """What `rpp` with these words does in the test's folder."""
        return subprocess.run([sys.executable, COMMAND, *[str(word) for word in words]], cwd=self.folder, input=stdin,
                              stdout=subprocess.PIPE, stderr=subprocess.PIPE, universal_newlines=True, check=False,
                              timeout=HANGS, env=dict(os.environ, **(env or {})))

    def trace(self, source: str, *lines: str, bounds=(12, 64)) -> str:
        """What the program's own `trace` prints for the lines of a script."""
        script = self.write('script', '\n'.join(lines) + '\n')
        answer = self.program.call('trace', source, *bounds, script)
        self.assertEqual(answer.status, 0)
        return answer.output
