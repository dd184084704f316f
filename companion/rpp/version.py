"""`rpp version`: Prints the commit of this tool, the program that it calls, and what is known about that."""
import os
import subprocess
from typing import List

from .options import Parser
from .program import BUILT, TOP, NoProgram, Program, is_program, why_no_program
from .record import released, standing_of
from .screen import complain, say


def parser() -> Parser:
    return Parser(prog='rpp version', description=__doc__.split(':', 1)[1].strip())


def main(words: List[str]) -> int:
    parser().parse_args(words)
    say([f'rpp: {commit()}'])
    if os.path.exists(BUILT) and not is_program(BUILT) and not os.environ.get('ROOPLPP_PROGRAM'):
        say([f'passed over: {BUILT}, which {why_no_program(BUILT)}'])
    try:
        program = Program.found(unpacks=False)
    except NoProgram as missing:
        complain(str(missing))
        return 126
    standing = standing_of(program)
    say([f'program: {program.path} ({program.origin})', f'sha256: {standing.digest}', f'kit: {standing.kit or "not known"}',
         f'proved: {standing.proved}'])
    return 0


def commit() -> str:
    """The commit of the repository around this tool, or what a release wrote down of it."""
    try:
        done = subprocess.run(['git', '-C', TOP, 'describe', '--always', '--dirty', '--tags'], stdin=subprocess.DEVNULL,
                              stdout=subprocess.PIPE, stderr=subprocess.DEVNULL, check=False)
        if os.path.isdir(os.path.join(TOP, '.git')) and done.returncode == 0:
            return f'commit {done.stdout.decode().strip()}'
    except OSError:
        pass
    # (the release in a clone may be of an earlier commit)
    commit_of_release = '' if os.path.isdir(os.path.join(TOP, 'release')) else released().get('commit')
    return f'commit {commit_of_release}, of a release' if commit_of_release else 'commit not known'
