"""Where a program came from, and what may be said of it: by its own sum, by the record next to it, and by the PROVED.txt of a
release.

    standing = standing_of(program)
    standing.digest, standing.kit       # the SHA-256 of the file, and the kit that made it, '' where that is not known
    standing.proved                     # one sentence: released, proved here, built here and not proved, or changed since
"""
import hashlib
import os
import re
import subprocess
from typing import Dict, NamedTuple, Optional

from .program import BUILT, PACKAGE, TOP, Program, file_of

RECORD = 'record'
BY_GATE = 'built here by the gate'
PASSED = re.compile(r'[1-9]\d* passed, 0 failed(, \d+ skipped)?')


class Standing(NamedTuple):
    """What is known about a program."""
    digest: str
    kit: str
    proved: str


def standing_of(program: Program) -> Standing:
    with open(file_of(program.path), 'rb') as file:
        digest = hashlib.sha256(file.read()).hexdigest()
    release, record = released(), record_of(program)
    is_released = digest in (release.get('program'), release.get('lowered'))
    is_recorded = record.get('program') == digest
    kit = release.get('kit', '') if is_released else record.get('kit', '') if is_recorded else ''
    if is_released:
        said = f'released: PROVED.txt of {release.get("rooplpp", "the release")} names this sum'
        return Standing(digest, kit, said + of_others(program, release.get('sources', '').split(' ')[0]))
    if not record:
        return Standing(digest, kit, 'not known: there is no record next to it, and no PROVED.txt names its sum')
    if not is_recorded:
        return Standing(digest, kit, 'no: changed since its record was written, which names another sum')
    return Standing(digest, kit, by_record(program, record))


def by_record(program: Program, record: Dict[str, str]) -> str:
    """What the record of this very program says."""
    gate, day = record.get('gate', ''), record.get('date', '')
    if record.get('origin') != BY_GATE or not PASSED.fullmatch(gate):
        said = 'no: built here and not proved by the gate'
        return said + (f', whose last line was: {gate}' if gate else '')
    return f'proved here on {day}, {gate}' + of_others(program, record.get('sources', ''))


def of_others(program: Program, sources: str) -> str:
    return '; of other sources than those that are here now' if sources_fit(program, sources) is False else ''


def record_of(program: Program) -> Dict[str, str]:
    """The lines NAME: value of the record next to a program; empty where there is none."""
    path = os.path.join(os.path.dirname(program.path), RECORD)
    if not os.path.isfile(path):
        return {}
    with open(path, encoding='utf-8', errors='replace') as file:
        lines = [line.rstrip('\n').partition(': ') for line in file]
    return {name: value for name, _, value in lines}


def released() -> Dict[str, str]:
    """What PROVED.txt says, of the release in a clone or of an installed one: its commit, kit, gate and the program's sum, among
    others; empty where there is none."""
    installed = os.path.join(PACKAGE, 'docs', 'PROVED.txt')
    path = next((each for each in (os.path.join(TOP, 'release', 'PROVED.txt'), installed) if os.path.isfile(each)), None)
    if path is None:
        return {}
    with open(path, encoding='utf-8') as file:
        lines = [line.split() for line in file]
    return {words[0]: ' '.join(words[1:]) for words in lines if len(words) > 1}


def sources_fit(program: Program, recorded: str) -> Optional[bool]:
    """Whether the sources of the clone have the sum of its program's record; None where there are none to compare."""
    summing = os.path.join(TOP, 'tools', 'made_of')
    if os.path.realpath(program.path) != os.path.realpath(BUILT) or not os.path.isfile(summing):
        return None
    done = subprocess.run([summing], stdin=subprocess.DEVNULL, stdout=subprocess.PIPE, stderr=subprocess.DEVNULL,
                          check=False)
    return done.returncode == 0 and done.stdout.decode().strip() == recorded
