"""The records of the built programs, and the counts of their tests. A release takes both from the files in crates/*/out, and nothing
from its caller."""
import os
import re

from .repository import CannotRelease, path_of, read_bytes, sources, sum_of

# The programs by the names of their commands, and the crate of each, whose folder `out` has the program and its record.
PROGRAMS = {'rooplpp': 'rooplpp', 'rooplpp-live': 'rooplpp_live'}
BY_GATE = 'built here by the gate'
PASSED = re.compile(r'[1-9]\d* passed, 0 failed(, \d+ skipped)?')


def out_of(command):
    return os.path.join('crates', PROGRAMS[command], 'out')


def file_of(command):
    """The built program."""
    return os.path.join(out_of(command), PROGRAMS[command])


def lines_of(name, command='rooplpp'):
    """The lines NAME: VALUE of a file in a program's folder; none if there is no such file."""
    try:
        with open(path_of(os.path.join(out_of(command), name)), encoding='utf-8') as it:
            lines = [line.rstrip('\n').partition(': ') for line in it]
    except OSError:
        return {}
    return {name: value for name, _, value in lines}


def built(command):
    """A built program. Its record must name its checksum and the current sources."""
    program, record = file_of(command), lines_of('record', command)
    if not os.path.isfile(path_of(program)) or not record:
        raise CannotRelease(f'there is no program with a record in {out_of(command)}: let .ci/run prove and build it')
    data = read_bytes(program)
    if record.get('program') != sum_of(data):
        raise CannotRelease(f'{program} has the sum {sum_of(data)}, and its record names another: {record.get("program")}')
    if record.get('sources') != sources():
        raise CannotRelease(f'the record in {out_of(command)} names other sources than the current ones: let .ci/run build the program')
    return data


def proved(command):
    """A built program. Its record must say that the gate built it and passed."""
    data, record = built(command), lines_of('record', command)
    if record.get('origin') != BY_GATE or not PASSED.fullmatch(record.get('gate', '')):
        said = f'origin: {record.get("origin")}, gate: {record.get("gate")}'
        raise CannotRelease(f'the record in {out_of(command)} does not say that the gate built the program and passed ({said})')
    return data


def all_proved():
    """The programs by their commands. One run of the gate must have built them all."""
    found = {command: proved(command) for command in PROGRAMS}
    runs = {tuple(lines_of('record', command).get(it) for it in ('sources', 'kit', 'gate')) for command in PROGRAMS}
    if len(runs) > 1:
        raise CannotRelease('the records of the programs are of several runs of the gate: ' + ', '.join(map(out_of, PROGRAMS)))
    return found


def said_by_suite(program):
    """The counts of the parts of the suite by their names, if the suite ran on this program."""
    said = lines_of('suite')
    return said if said.get('program') == sum_of(program) else {}
