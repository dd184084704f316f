"""Whether an assembly text does what its comments `;?` expect: `rpp test` for PISA. A case gives cells their words before the
run, `5=3 6=9 -> cell 5 = 9, cell 6 = 3, registers 0`, and says what `run` and the state that it saves have at the end."""
import re
import struct
from typing import Dict, List

from .arena import STEPS, open_parts, state_cells
from .expectations import Case, Expectations
from .judging import Finding, Verdict, cleaned, kind_of
from .messages import Told, read_answer, refusal
from .program import Folder, OutOfTime, Program
from .screen import wrapped
from .state import HEADER, loaded_state

HEAP = DEPTH = 1
REGISTER = re.compile(r'^\$(\d+) = (-?\d+)$', re.M)


class AssemblyJudge:
    """Judges one assembly text; `folder` is for its image and states."""

    def __init__(self, program: Program, folder: Folder, name: str, content: bytes, expected: Expectations):
        self.program, self.folder, self.name, self.expected = program, folder, name, expected
        self.lines = content.decode('utf-8', 'replace').split('\n')
        self.text, self.image = folder.name('text.pisa'), folder.name('image')
        self.start, self.end = folder.name('start'), folder.name('end')
        with open(self.text, 'wb') as out:
            out.write(content)

    def verdict(self) -> Verdict:
        told = read_answer(self.program.call('asm', self.text, self.image))
        if told.kind != 'done':
            return Verdict('refused', [], self.refused(told))
        findings = [self.case(case) for case in self.expected.cases]
        return Verdict(kind_of(findings), findings, [])

    def refused(self, told: Told) -> List[str]:
        rule = refusal(told.number) if told.number else None
        at = f'{self.name}:{told.at}: ' if told.at else f'{self.name}: '
        lines = [f'{at}refused {told.number} {told.name}' if told.number else f'{at}{told.first_line}']
        if told.at and told.at <= len(self.lines):
            lines.append(f'{told.at:5d} | {self.lines[told.at - 1]}')
        return cleaned(lines + (wrapped(rule.sentence) if rule else []))

    def case(self, case: Case) -> Finding:
        why = [line for wanted in case.wanted for line in open_parts(wanted)]
        if why:
            return Finding(case.line, case.text, why, 'open')
        try:
            told = self.run(case)
            if told.kind == 'done':
                return Finding(case.line, case.text, self.why(case, told))
            kind = {'bound': 'endless', 'fault': 'fault'}.get(told.kind, 'wrong')
            return Finding(case.line, case.text, [f'the run ended with {told.first_line}, and not at FINISH'], kind)
        except OutOfTime:
            return Finding(case.line, case.text, ['the run took longer than it was allowed to'], 'late')

    def bounds(self, case: Case) -> List[int]:
        return [case.bounds.get('heap', HEAP), case.bounds.get('depth', DEPTH)]

    def run(self, case: Case) -> Told:
        """Runs the image with these words in its cells, and saves where it ended."""
        state = bytearray(loaded_state(self.program, self.image, *self.bounds(case)))
        for cell, number in case.inputs.items():
            struct.pack_into('<i', state, HEADER.size + 4 * int(cell), int(number))
        with open(self.start, 'wb') as out:
            out.write(state)
        words = [self.image, *self.bounds(case), case.bounds.get('steps', STEPS), self.start, self.end]
        return read_answer(self.program.call('run', *words))

    def why(self, case: Case, told: Told) -> List[str]:
        cells = state_cells(self.end)
        lines: List[str] = []
        for wanted in case.wanted:
            if wanted.kind == 'cell':
                lines += cell_differs(cells, int(wanted.parts[0]), int(wanted.parts[1]))
            elif wanted.kind == 'registers':
                lines += [f'${number} is {value} at the end, and must be 0' for number, value in REGISTER.findall(told.output)]
            elif wanted.kind == 'own inverse':
                lines += self.flip_differs()
            elif wanted.text != 'ends well':
                lines.append(f'`{wanted.text}` is not for assembly texts')
        return lines

    def flip_differs(self) -> List[str]:
        """Where the listings of the image and of its flip differ first."""
        flipped = self.folder.name('flipped')
        self.program.call('flip', self.image, flipped)
        own, other = self.listing(self.image), self.listing(flipped)
        return next(([f'its inverse has {there} as instruction {at}, where it has {here} itself']
                     for at, (here, there) in enumerate(zip(own, other)) if here != there), [])

    def listing(self, image: str) -> List[str]:
        self.program.call('list', image, self.folder.name('listing'))
        with open(self.folder.name('listing'), encoding='utf-8') as file:
            return [' '.join(line.split()) for line in file]


def cell_differs(cells: Dict[int, int], cell: int, must: int) -> List[str]:
    value = cells.get(cell)
    return [] if value == must else [f'cell {cell} is {"not there" if value is None else value}, and must be {must}']
