"""One run of a case of `rpp test`: what it is to come to, and why it does not."""
from typing import Dict, List, Optional

from .expectations import OPEN, Case, Wanted
from .heap import ImageRun
from .explain import of_fault
from .messages import Told, read_answer, refusal
from .options import DEPTH, HEAP
from .program import Closing, Folder, OutOfTime, Program
from .state import HEADER
from .report import message_lines
from .screen import wrapped
from .results import Result
from .session import Session
from .trace import FAR, Moment, Refused

STEPS = 1_000_000
FUEL = 10_000_000
# what `explain` allows at most
EXPLAINED_DEPTH = 32
# after so many statements an endless run is looked at
LOOKED_AT = 100_000
COMPARED = {'=': lambda a, b: a == b, '!=': lambda a, b: a != b, '<': lambda a, b: int(a) < int(b), '>': lambda a, b: int(a) > int(b),
            '<=': lambda a, b: int(a) <= int(b), '>=': lambda a, b: int(a) >= int(b)}


def open_parts(wanted: Wanted) -> List[str]:
    return [f'`{wanted.text}` is still open: write your answer instead of the `{OPEN}`'] if wanted.is_open else []


class CaseRun(Closing):
    """A run of a source with the inputs and bounds of a case; the case is of its inverse where it says so."""

    def __init__(self, program: Program, folder: Folder, source: str, case: Case):
        self.program, self.folder, self.case, self.source = program, folder, case, source
        if case.inverse:
            self.source = folder.name('inverse.rpp')
            program.call('show-inverse', source, self.source)
        self.heap, self.depth = case.bounds.get('heap', HEAP), case.bounds.get('depth', DEPTH)
        self.steps = case.bounds.get('steps', STEPS)
        lines = ''.join(f'{name} = {number}\n' for name, number in case.inputs.items())
        self.inputs = folder.write('input', lines) if lines else None
        self._told: Optional[Told] = None
        self._session: Optional[Session] = None

    def close(self) -> None:
        if self._session is not None:
            self._session.close()

    # ---- what the run is

    @property
    def told(self) -> Told:
        """What `go` says of it, or `turn` where running back is expected."""
        if self._told is None:
            back = any(wanted.kind == 'back' for wanted in self.case.wanted)
            self._told = self.called('turn' if back else 'go', self.steps)
        return self._told

    def called(self, command: str, *numbers) -> Told:
        words = [self.source, self.heap, self.depth, *numbers] + ([self.inputs] if self.inputs else [])
        return read_answer(self.program.call(command, *words))

    @property
    def result(self) -> Result:
        """What the run left, before it went back."""
        both = 'back' in self.kinds and self.told.kind == 'done'
        return Result.both(self.told.output)[0] if both else Result.read(self.told.output)

    @property
    def kinds(self) -> List[str]:
        return [wanted.kind for wanted in self.case.wanted]

    @property
    def endings(self) -> List[Optional[str]]:
        return [wanted.parts[0] for wanted in self.case.wanted if wanted.kind == 'ends']

    @property
    def session(self) -> Session:
        if self._session is None:
            self._session = Session.begun(self.program, self.source, self.heap, self.depth, self.inputs)
        return self._session

    def first_moment(self) -> Moment:
        return self.session.run.moment(0)

    # ---- why it is not what is expected

    def why(self, name: str) -> List[str]:
        """Why the case does not hold; `name` is what the source is called."""
        answered = [self.told.kind] + (['ends'] if self.told.kind == 'fault' and 'well' not in self.endings else [])
        if self.told.kind != 'done' and not set(answered) & set(self.kinds):
            return self.stopped(name)
        return [line for wanted in self.case.wanted for line in self.one(wanted, name)]

    def one(self, wanted: Wanted, name: str) -> List[str]:
        found = getattr(self, f'why_{wanted.kind}', None)
        return found(wanted.parts, name) if found else [f'`{wanted.text}` is for assembly texts']

    def why_compare(self, parts, name: str) -> List[str]:
        path, sign, right = parts
        here = self.result.value(path)
        there = right if right == 'nil' or right.lstrip('-').isdigit() else self.result.value(right)
        for value, text in ((here, path), (there, right)):
            if value is None:
                return [f'there is no {text} at the end']
        ordered = sign in '=!=' or all(value.lstrip('-').isdigit() for value in (here, there))
        if ordered and COMPARED[sign](here, there):
            return []
        must = there if there == right else f'{right}, which is {there}'
        return [f'{path} is {here}, and must be {"" if sign == "=" else sign + " "}{must}'] + self.changed_last(path, name)

    def changed_last(self, path: str, name: str) -> List[str]:
        """The statement that changed a field of the main object last, as `trace` shows it."""
        root = path.split('.')[0].split('[')[0]
        if self.case.inverse:
            return []
        try:
            self.session.go(FAR)
            stop = self.session.watch_back(root if '[' not in path and '.' not in path else path)
        except (OutOfTime, Refused):
            return []
        if stop.reason != 'change':
            return [f'no statement changes {path}'] if stop.reason == 'start' else []
        text = self.session.run.text
        line = text.line(text.place(stop.point.place).line).split('//')[0].strip()
        return [f'{text.spelled(name, stop.point.place)}: {line}: the last statement that changed it{stop.detail[stop.detail.rfind(":"):]}']

    def why_class(self, parts, _name: str) -> List[str]:
        path, head = parts
        value = self.result.value(path)
        thing = self.result.objects.get(int(value[1:])) if value and value.startswith('#') else None
        found = thing.head if thing else value or 'not there'
        return [] if thing and head in (thing.head, thing.head.split('[')[0] + '[]') else [f'{path} is {found}, and must be {head}']

    def why_back(self, _parts, _name: str) -> List[str]:
        start = {name: self.case.inputs.get(name, '0') for name, value in self.result.fields.items()}
        back = Result.both(self.told.output)[1]
        return [f'back at the start {name} is {value}, and must be {start[name]}' for name, value in back.fields.items()
                if value not in (start[name], 'nil')]

    def why_ends(self, parts, _name: str) -> List[str]:
        told = self.told
        how = 'well' if told.kind == 'done' else f'with {told.kind} {told.number or ""} {told.name}'.rstrip()
        names = ('well',) if told.kind == 'done' else (str(told.number), told.name)
        return [] if parts[0] in names else [f'it ends {how}, and not {"" if parts[0] == "well" else "with "}{parts[0]}']

    def why_bound(self, _parts, _name: str) -> List[str]:
        return [] if self.told.kind == 'bound' else [f'the run must not end within {self.steps:,} steps, and it does: {self.told.first_line}']

    def why_live(self, parts, _name: str) -> List[str]:
        live = self.result.live
        return [] if live == int(parts[0]) else [f'`live` is {live} at the end, and must be {parts[0]}']

    def why_fault(self, parts, _name: str) -> List[str]:
        if self.told.kind != 'fault':
            return ['the run must stop with a fault, and it finishes']
        number, at = parts
        why = []
        if number and number not in (str(self.told.number), self.told.name):
            why.append(f'it is fault {self.told.number} {self.told.name}, and not {number}')
        if at:
            self.session.go(FAR)
            line = self.session.run.text.place(self.session.point.place).line
            why += [f'the last statement that began is in line {line}, and not {at}'] if int(at) != line else []
        return why

    def why_refused(self, _parts, _name: str) -> List[str]:
        return ['the source must be refused, and it is accepted']

    def why_most(self, parts, _name: str) -> List[str]:
        most, unit = int(parts[0]), parts[1]
        told = self.told if unit == 'steps' else self.explained()
        count = told.number_behind(unit)
        if count is None:
            return [f'`explain` has no cost: {told.first_line}']
        return [] if count <= most else [f'it takes {count:,} {unit}, and must take at most {most:,}']

    def explained(self) -> Told:
        words = [self.source, self.heap, min(self.depth, EXPLAINED_DEPTH), FUEL] + ([self.inputs] if self.inputs else [])
        return read_answer(self.program.call('explain', *words))

    def why_wrap(self, parts, _name: str) -> List[str]:
        words = [self.source, self.heap, self.depth, 3 * self.steps, parts[0]] + ([self.inputs] if self.inputs else [])
        told = read_answer(self.program.call('wrap', *words))
        value = Result.read(told.output).fields.get(parts[0])
        return [] if value == parts[1] else [f'`wrap` leaves {parts[0]} = {value or told.first_line}, and it must be {parts[1]}']

    # ---- the memory at the end

    def why_cell(self, parts, _name: str) -> List[str]:
        value = self.memory()[1].get(int(parts[0]))
        return [] if value == int(parts[1]) else [f'cell {parts[0]} is {"not there" if value is None else value}, and not {parts[1]}']

    def why_address(self, parts, _name: str) -> List[str]:
        memory, _ = self.memory()
        blocks = {block.address: block for block in [memory.main] + memory.blocks}
        block, at = memory.main, f'@{memory.main.address}'
        for part in parts[0].replace('[', '.[').split('.'):
            at = dict(block.cells).get(part, 'nil')
            block = blocks.get(int(at[1:]) if at.startswith('@') else -1, memory.main._replace(cells=()))
        return [] if at == f'@{parts[1]}' else [f'{parts[0]} is at {at.lstrip("@")}, and not at {parts[1]}']

    def memory(self):
        """The memory at the end of the compiled program's run, and its words by their cells."""
        run = ImageRun(self.program, self.source, self.folder, self.depth)
        run.order = self.heap
        if self.inputs:
            run.give(self.inputs)
        found = run.moment('', self.steps).memory
        return found, state_cells(self.folder.name('state'))

    # ---- a run that stopped

    def stopped(self, name: str) -> List[str]:
        """Why a run that was to end did not."""
        if self.told.kind == 'bound':
            return [f'it had not ended after {self.steps:,} steps'] + self.looked_at(name, LOOKED_AT)
        if self.told.kind == 'fault':
            message = of_fault(self.told.number, None)
            lines = [f'fault {self.told.number} {self.told.name}'] + self.looked_at(name, FAR)
            return lines + message_lines(message)
        if self.told.name == 'UnknownField':
            names = list(self.case.inputs)
            return [f'the main class has no int field {names[(self.told.at or 1) - 1]}, which is an input']
        if self.told.kind == 'refused':
            rule = refusal(self.told.number)
            return [f'refused {self.told.number} {self.told.name}'] + (wrapped(rule.sentence) if rule else [])
        return [f'the program answered with status {self.told.status}' + (': out of memory' if self.told.kind == 'memory' else '')]

    def looked_at(self, name: str, position: int) -> List[str]:
        """Where the run was after so many statements, with the variables, as `trace` shows it."""
        try:
            stop = self.session.go(position)
            if stop.point.place is None:
                return []
            text = self.session.run.text
            shown = ', '.join(f'{variable} = {value}' for variable, value in self.session.moment.variables)
            lines = text.pointed(stop.point.place).split('\n')
            return [f'{text.spelled(name, stop.point.place)}: where it was after {stop.point.position:,} statements' +
                    (f', with {shown}' if shown else '')] + lines
        except OutOfTime:
            return []
        except Refused:
            return ['`trace` does not show where.']


def state_cells(state: str) -> Dict[int, int]:
    """The cells of a state file."""
    with open(state, 'rb') as file:
        content = file.read()
    words = [int.from_bytes(content[at:at + 4], 'little', signed=True) for at in range(HEADER.size, len(content), 4)]
    return dict(enumerate(words))
