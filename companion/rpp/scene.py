"""What an editor shows of a run while it is stopped: the active calls, their variables and objects, as the protocol has them.

Everything is of the position of the session when the scene was made; with the next move it is over."""
import os
from typing import Any, Dict, List, NamedTuple, Optional, Tuple

from .changes import computed, joined, thing_of, value_of
from .faults import Failing
from .formulas import BadFormula, Formula
from .frames import Pair, Statements
from .places import Text
from .session import Frame, Session
from .trace import Moment

Body = Dict[str, Any]


class Declined(Exception):
    """A request that is answered with a sentence in the place of a result."""


class Counting(NamedTuple):
    """From which number on an editor counts lines and columns."""

    line: int = 1
    column: int = 1

    def shown(self, text: Text, place: int) -> Dict[str, int]:
        at = text.position(place)
        return {'line': at.line + self.line, 'column': at.character + self.column}

    def offset(self, text: Text, line: int, column: Optional[int] = None) -> Optional[int]:
        """The byte of a line, or of a column in it; None after the last line."""
        row = line - self.line
        if row >= len(text.starts):
            return None
        return text.position_offset(row, 0 if column is None else column - self.column)


class Group(NamedTuple):
    """Variables that can be asked for: of a scope, or the cells of the object with this path, in one moment."""

    moment: Moment
    pairs: List[Pair]
    path: str

    def path_of(self, name: str) -> str:
        return self.path + (joined(name) if self.path else name)


class Scene:
    """What is there at the position of a session. `failed` is the statement that fails there, if a fault stopped the run."""

    def __init__(self, session: Session, statements: Statements, counting: Counting, failed: Optional[Failing] = None):
        self.session = session
        self.statements = statements
        self.counting = counting
        self.groups: List[Group] = []
        self.failed = failed or Failing(None, None, False)
        # (at the end of the run no call is open)
        self.frames = open_at_fault(session, failed) or [Frame(0, 'the end of the run', -1, session.position, False, 1)]

    # ---- active calls

    def frame(self, number: int) -> Body:
        each = self.frames[number]
        named = {'id': number + 1, 'name': each.method + (' uncalled' if each.uncalled else '')}
        if each.place < 0:
            return {**named, 'line': 0, 'column': 0, 'presentationHint': 'label'}
        text, path = self.session.run.text, os.path.realpath(self.session.run.source)
        test = self.failed.test if number == 0 else None
        end = self.counting.shown(text, test.end if test else self.statements.end_of_head(each.place))
        named['source'] = {'name': os.path.basename(path), 'path': path}
        return {**named, **self.counting.shown(text, each.place), 'endLine': end['line'], 'endColumn': end['column']}

    def stack(self, first: int, levels: int) -> Body:
        shown = [self.frame(number) for number in range(len(self.frames))]
        return {'stackFrames': shown[first : first + (levels or len(shown))], 'totalFrames': len(shown)}

    def framed(self, frame_id: Optional[int]) -> Tuple[Frame, Moment]:
        """A frame, and the moment at which the call that it makes began, or that is now, or at which a test failed."""
        number = (frame_id or 1) - 1
        if not 0 <= number < len(self.frames):
            raise Declined('there is no such frame')
        test = self.failed.test if number == 0 else None
        return self.frames[number], test.moment if test else self.session.run.moment(self.frames[number].position)

    def when(self, frame: Frame) -> str:
        """The moment of the variables of a frame, where that is not this position."""
        if frame is self.frames[0] and (self.failed.test or frame.place in (self.session.point.place, -1)):
            return ''
        return ', before the last statement' if frame.position == self.session.position else ', as the call began'

    # ---- variables

    def scopes(self, frame_id: Optional[int]) -> Body:
        frame, moment = self.framed(frame_id)
        is_test = frame is self.frames[0] and self.failed.test is not None
        fields, inner = self.statements.parted(moment, self.statements.names_within(self.failed.place) if is_test else None)
        when = self.when(frame)
        thing = moment.objects.get(frame.number)
        owner = f'#{frame.number} {thing.head}' if thing else 'the object'
        every = [(f'#{number}', f'#{number}') for number in sorted(moment.objects)]
        made = [self.scope(f'Fields of {owner}{when}', moment, fields), self.scope(f'Objects{when}', moment, every)]
        if not moment.point.at_end:
            inmost = self.scope(f'Parameters and locals{when}', moment, inner)
            made.insert(0, {**inmost, 'presentationHint': 'locals'})
        return {'scopes': made}

    def scope(self, name: str, moment: Moment, pairs: List[Pair]) -> Body:
        reference = self.reference(Group(moment, pairs, ''))
        return {'name': name, 'variablesReference': reference, 'namedVariables': len(pairs), 'expensive': False}

    def reference(self, group: Group) -> int:
        self.groups.append(group)
        return len(self.groups)

    def group(self, number: int) -> Group:
        if not 0 < number <= len(self.groups):
            raise Declined('the run has moved since')
        return self.groups[number - 1]

    def variables(self, number: int, first: int, count: int) -> Body:
        group = self.group(number)
        pairs = group.pairs[first : first + (count or len(group.pairs))]
        return {'variables': [self.variable(group, name, value) for name, value in pairs]}

    def variable(self, group: Group, name: str, value: str) -> Body:
        return {'name': name, **self.value(group.moment, value), 'evaluateName': group.path_of(name)}

    def value(self, moment: Moment, value: str) -> Body:
        """A value as it is shown; an object or array with its cells."""
        thing = thing_of(moment, value)
        if thing is None:
            return {'value': value, 'type': '' if value == 'nil' else 'int', 'variablesReference': 0}
        reference = self.reference(Group(moment, list(thing.cells), value)) if thing.cells else 0
        kind = 'indexedVariables' if thing.head.endswith(']') else 'namedVariables'
        shown = {'value': f'{value} {thing.head} count {thing.count}', 'type': thing.head}
        return {**shown, 'variablesReference': reference, kind: len(thing.cells)}

    def evaluated(self, text: str, frame_id: Optional[int]) -> Body:
        """The value of a path, or of an expression."""
        _, moment = self.framed(frame_id)
        value = value_of(moment, text)
        if value is None:
            try:
                value = str(computed(moment, Formula(text)))
            except BadFormula as why:
                raise Declined(f'{text}: {why}') from None
        if value.startswith('#') and thing_of(moment, value) is None:
            raise Declined(f'{text}: there is no object {value} here')
        shown = self.value(moment, value)
        return {'result': shown.pop('value'), **shown}

    def watchable(self, name: str, number: int) -> Body:
        """The path by which a variable of the current call, or a cell of an object, can be watched."""
        path = self.group(number).path_of(name) if number else name
        is_here = value_of(self.session.moment, path) is not None and not path.lstrip('#').isdigit()
        told = path if is_here else f'{path} is not of the current call'
        return {'dataId': path if is_here else None, 'description': told, 'accessTypes': ['write']}


def open_at_fault(session: Session, failed: Optional[Failing]) -> List[Frame]:
    """The active calls, the innermost first. If another statement than the last one fails, they are those around it, the innermost
    at its test."""
    frames = session.stack()
    if failed is None or failed.test is None and failed.place == session.point.place or not frames:
        return frames
    test, method = failed.test, session.outline.method_at(failed.place)
    while len(frames) > 1 and not (frames[0].depth == test.moment.point.depth if test else method and frames[0].method == method.label):
        frames = frames[1:]
    return [frames[0]._replace(place=test.at if test else failed.place), *frames[1:]]
