"""The companion as a library: `import rpp` has the names of PUBLIC. docs/reference/library.md has examples of each.

A source is given as a path, or as bytes, which are then the text itself. What a function says of a run is what the program
printed. If the program refuses a source, an input or a bound, a function raises Refused, whose `told` has what it printed.
"""
import os
from typing import Dict, Iterator, List, Mapping, NamedTuple, Optional, Tuple, Union

from .advice import of_refusal
from .messages import Told, fault, read_answer
from .outline import Outline
from .places import Text
from .program import Closing, Folder, Program
from .results import Result
from .session import Session as _Session
from .session import Stop
from .trace import Fault, Refused, SourceRun, Thing

PUBLIC = ('Fault', 'Object', 'Outcome', 'Program', 'Refused', 'Session', 'Stop', 'Verdict', 'check', 'explain', 'inverse', 'run')
HEAP, DEPTH, STEPS, FUEL = 12, 64, 100_000_000, 10_000_000
# what `explain` allows at most
EXPLAINED_DEPTH = 32
Source = Union[str, 'os.PathLike[str]', bytes]
Inputs = Optional[Mapping[str, int]]
Value = Union[int, None, 'Object']


class Object:
    """An object or array of a result: `number`, `head` (its class, or `int[5]`), `count`, and its cells by their names or
    indexes: `node['next']`, `row[2]`. A value is a number, None for `nil`, or an Object."""

    def __init__(self, result: Result, thing: Thing):
        self._result, self._thing = result, thing
        self.number, self.head, self.count = thing.number, thing.head, thing.count

    def __getitem__(self, name: Union[str, int]) -> Value:
        label = f'[{name}]' if isinstance(name, int) else name
        for each, value in self._thing.cells:
            if each == label:
                return value_of(self._result, value)
        raise KeyError(name)

    def __iter__(self) -> Iterator[Value]:
        return iter([value_of(self._result, value) for _, value in self._thing.cells])

    def __len__(self) -> int:
        return len(self._thing.cells)

    @property
    def names(self) -> List[str]:
        """The names of its fields; of an array its indexes in brackets."""
        return [name for name, _ in self._thing.cells]

    def __eq__(self, other) -> bool:
        return isinstance(other, Object) and self._result is other._result and self.number == other.number

    def __hash__(self) -> int:
        return hash(self.number)

    def __repr__(self) -> str:
        return f'<{self.head} #{self.number}>'


class Outcome:
    """How a run ended. `kind` is 'done', 'fault' or 'bound'. A run that is done has `fields`, `live` and `objects`. `steps` or
    `cost` say what it took. `fault` is a Fault. `back` is the outcome of running back, if that was asked for."""

    def __init__(self, told: Told, result: Result, back: Optional['Outcome'] = None):
        self.kind, self.output, self.back = told.kind, told.output, back
        self.fault = Fault(told.number, told.name) if told.kind == 'fault' else None
        self._result = result

    def __bool__(self) -> bool:
        return self.kind == 'done'

    @property
    def fields(self) -> Dict[str, Value]:
        """The fields of the main object."""
        return {name: value_of(self._result, value) for name, value in self._result.fields.items()}

    def __getitem__(self, path: str) -> Value:
        """A value by its path: `count`, `list.head.data`, `row[2]`."""
        found = self._result.value(path)
        if found is None:
            raise KeyError(path)
        return value_of(self._result, found)

    @property
    def objects(self) -> List[Object]:
        return [Object(self._result, thing) for thing in self._result.objects.values()]

    @property
    def live(self) -> Optional[int]:
        return self._result.live

    @property
    def steps(self) -> Optional[int]:
        return self._result.numbers.get('steps', self._result.numbers.get('back'))

    @property
    def cost(self) -> Optional[int]:
        return self._result.numbers.get('cost')

    @property
    def rule(self) -> str:
        """The rule that a fault broke, and how to fix it."""
        rule = fault(self.fault.number) if self.fault else None
        return f'{rule.sentence} {rule.fix}'.strip() if rule else ''

    def __repr__(self) -> str:
        return f'<{self.kind}: {", ".join(self.output.split(chr(10))[:3]).strip(", ")}>'


class Verdict(NamedTuple):
    """What `check` says: true where the text is accepted; else the refusal, where it is, what is wrong, and what to write."""
    accepted: bool
    number: Optional[int] = None
    name: str = ''
    line: Optional[int] = None
    column: Optional[int] = None
    sentence: str = ''
    fix: str = ''

    def __bool__(self) -> bool:
        return self.accepted


class _Given(Closing):
    """A source and an input as files, for a call."""

    def __init__(self, source: Source, inputs: Inputs = None):
        self.program = Program.found()
        self._folder: Folder = self.program.folder()
        self._folder.__enter__()
        self.path = os.fspath(source) if not isinstance(source, bytes) else self._written('text.rpp', source)
        lines = ''.join(f'{name} = {int(number)}\n' for name, number in (inputs or {}).items())
        self.inputs = [self._written('input', lines.encode())] if lines else []

    def _written(self, name: str, content: bytes) -> str:
        with open(self._folder.name(name), 'wb') as out:
            out.write(content)
        return self._folder.name(name)

    def close(self) -> None:
        self._folder.__exit__()

    def told(self, command: str, *numbers: int) -> Told:
        """The answer of a command over the source and the input."""
        told = read_answer(self.program.call(command, self.path, *numbers, *self.inputs))
        if told.kind not in ('done', 'fault', 'bound'):
            raise Refused(told)
        return told


def value_of(result: Result, text: str) -> Value:
    """A printed value as one of Python."""
    if text == 'nil':
        return None
    if not text.startswith('#'):
        return int(text)
    # (a name without an object is that of the main object, of which no variable has one)
    return Object(result, result.objects[int(text[1:])])


def run(source: Source, inputs: Inputs = None, heap: int = HEAP, depth: int = DEPTH, steps: int = STEPS,
        back: bool = False) -> Outcome:
    """Compiles a source and runs it, as `go`; with `back` also back to its start, as `turn`."""
    with _Given(source, inputs) as given:
        told = given.told('turn' if back else 'go', heap, depth, steps)
    if back and told.kind == 'done':
        end, start = Result.both(told.output)
        return Outcome(told, end, Outcome(told, start))
    return Outcome(told, Result.read(told.output))


def explain(source: Source, inputs: Inputs = None, heap: int = HEAP, depth: int = EXPLAINED_DEPTH, fuel: int = FUEL) -> Outcome:
    """Does what the language says of a source, with no machine, as `explain`: the outcome has `cost`."""
    with _Given(source, inputs) as given:
        told = given.told('explain', heap, depth, fuel)
    return Outcome(told, Result.read(told.output))


def check(source: Source) -> Verdict:
    """Whether a source is accepted, as `check`."""
    with _Given(source) as given:
        told = read_answer(given.program.call('check', given.path))
        if told.kind == 'done':
            return Verdict(True)
        if told.kind != 'refused':
            raise Refused(told)
        text = Text.read(given.path)
    place, message = text.place(told.at), of_refusal(text.content, told.number, told.at)
    return Verdict(False, told.number, told.name, place.line, place.column, message.sentence, message.fix)


def inverse(source: Source) -> str:
    """The text of the inverse program, as `show-inverse` writes it."""
    with _Given(source) as given, given.program.folder() as folder:
        told = read_answer(given.program.call('show-inverse', given.path, folder.name('inverse')))
        if told.kind != 'done':
            raise Refused(told)
        with open(folder.name('inverse'), encoding='utf-8') as file:
            return file.read()


class Session(_Session):
    """A session both ways along a run, as `trace` prints it: it is before a statement, and moves by step, back, next,
    previous, finish, until, watch, watch_back and go, which give a Stop. `stack()`, `value(path)`, `here` and `moment` look.
    Use it in a `with`, or close it."""

    def __init__(self, source: Source, inputs: Inputs = None, heap: int = HEAP, depth: int = DEPTH):
        with _Given(source, inputs) as given:
            made = SourceRun(given.program, given.path, heap, depth, *given.inputs)
        try:
            made.point(0)
            super().__init__(made, Outline.made(made.program, made.text))
        except BaseException:
            made.close()
            raise

    @property
    def here(self) -> Optional[Tuple[int, int]]:
        """Line and column of the statement that comes next; None at the end."""
        place = self.point.place
        return None if place is None else tuple(self.run.text.place(place))

    @property
    def variables(self) -> Dict[str, str]:
        """The variables here, as printed; the innermost of a name counts."""
        return dict(self.moment.variables)
