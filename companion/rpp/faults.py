"""Where the run of a source stopped with a fault: the statement that fails, and the last one that began, as `trace` prints it. They
differ if a test at the end of a statement fails.

A session says which statement fails, and which test of it. Where there is none, it is the statement in whose code the machine stopped,
as `run` prints it (`from A`), and the test is looked for."""
from typing import List, NamedTuple, Optional, Tuple

from .failing import TOUCHED, FailedTest, failed_test, index_told, test_of
from .messages import read_answer
from .options import STEPS
from .places import Text
from .program import OutOfTime, Program
from .session import Frame, Session
from .state import field_cells, loaded_state, read_input, with_numbers
from .trace import Failure, Moment, Point, Refused

PATIENCE = 60.0


class Failing(NamedTuple):
    """The place of the statement that fails, the test that fails at its end, if it is one, and whether its body runs backward. `index`
    has an index that fails, and the length of its array, if a session says them."""
    place: Optional[int]
    test: Optional[FailedTest]
    is_back: bool
    index: Tuple[str, str] = ('', '')


class FaultPlaces(NamedTuple):
    """`statement` is the place of the statement that fails. `point`, `moment` and `frames` are what `trace` shows of the last one
    that began. `is_back` says whether the body of the statement that fails runs backward. `test` is the test that fails at its end,
    if it is one, and `index` is as in Failing. What could not be found is None, and `why` says why."""
    statement: Optional[int]
    point: Optional[Point]
    moment: Optional[Moment]
    frames: List[Frame]
    why: str
    is_back: bool = False
    test: Optional[FailedTest] = None
    index: Tuple[str, str] = ('', '')


def find_fault(program: Program, wanted, text: Text) -> FaultPlaces:
    """Runs the source again; `wanted` has source, heap, depth, steps and inputs."""
    try:
        with Session.begun(program, wanted.source, wanted.heap, wanted.depth, wanted.inputs, is_held=True) as session:
            session.run.patience = PATIENCE
            stop = session.run_on()
            if stop.reason == 'fault':
                found = failing(session, wanted.steps)
                return FaultPlaces(found.place, stop.point, session.moment, session.stack(), '', found.is_back, found.test, found.index)
            why = why_not(stop.reason)
    except OutOfTime:
        why = f'`trace` did not reach it within {PATIENCE:.0f} seconds.'
    except Refused as refused:
        why = why_not(refused.told.kind)
    stopped = machine_place(program, wanted.source, (wanted.heap, wanted.depth), wanted.steps, wanted.inputs)
    return FaultPlaces(stopped, None, None, [], why)


def failing(session: Session, steps: int = STEPS, with_objects: bool = False) -> Failing:
    """What fails where a session is at its fault; it is asked for once. `with_objects` asks for the objects at the moment of a test."""
    if session.failing is None:
        run = session.run
        told = run.failure()
        if told is not None:
            session.failing = as_told(session, told, with_objects)
        else:
            session.failing = of_place(session, machine_place(run.program, run.copy, run.bounds, steps, *(run.inputs or [None])))
    return session.failing


def as_told(session: Session, told: Failure, with_objects: bool) -> Failing:
    """The statement and the test that the session says."""
    frames = session.stack()
    # (as a call ends, the body of the method is still open)
    depth = told.depth - (told.fault.number == TOUCHED)
    around = [each.uncalled for each in frames if each.depth == depth]
    is_back = around[0] if around else runs_back(session, frames, told.statement)
    return Failing(told.statement, test_of(session.run, told, session.moment, is_back, frames, with_objects), is_back, index_told(told))


def of_place(session: Session, stopped: Optional[int]) -> Failing:
    """The statement in whose code the machine stopped, or the last one that began if that is not known."""
    point, frames = session.point, session.stack()
    place = point.place if stopped is None else stopped
    is_back = runs_back(session, frames, place)
    if place == point.place or point.fault is None:
        return Failing(place, None, is_back)
    return Failing(place, failed_test(session.run, place, point.fault.number, is_back, frames), is_back)


def runs_back(session: Session, frames: List[Frame], place: int) -> bool:
    """Whether the innermost open body that has this place runs backward."""
    method = session.outline.method_at(place)
    return next((each.uncalled for each in frames if method and each.method == method.label), False)


def why_not(reason: str) -> str:
    if reason == 'memory':
        return '`trace` ended with status 7, out of memory, before the fault.'
    return f'`trace` did not come to the fault: {reason}.'


def machine_place(program: Program, source: str, bounds: Tuple[int, int], steps: int, inputs: Optional[str]) -> Optional[int]:
    """The place that `run` prints for the compiled program, begun with the same input."""
    with program.folder() as folder:
        image, start = folder.name('image'), '-'
        if read_answer(program.call('compile', source, image)).kind != 'done':
            return None
        if inputs:
            start = folder.name('start')
            with open(inputs, encoding='utf-8') as file:
                numbers = read_input(file.read())
            state = loaded_state(program, image, *bounds)
            with open(start, 'wb') as out:
                out.write(with_numbers(state, field_cells(program, image), numbers))
        told = read_answer(program.call('run', image, *bounds, steps, start, folder.name('end')))
        return told.number_behind('from') if told.kind == 'fault' else None
