"""A debug adapter: an editor steps through a run of the program, forward and backward.

Where the run is and what is there is what the program printed. Nothing can be changed: a run is what its text and its
input make it."""
import os
import sys
import threading
from typing import Any, Callable, Dict, List, Optional, Sequence

from .advice import of_refusal
from .checking import first_refusal, message_of, spoken
from .explain import of_fault
from .faults import Failing, failing
from .formulas import BadFormula, Formula
from .frames import Statements, statement_on
from .options import DEPTH, HEAP, STEPS
from .places import Text
from .program import Interrupted, Killed, NoProgram, Program
from .protocol import Broken, Inbox, Message, Outbox
from .scene import Counting, Declined, Scene
from .session import Breakpoint, Session, Stop
from .show import fault_where, no_method
from .trace import Refused

THREAD = 1
CAPABILITIES = {
    'supportsConfigurationDoneRequest': True,
    'supportsStepBack': True,
    'supportsSteppingGranularity': True,
    'supportsEvaluateForHovers': True,
    'supportsExceptionInfoRequest': True,
    'supportsBreakpointLocationsRequest': True,
    'supportsDataBreakpoints': True,
    'supportsConditionalBreakpoints': True,
    'supportsFunctionBreakpoints': True,
    'supportsRestartRequest': True,
    'supportsTerminateRequest': True,
}
# What an editor gets for a stop: the protocol's reason, and the text that is shown next to it.
REASONS = {
    'step': ('step', ''),
    'break': ('breakpoint', ''),
    'change': ('data breakpoint', ''),
    'end': ('step', 'the end of the run'),
    'start': ('entry', 'the start of the run'),
    'interrupted': ('pause', ''),
    'bound': ('pause', 'looked as far as was allowed'),
    'memory': ('pause', 'the program ran out of memory'),
}


class Adapter:
    def __init__(self, inbox: Inbox, outbox: Outbox):
        self.inbox = inbox
        self.outbox = outbox
        self.sent = 0
        self.lock = threading.Lock()
        self.mover: Optional[threading.Thread] = None
        self.is_moving = self.is_pausing = self.is_configured = self.is_over = False
        self.program: Optional[Program] = None
        self.session: Optional[Session] = None
        self.statements: Optional[Statements] = None
        self.arguments: Dict[str, Any] = {}
        self.scene: Optional[Scene] = None
        self.failed: Optional[Failing] = None
        self.watched: List[str] = []
        self.counting = Counting()

    # ---- messages

    def send(self, **body):
        with self.lock:
            self.sent += 1
            self.outbox.send({'seq': self.sent, **body})

    def event(self, name: str, **body):
        self.send(type='event', event=name, body=body)

    def serve(self) -> int:
        """Answers until `disconnect` or the end of the stream."""
        try:
            while not self.is_over:
                request = self.inbox.next()
                if request is None:
                    break
                if request.get('type') == 'request':
                    self.handle(request)
        except Broken as error:
            print(f'rpp dap: {error}', file=sys.stderr)
            return 1
        finally:
            self.close()
        return 0

    def handle(self, request: Message):
        command = request.get('command', '')
        answer = {'type': 'response', 'request_seq': request.get('seq'), 'command': command}
        later: Optional[Callable[[], None]] = None
        try:
            if command not in REQUESTS:
                raise Declined(f'{command} is not known here')
            found = REQUESTS[command](self, request.get('arguments') or {})
            body, later = found if isinstance(found, tuple) else (found, None)
            self.send(success=True, **({'body': body} if body is not None else {}), **answer)
        except (Declined, NoProgram, Refused, Killed, OSError, ValueError) as error:
            text = told_of(error)
            shown = {'id': 1, 'format': '{text}', 'variables': {'text': text}, 'showUser': True}
            self.send(success=False, message=text, body={'error': shown}, **answer)
        if later is not None:
            later()

    def close(self):
        self.halt()
        if self.session is not None:
            self.session.close()

    # ---- the life of a session

    def initialize(self, given):
        self.counting = Counting(int(given.get('linesStartAt1', True)), int(given.get('columnsStartAt1', True)))
        return CAPABILITIES

    def launch(self, given):
        source = given.get('program')
        if not source or self.program is not None:
            raise Declined('`program` names no source text' if not source else 'a run is begun already')
        self.arguments = {name: each for name, each in given.items() if each not in (None, '')}
        bounds = [self.arguments.setdefault(name, each) for name, each in (('heap', HEAP), ('depth', DEPTH))]
        self.judge(source)
        program = Program.found()
        if not given.get('noDebug'):
            self.session = Session.begun(program, source, *bounds, self.arguments.get('input'), is_held=True)
            self.session.notify = self.heed
            self.statements = Statements(self.session.run.text.content)
        self.program = program
        # (breakpoints are set once the text is known)
        return None, lambda: self.event('initialized')

    def judge(self, source: str):
        """Refuses a text that the program refuses, with the place and the sentence."""
        text = Text.read(source)
        verdict = first_refusal(text.content)
        if verdict.trouble:
            raise Declined(verdict.trouble)
        if verdict.refusal is not None:
            place = text.spelled(source, verdict.refusal.at)
            raise Declined(f'{place}: {verdict.refusal.name}: {spoken(message_of(text.content, verdict.refusal))}')

    def configuration_done(self, _):
        if self.program is None:
            raise Declined('no run was begun')
        return None, self.begin if self.session is not None else self.run_through

    def begin(self):
        """Stops before the first statement, or goes on to a breakpoint."""
        if self.arguments.get('stopOnEntry', True):
            self.stopped('entry')
        else:
            self.move(self.run_on)

    def run_through(self):
        """Runs without stops: what `go` prints is the output, and its status that of the run."""
        given = self.arguments
        inputs = [given['input']] if 'input' in given else []
        words = (given['program'], given['heap'], given['depth'], STEPS, *inputs)
        self.is_moving = True
        self.mover = threading.Thread(target=self._run_through, args=words)
        self.mover.start()

    def _run_through(self, *words):
        try:
            answer = self.program.call('go', *words)
        except (Interrupted, Killed) as error:
            self.event('output', category='stderr', output=f'{error or "stopped"}\n')
        else:
            self.event('output', category='stdout', output=answer.output)
            self.event('exited', exitCode=answer.status)
        self.is_moving = False
        self.event('terminated')

    def restart(self, _):
        session = self.standing()
        session.go(0)
        return None, self.begin

    def terminate(self, _):
        self.halt()
        return None, lambda: self.event('terminated')

    def disconnect(self, _):
        self.is_over = True

    # ---- moves

    def heed(self, _: str):
        """Ends a long search if a pause is asked for."""
        if self.is_pausing:
            raise Interrupted()

    def halt(self):
        """Ends what is under way, and waits for it."""
        while self.mover is not None and self.mover.is_alive():
            self.is_pausing = True
            self.program.stop()
            self.mover.join(0.05)
        self.is_pausing = False

    def move(self, action: Callable[[], Stop]):
        """Moves in a thread of its own, so that `pause` is heard, and reports where the run is then."""
        if self.mover is not None:
            self.mover.join()
        self.is_moving, self.is_pausing = True, False
        self.mover = threading.Thread(target=self._move, args=(action,))
        self.mover.start()

    def _move(self, action: Callable[[], Stop]):
        was_at_end, failed = False, None
        try:
            was_at_end = self.session.point.at_end
            stop = action()
            failed = failing(self.session, with_objects=True) if stop.reason == 'fault' else None
            shown = self.session.moment.variables if stop.reason == 'end' and not was_at_end else ()
        except (Refused, Killed) as error:
            self.event('output', category='stderr', output=f'{told_of(error)}\n')
            stop, shown = Stop(self.session.run.point(0), 'memory'), ()
            self.session.position = 0
        except Interrupted:
            stop, shown = Stop(self.session.point, 'interrupted'), ()
        if shown:
            self.event('output', category='stdout', output=''.join(f'{name} = {value}\n' for name, value in shown))
        self.is_moving = False
        self.tell(stop, failed)

    def tell(self, stop: Stop, failed: Optional[Failing]):
        if stop.reason == 'fault':
            text = self.session.point.fault.title
            self.stopped('exception', text, f'{text}: {failed.test.title}' if failed and failed.test else text, failed)
        else:
            reason, text = REASONS.get(stop.reason, ('step', ''))
            hit = [each for each in self.session.breakpoints if each.number == stop.by]
            if any(each.method for each in hit):
                reason = 'function breakpoint'
            self.stopped(reason, text or stop.detail, text or stop.detail, hit=[each.number for each in hit])

    def stopped(self, reason: str, text: str = '', description: str = '', failed: Optional[Failing] = None, hit: Sequence[int] = ()):
        self.scene, self.failed = None, failed
        body = {'reason': reason, 'threadId': THREAD, 'allThreadsStopped': True}
        if hit:
            body.update(hitBreakpointIds=list(hit))
        if text:
            body.update(description=description, text=text)
        self.event('stopped', **body)

    def standing(self) -> Session:
        """The session, which must have stopped."""
        if self.session is None:
            raise Declined('no run was begun')
        if self.is_moving:
            raise Declined('the run is under way')
        return self.session

    def step_in(self, _):
        return None, lambda session=self.standing(): self.move(session.step)

    def next(self, given):
        session = self.standing()
        return None, lambda: self.move(session.step if given.get('granularity') == 'instruction' else session.next)

    def step_out(self, _):
        return None, lambda session=self.standing(): self.move(session.finish)

    def step_back(self, given):
        session = self.standing()
        is_single = given.get('granularity') == 'instruction' or self.arguments.get('stepBackInto')
        if self.failed is not None and self.failed.test is not None:
            depth = None if is_single else self.failed.test.moment.point.depth
            return None, lambda: self.move(lambda: self.before_test(depth))
        return None, lambda: self.move(session.back if is_single else session.previous)

    def before_test(self, depth: Optional[int]) -> Stop:
        """From the test that failed back to the last statement that began; with a depth, to the last one that is no deeper."""
        session = self.session
        while depth is not None and session.point.depth > depth:
            session.leave_back()
        return session.go(session.position)

    def continue_(self, _):
        return {'allThreadsContinued': True}, lambda _=self.standing(): self.move(self.run_on)

    def reverse_continue(self, _):
        return None, lambda _=self.standing(): self.move(self.run_back)

    def pause(self, _):
        return None, self.halt

    def run_on(self) -> Stop:
        """To the next breakpoint or change of what is watched, or to the end."""
        return self.nearest(self.session.run_on, self.session.watch, min)

    def run_back(self) -> Stop:
        """Back to the last breakpoint or change of what is watched, or to the start."""
        return self.nearest(self.session.run_back, self.session.watch_back, max)

    def nearest(self, run: Callable[[], Stop], watch: Callable[[str], Stop], first: Callable) -> Stop:
        """Where the run first stops: it is looked for by itself for the breakpoints and for each watched path."""
        session, begin = self.session, self.session.position
        stops = [run()]
        for path in self.watched:
            if stops[-1].reason == 'interrupted':
                break
            session.go(begin)
            # (a change counts before an end at the same position)
            stops.insert(0, watch(path))
        found = first(stops, key=lambda stop: stop.point.position)
        session.position = found.point.position
        return found

    # ---- breakpoints

    def set_breakpoints(self, given):
        session = self.standing()
        wanted = given.get('breakpoints') or [{'line': each} for each in given.get('lines') or []]
        path = given.get('source', {}).get('path', '')
        if not os.path.exists(path) or not os.path.samefile(path, self.arguments['program']):
            return {'breakpoints': [{'verified': False, 'message': 'the run is of another text'} for _ in wanted]}
        session.breakpoints = [each for each in session.breakpoints if each.method]
        return {'breakpoints': [self.breakpoint(self.at_line, each) for each in wanted]}

    def set_function_breakpoints(self, given):
        session = self.standing()
        session.breakpoints = [each for each in session.breakpoints if not each.method]
        return {'breakpoints': [self.breakpoint(self.in_method, each) for each in given.get('breakpoints') or []]}

    def data_breakpoint_info(self, given):
        return self.stage().watchable(given['name'], given.get('variablesReference') or 0)

    def set_data_breakpoints(self, given):
        self.standing()
        self.watched = [each['dataId'] for each in given.get('breakpoints') or []]
        return {'breakpoints': [{'verified': True} for _ in self.watched]}

    def place_of(self, wanted) -> Optional[int]:
        """The place of a breakpoint: of the first statement that begins on the line, after the column, or later."""
        begin = self.counting.offset(self.session.run.text, wanted['line'], wanted.get('column'))
        return statement_on(self.statements, begin) if begin is not None else None

    def at_line(self, wanted, condition: Optional[Formula]) -> Breakpoint:
        place = self.place_of(wanted)
        if place is None:
            raise Declined('no statement begins here or below')
        return self.session.add_breakpoint(self.session.run.text.place(place).line, [place], condition)

    def in_method(self, wanted, condition: Optional[Formula]) -> Breakpoint:
        made = self.session.break_in(wanted['name'], condition)
        if made is None:
            raise Declined(no_method(self.session.outline, wanted['name']))
        return made

    def breakpoint(self, make: Callable[..., Breakpoint], wanted) -> Dict[str, Any]:
        """Sets a breakpoint, and says where it is, or why there is none."""
        try:
            made = make(wanted, Formula(wanted['condition']) if wanted.get('condition') else None)
        except (Declined, BadFormula) as why:
            return {'verified': False, 'message': str(why)}
        return {'id': made.number, 'verified': True, **self.counting.shown(self.session.run.text, made.places[0])}

    def breakpoint_locations(self, given):
        text, counting = Text.read(given['source']['path']), self.counting
        first, last = (counting.offset(text, line) for line in (given['line'], given.get('endLine', given['line']) + 1))
        if first is None:
            return {'breakpoints': []}
        places = Statements(text.content).begin_between(first, len(text.content) if last is None else last)
        return {'breakpoints': [counting.shown(text, each) for each in places]}

    def set_exception_breakpoints(self, _):
        return {'breakpoints': []}

    # ---- what is there

    def threads(self, _):
        return {'threads': [{'id': THREAD, 'name': 'the run'}]}

    def stage(self) -> Scene:
        """What can be shown here; made when it is first asked for after a move."""
        session = self.standing()
        if self.scene is None:
            self.scene = Scene(session, self.statements, self.counting, self.failed)
        return self.scene

    def stack_trace(self, given):
        return self.stage().stack(given.get('startFrame') or 0, given.get('levels') or 0)

    def scopes(self, given):
        return self.stage().scopes(given.get('frameId'))

    def variables(self, given):
        return self.stage().variables(given['variablesReference'], given.get('start') or 0, given.get('count') or 0)

    def evaluate(self, given):
        return self.stage().evaluated(given.get('expression', '').strip(), given.get('frameId'))

    def exception_info(self, _):
        found = self.standing().point.fault
        if found is None:
            raise Declined('no fault stopped the run')
        failed = failing(self.session, with_objects=True)
        message = of_fault(found.number, fault_where(self.session, failed))
        said = [failed.test.title] if failed.test else []
        said += [spoken(message)] if message.rule else []
        told = {'exceptionId': found.title, 'breakMode': 'always'}
        return {**told, 'description': '. '.join(said)} if said else told


def told_of(error: Exception) -> str:
    """What the program answered in the place of a run."""
    if not isinstance(error, Refused):
        return str(error)
    told = error.told
    if told.kind == 'refused':
        return f'{told.first_line}: {spoken(of_refusal(b"", told.number, None))}'
    return REASONS['memory'][1] if told.kind == 'memory' else str(error)


REQUESTS: Dict[str, Callable] = {
    'initialize': Adapter.initialize,
    'launch': Adapter.launch,
    'configurationDone': Adapter.configuration_done,
    'restart': Adapter.restart,
    'terminate': Adapter.terminate,
    'disconnect': Adapter.disconnect,
    'setBreakpoints': Adapter.set_breakpoints,
    'breakpointLocations': Adapter.breakpoint_locations,
    'dataBreakpointInfo': Adapter.data_breakpoint_info,
    'setFunctionBreakpoints': Adapter.set_function_breakpoints,
    'setDataBreakpoints': Adapter.set_data_breakpoints,
    'setExceptionBreakpoints': Adapter.set_exception_breakpoints,
    'threads': Adapter.threads,
    'stackTrace': Adapter.stack_trace,
    'scopes': Adapter.scopes,
    'variables': Adapter.variables,
    'evaluate': Adapter.evaluate,
    'exceptionInfo': Adapter.exception_info,
    'stepIn': Adapter.step_in,
    'next': Adapter.next,
    'stepOut': Adapter.step_out,
    'stepBack': Adapter.step_back,
    'continue': Adapter.continue_,
    'reverseContinue': Adapter.reverse_continue,
    'pause': Adapter.pause,
}
