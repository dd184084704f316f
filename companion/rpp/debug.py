"""`rpp debug F`: Steps through a run in both directions, by a prompt or a script. F is a source or an image."""
import os
import re
import sys
from typing import List, Tuple

from . import show
from .changes import no_value, thing_of, value_of
from .faults import failing
from .formulas import BadFormula, Formula
from .machine import debug_image
from .options import Parser, Unfit, add_run_options, add_source, input_file
from .places import Text
from .program import Program
from .prompt import Prompt, hold, number_of
from .reading import readable, shown, title
from .report import failure_lines, source_refused
from .run import Wanted, bounds_refused
from .screen import say
from .session import Session, Stop
from .trace import Moment, Refused

UNSAID = 'no session of rooplpp-live says the {} here; {}'
IMAGE_MARK = b'RPPI'
# LINE, FILE:LINE or FILE:LINE:COLUMN
LINE = re.compile(r'(?:(.*?[^:]):)??(\d+)(?::\d+)?')


class SourcePrompt(Prompt):
    """The prompt over a session along a source."""

    aliases = {'s': 'step', 'n': 'next', 'b': 'back', 'p': 'print', 'c': 'continue', 'rc': 'reverse-continue', 'f': 'finish',
               'w': 'where', 'bt': 'where', 'l': 'list', 'u': 'until', 'q': 'quit', 'h': 'history', 'rn': 'previous',
               'reverse-step': 'back', 'reverse-next': 'previous', 'reverse-finish': 'leave-back', 'o': 'objects'}

    def __init__(self, session: Session, echo: bool):
        super().__init__(echo)
        self.session = session
        self.chosen = 0
        self.displays: List[Tuple[int, Formula]] = []
        self.displayed = 0
        session.notify = self.notify

    def moved(self, move) -> None:
        """Makes a move, and shows where it led and what changed."""
        before = self.session.moment
        stop = move()
        self.chosen = 0
        at_fault = failing(self.session) if stop.reason == 'fault' else None
        self.say(show.stop_lines(self.session, stop, before, at_fault) + self.display_lines())

    def here(self) -> None:
        self.say(show.stop_lines(self.session, Stop(self.session.point, 'step'), None))

    def do_step(self, arg: str) -> None:
        """step [N]: N statements on, into calls."""
        self.moved(lambda: self.session.step(number_of(arg, 1)))

    def do_back(self, arg: str) -> None:
        """back [N]: N statements back, into calls."""
        self.moved(lambda: self.session.back(number_of(arg, 1)))

    def do_next(self, _arg: str) -> None:
        """next: on to the next statement of this body, over calls."""
        self.moved(self.session.next)

    def do_previous(self, _arg: str) -> None:
        """previous: back to the previous statement of this body, over calls."""
        self.moved(self.session.previous)

    def do_finish(self, _arg: str) -> None:
        """finish: on until the current call has ended."""
        self.moved(self.session.finish)

    def do_leave_back(self, _arg: str) -> None:
        """leave-back: back to the statement that called this body."""
        self.moved(self.session.leave_back)

    def do_until(self, arg: str) -> None:
        """until LINE: on to this line."""
        line = self.statement_line(self.line_of('until', arg))
        self.moved(lambda: self.session.until(line))

    def do_go(self, arg: str) -> None:
        """go POSITION: to this position, on or back."""
        wanted = number_of(arg)
        self.moved(lambda: self.session.go(wanted))

    def do_break(self, arg: str) -> None:
        """break [LINE | METHOD] [if EXPR]: stops at this line, or where METHOD begins, if EXPR is not 0; without arguments, lists all."""
        if not arg:
            self.say([show.breakpoint_title(each) for each in self.session.breakpoints] or ['there are no breakpoints'])
            return
        where, _, text = (part.strip() for part in arg.partition(' if '))
        condition = formula_of(text) if text else None
        if where[0].isdigit() or LINE.fullmatch(where):
            made = self.session.break_at(self.statement_line(self.line_of('break', where)), condition)
        else:
            made = self.session.break_in(where, condition)
        if made is None:
            raise Unfit(show.no_method(self.session.outline, where))
        self.say([f'{show.breakpoint_title(made)}: {self.session.run.text.line(made.line).strip()}'])

    def do_clear(self, arg: str) -> None:
        """clear [N]: removes breakpoint N, or all."""
        if not arg:
            self.session.clear_all()
        elif not self.session.clear(number_of(arg)):
            raise Unfit(f'there is no breakpoint {arg}')

    def do_continue(self, _arg: str) -> None:
        """continue: on to the next breakpoint, or to the end."""
        self.moved(self.session.run_on)

    def do_reverse_continue(self, _arg: str) -> None:
        """reverse-continue: back to the last breakpoint, or to the start."""
        self.moved(self.session.run_back)

    def do_watch(self, arg: str) -> None:
        """watch [back] NAME: on to where the value has changed; with `back`, back to the statement that changed it last."""
        words = arg.split()
        back = words[:1] == ['back'] and len(words) == 2
        if len(words) != 1 + back:
            raise Unfit('watch NAME, or watch back NAME: NAME is a variable, #K.FIELD or a path as list.head.data')
        if self.session.value(words[-1]) is None:
            raise Unfit(no_value(self.session.moment, words[-1]))
        self.moved(lambda: (self.session.watch_back if back else self.session.watch)(words[-1]))

    def do_print(self, arg: str) -> None:
        """print [EXPR]: all variables; or a value: NAME, #K, a path such as list.head.data or row[2], or row[i] - 2 * n."""
        moment = self.moment_chosen()
        self.say(show.value_lines(moment, arg) if arg else show.variable_lines(moment))

    def do_display(self, arg: str) -> None:
        """display [EXPR]: shows the value of EXPR now and at each stop; without EXPR, all that are shown."""
        if arg:
            self.displayed += 1
            self.displays.append((self.displayed, formula_of(arg)))
        self.say(self.display_lines()[-1 if arg else 0:] or ['nothing is displayed'])

    def do_undisplay(self, arg: str) -> None:
        """undisplay [N]: removes display N, or all."""
        kept = [each for each in self.displays if arg and each[0] != number_of(arg)]
        if arg and len(kept) == len(self.displays):
            raise Unfit(f'there is no display {arg}')
        self.displays = kept

    def display_lines(self) -> List[str]:
        return [show.display_line(self.moment_chosen(), *each) for each in self.displays]

    def moment_chosen(self) -> Moment:
        """The moment of this position, or that at which the call that was chosen began."""
        return self.session.run.moment(self.session.stack()[self.chosen].position) if self.chosen else self.session.moment

    def do_up(self, _arg: str) -> None:
        """up: shows the call around this one, with its variables for `print`."""
        self.choose(self.chosen + 1)

    def do_down(self, _arg: str) -> None:
        """down: back to the call within this one."""
        self.choose(self.chosen - 1)

    def do_frame(self, arg: str) -> None:
        """frame [N]: shows the call with the number N of `where`, with its variables for `print`; without N, the call that is shown."""
        depths = [frame.depth for frame in self.session.stack()]
        wanted = number_of(arg) if arg else None
        if wanted is not None and wanted not in depths:
            raise Unfit(f'there is no call {wanted}; `where` numbers them')
        self.choose(depths.index(wanted) if wanted is not None else self.chosen)

    def choose(self, index: int) -> None:
        frames = self.session.stack()
        if not frames:
            raise Unfit('no call is open')
        if not 0 <= index < len(frames):
            raise Unfit(f'this is the {"innermost" if index < 0 else "outermost"} call')
        self.chosen = index
        self.say(show.frame_lines(self.session, frames[index]))

    def choices(self, words: List[str], text: str) -> List[str]:
        """Methods for `break`, and variables and objects for what shows a value."""
        if words == ['break']:
            methods = self.session.outline.methods
            return [method.label for method in methods] + sorted({method.name for method in methods})
        return self.paths(text) if words[0] in ('print', 'display', 'watch', 'break') else []

    def paths(self, text: str) -> List[str]:
        """The names of variables and objects, or those of the fields of what is before the last dot."""
        moment, (head, dot, _) = self.moment_chosen(), text.rpartition('.')
        if not dot:
            return [*dict.fromkeys(name for name, _ in moment.variables), *(f'#{number}' for number in sorted(moment.objects))]
        thing = thing_of(moment, value_of(moment, head))
        return [f'{head}.{label}' for label, _ in thing.cells if label[0] != '['] if thing else []

    def do_objects(self, _arg: str) -> None:
        """objects: all live objects and arrays."""
        self.say(show.object_lines(self.session.moment))

    def do_heap(self, _arg: str) -> None:
        """heap: the order of the heap, how many objects live, and its free blocks."""
        state = self.session.heap()
        if state is None:
            raise Unfit(UNSAID.format('heap', '`rpp heap` shows the memory'))
        self.say(show.heap_lines(state))

    def do_cost(self, _arg: str) -> None:
        """cost: what the run has cost up to here, in the units of `explain`."""
        cost = self.session.cost()
        if cost is None:
            raise Unfit(UNSAID.format('cost', '`rooplpp explain` prints that of a whole run'))
        self.say([f'cost {cost:,} up to position {self.session.position}'])

    def do_where(self, _arg: str) -> None:
        """where: the active calls, the innermost first."""
        self.say(show.stack_lines(self.session))

    def do_list(self, arg: str) -> None:
        """list [LINE]: the source around this line, or around the current statement."""
        point = self.session.point
        here = self.session.outline.line_of(point.place) if not point.at_end else self.session.run.text.line_count
        self.say(show.listing_lines(self.session, self.line_of('list', arg) if arg else here))

    def do_history(self, arg: str) -> None:
        """history [N]: the last N statements that led here."""
        self.say(show.history_lines(self.session, number_of(arg, 10)))

    def line_of(self, command: str, arg: str) -> int:
        """The line that LINE or FILE:LINE names, as messages write it; the file must be that of the run."""
        found = LINE.fullmatch(arg.strip())
        own = title(self.session.run.source)
        if found and found[1] and os.path.basename(found[1]) != os.path.basename(own):
            raise Unfit(f'the run is of {own}, not of {found[1]}; `{command} {found[2]}` names its line {found[2]}')
        return int(found[2]) if found else number_of(arg)

    def statement_line(self, line: int) -> int:
        found, _ = self.session.outline.breakable(line)
        if not found:
            raise Unfit(f'no statement begins at line {line} or below')
        if found != line:
            self.say([f'no statement begins at line {line}; the next one with a statement is {found}'])
        return found


def formula_of(text: str) -> Formula:
    try:
        return Formula(text)
    except BadFormula as why:
        raise Unfit(f'{text}: {why}') from None


def parser() -> Parser:
    made = Parser(prog='rpp debug', description=__doc__.split(':', 1)[1].strip())
    add_source(made)
    add_run_options(made)
    made.add_argument('-x', '--script', metavar='FILE', type=readable, help='execute the commands of this file, and end')
    made.add_argument('-c', '--command', metavar='COMMAND', action='append', default=[],
                        help='execute this command; may be repeated')
    made.add_argument('--source', dest='source_of_image', metavar='F', type=readable,
                      help='the source that the image was compiled from')
    return made


def main(words: List[str]) -> int:
    given = parser().parse_intermixed_args(words)
    program = Program.found()
    with open(given.source, 'rb') as file:
        is_image = file.read(4) == IMAGE_MARK
    lines = given.command
    if given.script:
        with open(given.script, encoding='utf-8') as file:
            lines = lines + file.read().split('\n')
    if is_image:
        return debug_image(program, given, lines)
    return debug_source(program, given, lines)


def debug_source(program: Program, given, lines: List[str]) -> int:
    """A session over a source: by the lines that are given, or else by what standard input says."""
    with program.folder() as folder:
        inputs = input_file(given, folder)
        try:
            session = Session.begun(program, given.source, given.heap, given.depth, inputs, is_held=True)
        except Refused as refused:
            say(refused_lines(given, inputs, refused))
            return refused.told.status
        with session:
            prompt = SourcePrompt(session, echo=bool(lines) or not sys.stdin.isatty())
            return hold(prompt, lines, f'{title(given.source)}: `help` names the commands')


def refused_lines(given, inputs, refused: Refused) -> List[str]:
    """What is said where the program refuses the text, the bounds or the input."""
    told = refused.told
    if told.status == 3:
        return source_refused(shown(given.source), Text.read(given.source), told)
    if told.kind == 'refused':
        return bounds_refused(Wanted(given.source, given.heap, given.depth, 0, inputs, False), told)
    return failure_lines(told, shown(given.source))
