"""The prompt of `rpp debug IMG`: both ways along the run of an image, step by step of the machine."""
import re
import sys
from typing import Callable, Dict, List, NamedTuple, Optional, Tuple

from .messages import read_answer, refusal, see
from .options import Unfit
from .places import Text
from .program import Program
from .prompt import Prompt, hold, number_of
from .reading import shown, title
from .report import caret_lines, failure_lines
from .screen import say
from .state import NOTE
from .tokens import NAME
from .trace import MachineRun, Refused

FIRST_BOUND = 1_000_000
WINDOW = 2000
MARK = re.compile(r'^MARK (\d+) (\d+) (\d+)$', re.M)
REGISTERS = re.compile(r'^\$(\d+) = (-?\d+)$', re.M)
CELLS = re.compile(r'^cell (\d+) = (-?\d+)$', re.M)
WATCHED = re.compile(rf'^(?:\$(\d+)|(\d+)|({NAME}))$')


class Listing(NamedTuple):
    """The listing of an image: its instructions, its marks (first cell, the cell after the last, place of the source), and the cells
    of its names."""
    code: List[str]
    marks: List[Tuple[int, int, int]]
    names: Dict[str, int]

    @classmethod
    def of(cls, program: Program, image: str) -> 'Listing':
        with program.folder() as folder:
            told = read_answer(program.call('list', image, folder.name('listing')))
            if told.kind != 'done':
                raise Refused(told)
            with open(folder.name('listing'), encoding='utf-8') as file:
                text = file.read()
        code = [line for line in text.split('\n') if line and not line.startswith(('STATIC', 'MARK', 'NAME'))]
        marks = [(int(first), int(behind), int(place)) for first, behind, place in MARK.findall(text)]
        return cls(code, marks, {name: int(cell) for cell, name in NOTE.findall(text)})

    def place(self, pc: int) -> Optional[int]:
        """The place of the mark with the fewest cells that has this one; the first of equal ones."""
        found = [mark for mark in self.marks if mark[0] <= pc < mark[1]]
        return min(found, key=lambda mark: mark[1] - mark[0])[2] if found else None


class MachinePrompt(Prompt):
    """The prompt along the run of an image, from the loaded memory on; positions are steps of the machine."""

    aliases = {'s': 'step', 'b': 'back', 'p': 'print', 'c': 'continue', 'rc': 'reverse-continue', 'l': 'list', 'u': 'until',
               'q': 'quit', 'w': 'where', 'r': 'regs'}

    def __init__(self, run: MachineRun, listing: Listing, source: Optional[str], echo: bool):
        super().__init__(echo)
        self.run = run
        self.listing = listing
        self.source = source
        self.text = Text.read(source) if source else None
        self.breaks: List[int] = []
        self.standing = run.walk(['step 0'])[0][-1]

    def choices(self, words: List[str], _text: str) -> List[str]:
        return list(self.listing.names) if words[0] in ('print', 'watch') else []

    def here(self) -> None:
        """Where the machine is, its instruction, and its statement."""
        at = self.standing
        code = self.listing.code[at.pc] if 0 <= at.pc < len(self.listing.code) else 'no cell of the code'
        note = f'  {at.note}' if at.note else ''
        self.say([f'[{at.position}] pc {at.pc} br {at.br} dir {at.dir}  {code}{note}'])
        place = self.listing.place(at.pc)
        if place is not None and self.text:
            self.say([self.text.spelled(title(self.source), place), *caret_lines(self.text, place)])
        elif place is not None:
            self.say([f'at byte {place} of its source; --source F shows the line'])

    def moved(self, line: str) -> None:
        """Makes the moves of a line of the program's scripts from where the session is."""
        self.standing = self.run.walk([f'step {self.standing.position}', line])[0][-1]
        self.here()

    def do_step(self, arg: str) -> None:
        """step [N]: N steps of the machine on."""
        self.moved(f'step {number_of(arg, 1)}')

    def do_back(self, arg: str) -> None:
        """back [N]: N steps of the machine back."""
        self.moved(f'back {number_of(arg, 1)}')

    def do_go(self, arg: str) -> None:
        """go POSITION: to this position, on or back."""
        self.standing = self.run.walk([f'step {number_of(arg)}'])[0][-1]
        self.here()

    def do_until(self, arg: str) -> None:
        """until PC: on until the machine is at this code address."""
        self.sought([number_of(arg)], back=False)

    def do_break(self, arg: str) -> None:
        """break [PC]: stops at this code address; without PC, lists the breakpoints."""
        if arg:
            self.breaks = sorted(set(self.breaks) | {number_of(arg)})
        self.say([f'breakpoints at {", ".join(str(pc) for pc in self.breaks)}' if self.breaks else 'there are no breakpoints'])

    def do_clear(self, arg: str) -> None:
        """clear [PC]: removes the breakpoint at this code address, or all."""
        self.breaks = [pc for pc in self.breaks if arg and pc != number_of(arg)]

    def do_continue(self, _arg: str) -> None:
        """continue: on to the next breakpoint, or to the end."""
        self.sought(self.breaks, back=False)

    def do_reverse_continue(self, _arg: str) -> None:
        """reverse-continue: back to the last breakpoint, or to the start."""
        self.sought(self.breaks, back=True)

    def sought(self, cells: List[int], back: bool) -> None:
        """To the nearest state at one of the cells, or to the end or the start; looks ever further."""
        if cells and self.found(f'{"back " if back else ""}any {{}} {" ".join(str(pc) for pc in cells)}'):
            self.here()
            return
        word, plain = ('backto', 'back') if back else ('to', 'step')
        begin, bound = self.standing.position, FIRST_BOUND
        while True:
            searches = [f'{word} {pc} {bound}' for pc in cells] or [f'{plain} {bound}']
            found = [self.run.walk([f'step {begin}', line])[0][-1] for line in searches]
            nearest = (max if back else min)(found, key=lambda at: at.position)
            if (cells and nearest.pc in cells and nearest.position != begin) or abs(nearest.position - begin) < bound:
                break
            bound *= 2
            self.notify(f'looked up to position {nearest.position}')
        self.standing = nearest
        self.here()

    def found(self, request: str) -> str:
        """Goes where a search of a session leads, and says how it ends; '' if none can be asked. The request has `{}` for its moves, of
        which there are ever more, so that ^C finds progress."""
        position, bound = self.standing.position, FIRST_BOUND
        while True:
            reached = self.run.search(position, request.format(bound))
            if reached is None:
                return ''
            standing, end = reached
            if end != 'more':
                self.standing = standing
                return end
            position, bound = standing.position, 2 * bound
            self.notify(f'looked {"back" if request.startswith("back") else "up"} to position {position}')

    def do_next(self, _arg: str) -> None:
        """next: only for sources: an image does not record its active calls."""
        raise Unfit('next and finish need the active calls, which an image does not show: debug the source for them')

    def do_finish(self, arg: str) -> None:
        """finish: only for sources, as next."""
        self.do_next(arg)

    def do_regs(self, _arg: str) -> None:
        """regs: the registers that are not 0."""
        _, output = self.run.walk([f'step {self.standing.position}', 'regs'])
        self.say(output.rstrip('\n').split('\n')[1:])

    def do_cells(self, arg: str) -> None:
        """cells A [N]: N memory cells from address A on."""
        words = arg.split() + ['1']
        found = self.run.cells(self.standing.position, number_of(words[0]), number_of(words[1]))
        self.say([f'cell {number} = {value}' for number, value in found.items()] or ['there are no such cells'])

    def do_print(self, arg: str) -> None:
        """print [NAME]: the int fields of the main object; or register $K, a field, or the memory cell with this number."""
        names = [arg] if arg else list(self.listing.names)
        if not names:
            self.say(['the image has no names of fields'])
        for name in names:
            read = self.reader(name)
            _, output = self.run.walk([f'step {self.standing.position}', read[0]])
            self.say([f'{name} = {read[1](output)}'])

    def do_watch(self, arg: str) -> None:
        """watch [back] $K, NAME or A: on to where the register, field or memory cell has changed; with `back`, to before that."""
        words = arg.split()
        back = words[:1] == ['back']
        if len(words) != 1 + back:
            raise Unfit('watch $6, watch count or watch 41; and watch back ..')
        line, read = self.reader(words[-1])
        here = self.value_by(line, read)
        end = self.found(f'{"back " if back else ""}until change {self.watched_name(words[-1])} {{}}')
        if not end:
            self.watched(line, read, back)
        elif end == 'met':
            self.say([changed_line(here, self.value_by(line, read), back)])
        self.here()

    def value_by(self, line: str, read: Callable[[str], int]) -> int:
        """The value that a line shows where the session is."""
        return read(self.run.walk([f'step {self.standing.position}', line])[1])

    def watched_name(self, name: str) -> str:
        """A register, or the memory cell of a field or a number, as a session names it."""
        return f'${int(name[1:])}' if name.startswith('$') else f'cell {self.listing.names[name] if name in self.listing.names else int(name)}'

    def reader(self, name: str) -> Tuple[str, Callable[[str], int]]:
        """The line that shows a register, a field or a cell, and what reads its value there."""
        found = WATCHED.match(name)
        if not found or (found[3] and found[3] not in self.listing.names):
            raise Unfit(f'there is no {name}: a register is $0 to $31, a cell a number, a field one of '
                        f'{", ".join(self.listing.names) or "none"}')
        if found[1]:
            return 'regs', lambda text: int(dict(REGISTERS.findall(text)).get(found[1], 0))
        cell = found[2] or str(self.listing.names[found[3]])
        return f'cells {cell} 1', lambda text: int(dict(CELLS.findall(text)).get(cell, 0))

    def watched(self, line: str, read: Callable[[str], int], back: bool) -> None:
        """Moves, window by window, to the first state where the value is another one."""
        word = 'back 1' if back else 'step 1'
        here = self.value_by(line, read)
        while True:
            begin = self.standing.position
            standings, output = self.run.walk([f'step {begin}'] + [word, line] * WINDOW)
            parts = re.split(r'^at .*\n', output, flags=re.M)[2:]
            for at, part in zip(standings[1:], parts):
                self.standing = at
                if read(part) != here:
                    self.say([changed_line(here, read(part), back)])
                    return
            if self.standing.note or self.standing.position == begin:
                return
            self.notify(f'looked {"back" if back else "up"} to position {self.standing.position}')

    def do_list(self, _arg: str) -> None:
        """list: the instructions around this one."""
        pc = self.standing.pc
        for cell in range(max(0, pc - 5), min(len(self.listing.code), pc + 6)):
            mark = ('>' if cell == pc else ' ') + ('*' if cell in self.breaks else ' ')
            self.say([f'{mark}{cell:6d} | {self.listing.code[cell]}'])

    def do_where(self, _arg: str) -> None:
        """where: the position, the code address and the instruction there."""
        self.here()


def changed_line(here: int, there: int, back: bool) -> str:
    return f'changed: {there} -> {here}' if back else f'changed: {here} -> {there}'


def debug_image(program: Program, given, lines: List[str]) -> int:
    """A session over an image."""
    if given.assignments or given.input:
        raise Unfit('`debug` runs an image from its loaded memory and takes no input: debug the source, or use `rpp state`')
    try:
        listing = Listing.of(program, given.source)
        with MachineRun(program, given.source, given.heap, given.depth) as run:
            echo = bool(lines) or not sys.stdin.isatty()
            prompt = MachinePrompt(run, listing, given.source_of_image, echo)
            return hold(prompt, lines, f'{title(given.source)}: `help` names the commands')
    except Refused as refused:
        say(image_refused(given.source, refused))
        return refused.told.status


def image_refused(image: str, refused: Refused) -> List[str]:
    told = refused.told
    if told.kind != 'refused':
        return failure_lines(told, shown(image))
    rule = refusal(told.number)
    at = f' at byte {told.at}' if told.at is not None else ''
    page = see(rule) if rule else ''
    return [f'{shown(image)}: refused {told.number} {told.name}{at}', *([rule.sentence] if rule else []), *([f'See {page}'] if page else [])]
