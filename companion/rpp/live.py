"""One run that the program `rooplpp-live` holds open. It answers line by line, as docs/reference/live.md has it.

    live = Live.begun(program, 'list.rpp', 12, 64)      # None where there is no such program, or it does not begin
    live.ask(['step 7', 'regs'])     # [Reply(lines=['at 7 place 375 depth 2'], end='done'), Reply(lines=[..], end='done')]
    live.served('any 375 401 1000')  # its reply, or None: a program may lack this request
    live.value('list')               # '#2', '' if there is no such value, or None
    live.limit(100000)               # True: no request makes more moves from now on
    live.close()

Nothing of a run is computed here. A session that ends, or has no memory for an answer, raises Lost; the caller then has `trace`.
"""
import os
import subprocess
import threading
from typing import Iterator, List, NamedTuple, Optional, Sequence, Set

from .program import Closing, Interrupted, OutOfTime, Program, command_of, is_for_node, is_program

GREETINGS = {kind: [f'rooplpp-live 1 {kind}'] for kind in ('source', 'image')}
# So many bytes of requests are written before their replies are read. A pipe takes them also where nobody reads.
BATCH = 4096
LONGEST = 4096
SECONDS_TO_END = 5


class Lost(Exception):
    """There is no answer: no program, the end of the session, or no memory."""


class Reply(NamedTuple):
    """The lines of a reply, and what its last line says after the full stop."""
    lines: List[str]
    end: str


class Live(Closing):
    """A session. ^C, `stop` of the program and a time that is over end it with what a call of the program raises."""

    def __init__(self, program: Program, words: Sequence[str]):
        self.program = program
        self._lacks: Set[str] = set()
        self._is_late = False
        # (^C at a terminal is for the tool, which ends a search by ending the session)
        self._process = subprocess.Popen(words, stdin=subprocess.PIPE, stdout=subprocess.PIPE, stderr=subprocess.DEVNULL,
                                         start_new_session=True)

    @classmethod
    def begun(cls, program: Program, source: str, heap: int, depth: int, inputs: Sequence[str] = ()) -> Optional['Live']:
        """A session at the start of the run of a source, where there is a program that begins one."""
        return cls._begun(program, 'source', [source, str(heap), str(depth), *inputs])

    @classmethod
    def begun_image(cls, program: Program, image: str, heap: int, depth: int) -> Optional['Live']:
        """The same of the run of an image, from its loaded memory."""
        return cls._begun(program, 'image', [image, str(heap), str(depth)])

    @classmethod
    def _begun(cls, program: Program, kind: str, words: Sequence[str]) -> Optional['Live']:
        path = path_of(program)
        if path is None:
            return None
        try:
            live = cls(program, [*command_of(path), kind, *words])
        except OSError:
            return None
        try:
            if live.ask([], replies=1)[0].lines == GREETINGS[kind]:
                return live
        except Lost:
            pass
        live.close()
        return None

    def ask(self, lines: Sequence[str], seconds: Optional[float] = None, replies: int = 0) -> List[Reply]:
        """The replies to these lines, and so many more that nobody asked for."""
        self._is_late = False
        timer = threading.Timer(seconds, self._end_late) if seconds is not None else None
        if timer is not None:
            timer.start()
        try:
            with self.program.waiting_for(self._process):
                return self._asked(lines, replies)
        except KeyboardInterrupt:
            self.close()
            raise Interrupted() from None
        except Lost:
            self.close()
            if self.program.is_stopped or self._is_late:
                raise (OutOfTime if self._is_late else Interrupted)() from None
            raise
        finally:
            if timer is not None:
                timer.cancel()

    def served(self, line: str, seconds: Optional[float] = None) -> Optional[Reply]:
        """The reply to a request that not every program has. If this one does not, None, and the session is as it was."""
        word = next(each for each in line.split() if each != 'back')
        if word in self._lacks or len(line) >= LONGEST:
            return None
        reply = self.ask([line], seconds)[0]
        if reply.end in ('bad', 'unknown'):
            if reply.end == 'bad':
                self._lacks.add(word)
            return None
        return reply

    def value(self, path: str, seconds: Optional[float] = None) -> Optional[str]:
        """The value of a variable, or of a cell `#K.FIELD` or `#K[I]`; '' if there is none, None if the program has no such request."""
        reply = self.served(f'value {path}', seconds)
        return None if reply is None else (reply.lines or ['value '])[0][len('value '):]

    def limit(self, moves: int, seconds: Optional[float] = None) -> bool:
        """Lets each later request make at most so many moves, and end with `more` after them; whether the program has that."""
        return self.served(f'limit {moves}', seconds) is not None

    def close(self) -> None:
        """Ends the session at once: it writes no file, and has nothing to lose."""
        self._process.kill()
        for stream in (self._process.stdin, self._process.stdout):
            try:
                stream.close()
            except OSError:
                pass
        try:
            self._process.wait(SECONDS_TO_END)
        except subprocess.TimeoutExpired:
            pass

    def _asked(self, lines: Sequence[str], replies: int) -> List[Reply]:
        found = [self._read() for _ in range(replies)]
        for batch in batches(lines):
            try:
                self._process.stdin.write(''.join(f'{line}\n' for line in batch).encode())
                self._process.stdin.flush()
            except (OSError, ValueError):
                raise Lost() from None
            found += [self._read() for _ in batch]
        if any(reply.end in ('memory', 'long') for reply in found):
            raise Lost()
        return found

    def _read(self) -> Reply:
        """The next reply."""
        lines: List[str] = []
        try:
            for line in self._process.stdout:
                text = line.decode('utf-8', 'replace').rstrip('\r\n')
                if text.startswith('. '):
                    return Reply(lines, text[2:])
                lines.append(text)
        except (OSError, ValueError):
            pass
        raise Lost()

    def _end_late(self) -> None:
        self._is_late = True
        self._process.kill()


def batches(lines: Sequence[str]) -> Iterator[List[str]]:
    """The lines in parts of at most so many bytes, or of one line."""
    part: List[str] = []
    size = 0
    for line in lines:
        if part and size + len(line) >= BATCH:
            yield part
            part, size = [], 0
        part.append(line)
        size += len(line) + 1
    if part:
        yield part


def path_of(program: Program) -> Optional[str]:
    """The file of the program that holds a session: the one that ROOPLPP_LIVE names, or the one next to the program."""
    named = os.environ.get('ROOPLPP_LIVE')
    places = [named] if named is not None else places_by(program.path)
    return next((os.path.abspath(each) for each in places if is_program(each)), None)


def places_by(path: str) -> Iterator[str]:
    """Where the program for sessions may be if the other is in this file: next to it, or where a clone builds it."""
    for each in dict.fromkeys((os.path.abspath(path), os.path.realpath(path))):
        folder = os.path.dirname(each)
        yield os.path.join(folder, 'rooplpp-live' + ('.mjs' if is_for_node(path) else os.path.splitext(path)[1]))
        yield os.path.join(os.path.dirname(os.path.dirname(folder)), 'rooplpp_live', 'out', 'rooplpp_live')
