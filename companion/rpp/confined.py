"""The program for texts of strangers: each call ends in time, takes bounded memory, and writes no file but those of `rpp`.

    program = Confined.found()
    program.begin(seconds=10)                # for all calls from here on together
    program.each = 5                         # seconds of the processor for each call
    program.call('go', source, 12, 64, 10 ** 6)      # raises OutOfTime

A text is only ever read: the commands that `rpp` calls over it are those of READING, which write nothing, and the system
allows them no file of one byte. Those of WRITING write into a file that `rpp` has named, in a folder of its own.
"""
import math
import time
from typing import List, Optional

from .program import Answer, OutOfTime, Program

READING = frozenset('check explain go turn trace wrap debug'.split())
WRITING = frozenset('compile show-inverse asm list flip run'.split())
EACH_SECONDS = 5.0
MEMORY_KILOBYTES = 2_000_000
# (in blocks of 512 bytes, as `ulimit` counts)
WRITTEN_BLOCKS = 131_072
SHELL = 'ulimit -f "$0" && ulimit -v "$1" && ulimit -t "$2" && shift 2 && exec "$@"'
# a processor with other work gives a call so many times less, and the signals of the system for a call that took its time
WALL = 4
TIME_SIGNALS = (-24, -9)


class Confined(Program):
    """The program under limits."""

    def __init__(self, path: str, origin: str):
        super().__init__(path, origin)
        self.each = EACH_SECONDS
        self._ends: Optional[float] = None

    def begin(self, seconds: float) -> None:
        """From here on, so many seconds for all calls together."""
        self._ends = time.monotonic() + seconds

    def line(self, words: List[str]) -> List[str]:
        if words[0] not in READING | WRITING:
            raise ValueError(f'{words[0]} is no command for texts of strangers')
        blocks = 0 if words[0] in READING else WRITTEN_BLOCKS
        return ['/bin/sh', '-c', SHELL, str(blocks), str(MEMORY_KILOBYTES), str(math.ceil(self.each)), *super().line(words)]

    def call(self, *words, timeout: Optional[float] = None) -> Answer:
        limits = [WALL * self.each] + ([timeout] if timeout is not None else [])
        if self._ends is not None:
            limits.append(self._ends - time.monotonic())
        if min(limits) <= 0:
            raise OutOfTime()
        return super().call(*words, timeout=min(limits))

    def _answer(self, output: bytes) -> Answer:
        if self._running.returncode in TIME_SIGNALS and not self._stopped:
            raise OutOfTime()
        return super()._answer(output)
