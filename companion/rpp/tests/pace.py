"""How much work an action takes, in loops.

Seconds of the processor differ from machine to machine, and with what else a machine does. So a test compares an action with a
fixed loop of the same kind: both run in turn, and the least time of each counts. A test whose bound is twice what was measured
fails if the action's own work doubles, and not if the machine is slow."""
import re
import time
from typing import Callable

LEAST_TRIES, MOST_TRIES = 5, 40
METHODS = 570
PART = re.compile(rb'\w+|[^\w\s]')
LINES = b'  local int t = 12 // adds\n  if n = 12 then t += n else skip fi n = 12\n' * 700


def long_text() -> str:
    """A source of 20,000 tokens, which is as many as one may have. Some of its lines are not laid out."""
    lines = ['class P', '  int x', 'method main()', '  call m0(x)']
    for number in range(METHODS):
        lines += [f'// adds {number}', f'method m{number}(int n)', f'  local int t = {number}', f'  if n = {number} then', '      t += n',
                  f'  else  skip fi n = {number}', f'  n += t + {number}', f'  delocal int t = {number}', '']
    return '\n'.join(lines)


def texts_loop() -> None:
    """Some 20,000 parts of a text are found, named and sorted."""
    found = {}
    for number, part in enumerate(PART.finditer(LINES)):
        found[part.group() + b'%d' % number] = (number, part.start())
    sorted(found)


def loops(action: Callable[[], object], enough: float, loop: Callable[[], object] = texts_loop,
          clock: Callable[[], float] = time.process_time) -> float:
    """How many loops take as long as the action. While this is more than `enough`, it tries on, up to MOST_TRIES times."""
    def taken(work: Callable[[], object]) -> float:
        begin = clock()
        work()
        return clock() - begin

    least, least_loop = float('inf'), float('inf')
    for tried in range(1, MOST_TRIES + 1):
        least_loop, least = min(least_loop, taken(loop)), min(least, taken(action))
        if tried >= LEAST_TRIES and least <= enough * least_loop:
            break
    return least / least_loop
