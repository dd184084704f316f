"""The reports that `go` and `turn` print, for people: each array of ints in a line.

    folded(lines)           # '#1 int[3] count 1', '  [0] = 5', .. becomes '#1 int[3] count 1: 5 0 7'
"""
import re
from typing import List

from .screen import wrapped

CELL = re.compile(r'^  \[\d+\] = (\S+)$')
INTS = re.compile(r'^#\d+ int\[\d+\] count \d+$')


def folded(lines: List[str]) -> List[str]:
    """The lines, with the elements of each array of ints after its head."""
    found: List[str] = []
    at = 0
    while at < len(lines):
        elements = []
        while INTS.match(lines[at]) and at + 1 + len(elements) < len(lines) and CELL.match(lines[at + 1 + len(elements)]):
            elements.append(CELL.match(lines[at + 1 + len(elements)])[1])
        found += wrapped(f'{lines[at]}: {" ".join(elements)}', '', '  ') if elements else [lines[at]]
        at += 1 + len(elements)
    return found
