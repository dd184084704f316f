"""What a run left, as `go`, `turn` and `explain` print it: fields, objects, and what the run took.

    result = Result.read(program.call('go', 'list.rpp', 12, 64, 10 ** 6).output)
    result.fields                 # {'list': '#1', 'count': '3'}, as printed.
    result.value('list.head')     # '#2', or None.

    result.objects[2]             # Thing(number=2, head='Node', count=1, cells=(('data', '7'), ('next', 'nil')))
    result.numbers                # {'live': 2, 'steps': 431}
"""
import re
from typing import Dict, List, NamedTuple, Optional

from .changes import value_of
from .trace import CELL, OBJECT, VARIABLE, Moment, Point, Thing

NUMBER = re.compile(r'^(live|steps|cost|back|initial|restored) (\d+)(?: cells)?$')


class Result(NamedTuple):
    """The report of one end of a run, and the numbers after it. Values are texts as printed: a number, `nil` or `#K`."""
    fields: Dict[str, str]
    objects: Dict[int, Thing]
    numbers: Dict[str, int]

    @property
    def live(self) -> Optional[int]:
        return self.numbers.get('live')

    def value(self, path: str) -> Optional[str]:
        """The value of a field, and of what it leads to: `list.head.data`, `row[2]`."""
        return value_of(Moment(Point(0, None, None), tuple(self.fields.items()), self.objects), path)

    @classmethod
    def read(cls, output: str) -> 'Result':
        return cls.of(output.split('\n'))

    @classmethod
    def of(cls, lines: List[str]) -> 'Result':
        """The result of the lines of one report."""
        fields: Dict[str, str] = {}
        objects: Dict[int, Thing] = {}
        numbers: Dict[str, int] = {}
        last = 0
        for line in lines:
            thing, cell, variable, number = (form.match(line) for form in (OBJECT, CELL, VARIABLE, NUMBER))
            if thing:
                last = int(thing[1])
                objects[last] = Thing(last, thing[2], int(thing[3]), ())
            elif cell and last:
                objects[last] = objects[last]._replace(cells=objects[last].cells + ((cell[1], cell[2]),))
            elif variable:
                fields[variable[1]] = variable[2]
            elif number:
                numbers[number[1]] = int(number[2])
        return cls(fields, objects, numbers)

    @classmethod
    def both(cls, output: str) -> List['Result']:
        """The two results of `turn`: of the end, and of what running back left. The line `back N` parts them."""
        lines = output.split('\n')
        middle = next(at for at, line in enumerate(lines) if line.startswith('back '))
        return [cls.of(lines[:middle]), cls.of(lines[middle:])]
