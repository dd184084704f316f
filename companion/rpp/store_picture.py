"""The store at a position of a run as an SVG for papers: active calls and variables at the left, objects in columns by how many
references lead to them, and arrows.

    Store('Stack.push', calls, variables, objects, own=1, changed={...}).picture(caption='stack.rpp, position 12')

What the last statement changed is bold. The picture needs no other file, and is legible without colours."""
import html
from typing import Dict, List, NamedTuple, Optional, Set, Tuple

from .trace import Thing

LETTER, LINE, PAD = 7.25, 17, 8
ACROSS, DOWN, MARGIN = 46, 16, 12
STYLE = ('text{font:12px "DejaVu Sans Mono",Menlo,Consolas,monospace;fill:#111}.head{font-weight:bold}.pale{fill:#666}'
         '.new{font-weight:bold;fill:#a33b00}.box{fill:#fff;stroke:#333;stroke-width:1}.bar{fill:#e4ecf5;stroke:#333;stroke-width:1}'
         '.call{fill:#f3ecd9;stroke:#333;stroke-width:1}.own{stroke-width:2.2}'
         '.arrow{fill:none;stroke:#0b4f8a;stroke-width:1.3;marker-end:url(#head)}.dot{fill:#0b4f8a}')
HEAD = ('<defs><marker id="head" viewBox="0 0 8 8" refX="7.5" refY="4" markerWidth="7" markerHeight="7" orient="auto">'
        '<path d="M0 0.6L8 4L0 7.4z" fill="#0b4f8a"/></marker></defs>')
Row = Tuple[str, str]


class Box(NamedTuple):
    """A box with a title and rows NAME, VALUE: `number` is that of an object, or None for the variables of a call."""
    number: Optional[int]
    title: str
    note: str
    rows: List[Row]

    @property
    def width(self) -> float:
        head = len(self.title) + (len(self.note) + 2 if self.note else 0)
        rows = [len(name) + len(value) + 3 for name, value in self.rows]
        return round(LETTER * max([head] + rows) + 2 * PAD, 1)

    @property
    def height(self) -> int:
        return LINE * (1 + len(self.rows)) + (8 if self.rows else 3)


class Place(NamedTuple):
    """The place of a box."""
    left: float
    top: float
    width: float


class Store:
    """The boxes of a moment. `calls` are the active calls around the innermost one, the outermost first; `own` is the number of
    the current object; `changed` has pairs of an object's number, or None, and a name."""

    def __init__(self, title: str, calls: List[str], variables: List[Row], objects: Dict[int, Thing], own: Optional[int],
                 changed: Set[Tuple[Optional[int], str]]):
        self.calls, self.own, self.changed = calls, own, changed
        self.first = Box(None, title, '', variables)
        self.boxes = {number: Box(number, f'#{number} {thing.head}', f'count {thing.count}', list(thing.cells))
                      for number, thing in sorted(objects.items())}
        self.columns = self.placed_in_columns()
        self.places: Dict[Optional[int], Place] = {}
        self.set_out()

    # ---- the places of the boxes

    def placed_in_columns(self) -> List[List[Box]]:
        """The variables and the main object in the first column, and each object one column after the first that refers to it."""
        columns, seen = [[self.first]], set()
        if 1 in self.boxes:
            columns[0].append(self.boxes[1])
            seen.add(1)
        while True:
            column = self.next_column(columns[-1], seen)
            if not column and len(seen) < len(self.boxes):
                # (an object that only a variable of an outer call holds)
                column = [self.boxes[min(set(self.boxes) - seen)]]
                seen.add(column[0].number)
            if not column:
                return columns
            columns.append(column)

    def next_column(self, before: List[Box], seen: Set[int]) -> List[Box]:
        column = []
        for box in before:
            for _, value in box.rows:
                number = referred(value)
                if number in self.boxes and number not in seen:
                    seen.add(number)
                    column.append(self.boxes[number])
        return column

    def set_out(self) -> None:
        """Gives each box its place: as high as the first row that refers to it, and below those before it in its column."""
        left = float(MARGIN)
        for column in self.columns:
            top = float(MARGIN + (LINE + 4) * (1 + len(self.calls)))
            for box in column:
                top = max(top, self.wanted_top(box)) if column is not self.columns[0] else top
                self.places[box.number] = Place(left, top, box.width)
                top += box.height + DOWN
            left += max(box.width for box in column) + ACROSS

    def wanted_top(self, box: Box) -> float:
        """The height of the first row, in boxes that have their places, that refers to this one."""
        tops = [self.row_middle(other, at) - LINE for other in self.placed() for at, (_, value) in enumerate(other.rows)
                if referred(value) == box.number]
        return min(tops) if tops else 0.0

    def placed(self) -> List[Box]:
        return [box for column in self.columns for box in column if box.number in self.places]

    def row_middle(self, box: Box, at: int) -> float:
        return self.places[box.number].top + LINE * (at + 1.5) + 5

    # ---- drawing

    def picture(self, caption: str) -> str:
        """The SVG."""
        boxes = [part for column in self.columns for box in column for part in self.drawn(box)]
        arrows = [part for column in self.columns for box in column for part in self.arrows(box)]
        ends = [self.places[box.number] for column in self.columns for box in column]
        width = max([place.left + place.width for place in ends] + [MARGIN + LETTER * len(caption)]) + MARGIN + 30
        height = max(place.top + box.height for box, place in ((box, self.places[box.number]) for column in self.columns
                                                               for box in column)) + MARGIN + 10
        calls = [words(MARGIN, MARGIN + LINE * (at + 2) - 4, call, 'pale') for at, call in enumerate(self.calls)]
        body = '\n'.join([words(MARGIN, MARGIN + 10, caption, 'pale')] * bool(caption) + calls + boxes + arrows)
        return (f'<svg xmlns="http://www.w3.org/2000/svg" width="{width:.0f}" height="{height:.0f}" '
                f'viewBox="0 0 {width:.0f} {height:.0f}">\n<style>{STYLE}</style>\n{HEAD}\n'
                f'<rect width="100%" height="100%" fill="#fff"/>\n{body}\n</svg>\n')

    def drawn(self, box: Box) -> List[str]:
        place = self.places[box.number]
        own = ' own' if box.number is not None and box.number == self.own else ''
        bar = 'call' if box.number is None else 'bar'
        parts = [f'<rect class="box{own}" x="{place.left}" y="{place.top}" width="{place.width}" height="{box.height}" rx="3"/>',
                 f'<rect class="{bar}" x="{place.left}" y="{place.top}" width="{place.width}" height="{LINE + 3}" rx="3"/>',
                 words(place.left + PAD, place.top + 14, box.title, 'head')]
        if box.note:
            parts.append(words(place.left + place.width - PAD, place.top + 14, box.note, 'pale', 'end'))
        for at, (name, value) in enumerate(box.rows):
            base = self.row_middle(box, at) + 4
            kind = 'new' if (box.number, name) in self.changed else ''
            parts.append(words(place.left + PAD, base, name, kind))
            shown, right = ('', 0.0) if referred(value) in self.boxes else (value, place.left + place.width - PAD)
            parts += [words(right, base, shown, kind or ('pale' if value == 'nil' else ''), 'end')] if shown else []
        return parts

    def arrows(self, box: Box) -> List[str]:
        parts = []
        for at, (_, value) in enumerate(box.rows):
            number = referred(value)
            if number in self.boxes:
                parts += self.arrow(self.places[box.number], self.row_middle(box, at), self.places[number], at)
        return parts

    def arrow(self, start: Place, height: float, end: Place, at: int) -> List[str]:
        """From a dot in a row to the title of a box: to its left side if it is farther right, else to its right side."""
        x, y, goal = start.left + start.width - PAD, height, end.top + 10
        if end.left > start.left + start.width:
            last, bend = end.left, min(ACROSS * 0.7, (end.left - x) / 2)
            path = f'{x + bend:.1f} {y:.1f} {last - bend:.1f} {goal:.1f}'
        elif end.left + end.width < start.left:
            x, last = start.left, end.left + end.width
            bend = min(ACROSS * 0.7, (x - last) / 2) + 3 * (at % 3)
            path = f'{x - bend:.1f} {y:.1f} {last + bend:.1f} {goal:.1f}'
        else:
            last = end.left + end.width
            bend = max(x, last) + 16 + 5 * (at % 4)
            path = f'{bend:.1f} {y:.1f} {bend:.1f} {goal:.1f}'
        return [f'<circle class="dot" cx="{x:.1f}" cy="{y:.1f}" r="2.6"/>',
                f'<path class="arrow" d="M{x:.1f} {y:.1f}C{path} {last:.1f} {goal:.1f}"/>']


def referred(value: str) -> Optional[int]:
    """The number of the object to which a value refers."""
    return int(value[1:]) if value.startswith('#') else None


def words(x: float, y: float, text: str, kind: str = '', anchor: str = '') -> str:
    kind = f' class="{kind}"' if kind else ''
    anchor = f' text-anchor="{anchor}"' if anchor else ''
    return f'<text{kind}{anchor} x="{x:.1f}" y="{y:.1f}" xml:space="preserve">{html.escape(text)}</text>'
