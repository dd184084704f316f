"""Plots as SVG for papers: small panels in rows over one common axis, a line for each series.

    plot('sum.rpp', 'n', [Panel('steps', 'of the machine', [Series('', [(1, 120), (2, 190)])])])      # the text of an SVG

It needs no browser and no font but those of every viewer; colours differ in print too, and each series has its own mark."""
import html
import math
from typing import List, NamedTuple, Tuple

COLUMNS, WIDTH, HEIGHT = 3, 250, 150
LEFT, TOP, BOTTOM, GAP = 52, 46, 34, 16
COLOURS = ('#0072b2', '#d55e00', '#009e73', '#cc79a7', '#56b4e9', '#e69f00', '#000000')
MOST_TICKS = 5
STYLE = ('text{font:11px Helvetica,Arial,sans-serif;fill:#222}.title{font-weight:bold;font-size:12px}.unit{fill:#666}'
         '.axis{stroke:#222;stroke-width:1;fill:none}.grid{stroke:#ddd;stroke-width:.6}.line{fill:none;stroke-width:1.6}')
MARKS = ('<circle r="2.6"/>', '<rect x="-2.4" y="-2.4" width="4.8" height="4.8"/>', '<path d="M0-3.2L3 2.4H-3z"/>', '<path d="M0-3.4L3.4 0L0 3.4L-3.4 0z"/>')


class Series(NamedTuple):
    """A line of a panel: its name, and points in the order of their first number."""
    name: str
    points: List[Tuple[float, float]]


class Panel(NamedTuple):
    title: str
    unit: str
    series: List[Series]


def ticks(least: float, most: float) -> List[float]:
    """Round numbers that cover a range: at most MOST_TICKS steps of 1, 2 or 5 times a power of ten."""
    span = (most - least) or abs(most) or 1.0
    power = 10.0 ** math.floor(math.log10(span / MOST_TICKS))
    step = next(power * each for each in (1, 2, 5, 10, 20) if span / (power * each) <= MOST_TICKS)
    if float(most).is_integer() and float(least).is_integer():
        step = max(1.0, step)
    first, last = math.floor(least / step), math.ceil(most / step)
    return [step * each for each in range(first, max(last, first + 1) + 1)]


def number(value: float) -> str:
    """A number as it is written at an axis: no more digits than it needs, and thousands parted."""
    return f'{value:,.0f}' if float(value).is_integer() else f'{value:,.6g}'


class _Drawing:
    """Draws one panel with its upper left corner at a place."""

    def __init__(self, panel: Panel, left: float, top: float):
        self.panel, self.left, self.top = panel, left + LEFT, top + TOP
        places = [point for each in panel.series for point in each.points]
        firsts, seconds = [x for x, _ in places], [y for _, y in places]
        self.across = ticks(min(firsts), max(firsts))
        self.up = ticks(min(0.0, *seconds), max(seconds))
        self.width, self.height = WIDTH - LEFT, HEIGHT - TOP

    def x(self, value: float) -> float:
        return round(self.left + self.width * (value - self.across[0]) / (self.across[-1] - self.across[0]), 1)

    def y(self, value: float) -> float:
        return round(self.top + self.height * (1 - (value - self.up[0]) / (self.up[-1] - self.up[0])), 1)

    def drawn(self, axis: str) -> List[str]:
        below, right = self.top + self.height, self.left + self.width
        parts = [text(self.left - LEFT, self.top - 25, self.panel.title, 'title'),
                 text(self.left - LEFT, self.top - 11, self.panel.unit, 'unit')]
        for value in self.up:
            parts.append(f'<path class="grid" d="M{self.left} {self.y(value)}H{right}"/>')
            parts.append(text(self.left - 6, self.y(value) + 4, number(value), '', 'end'))
        for value in self.across:
            parts.append(f'<path class="axis" d="M{self.x(value)} {below}v4"/>')
            parts.append(text(self.x(value), below + 16, number(value), '', 'middle'))
        parts += [f'<path class="axis" d="M{self.left} {self.top}V{below}H{right}"/>', text(right, below + 29, axis, 'unit', 'end')]
        return parts + [self.line(series, at) for at, series in enumerate(self.panel.series)]

    def line(self, series: Series, at: int) -> str:
        colour, mark = COLOURS[at % len(COLOURS)], MARKS[at % len(MARKS)]
        places = [(self.x(x), self.y(y)) for x, y in series.points]
        path = 'L'.join(f'{x} {y}' for x, y in places)
        marks = ''.join(f'<g transform="translate({x} {y})" fill="{colour}">{mark}</g>' for x, y in places[:60])
        return f'<path class="line" stroke="{colour}" d="M{path}"/>{marks}'


def text(x: float, y: float, words: str, kind: str = '', anchor: str = 'start') -> str:
    kind = f' class="{kind}"' if kind else ''
    return f'<text{kind} x="{x:.1f}" y="{y:.1f}" text-anchor="{anchor}">{html.escape(words)}</text>'


def legend(names: List[str], top: float) -> str:
    """The names of the series, where there are several."""
    parts = []
    for at, name in enumerate(names):
        left = 8 + 110 * at
        parts.append(f'<g transform="translate({left} {top - 4})" fill="{COLOURS[at % len(COLOURS)]}">{MARKS[at % len(MARKS)]}</g>')
        parts.append(text(left + 9, top, name))
    return ''.join(parts)


def plot(title: str, axis: str, panels: List[Panel]) -> str:
    """The panels as an SVG, in rows of COLUMNS; `axis` names what goes from left to right."""
    panels = [panel for panel in panels if any(series.points for series in panel.series)]
    names = [series.name for series in panels[0].series] if panels else []
    rows = -(-len(panels) // COLUMNS)
    head = 26 + (20 if len(names) > 1 else 0)
    width = min(len(panels), COLUMNS) * (WIDTH + GAP) + 8
    height = head + rows * (HEIGHT + BOTTOM + GAP)
    parts = [text(8, 18, title, 'title')] + ([legend(names, 38)] if len(names) > 1 else [])
    for at, panel in enumerate(panels):
        left, top = 8 + (at % COLUMNS) * (WIDTH + GAP), head + (at // COLUMNS) * (HEIGHT + BOTTOM + GAP)
        parts += _Drawing(panel, left, top).drawn(axis)
    body = '\n'.join(parts)
    return (f'<svg xmlns="http://www.w3.org/2000/svg" width="{width}" height="{height}" viewBox="0 0 {width} {height}">\n'
            f'<style>{STYLE}</style>\n<rect width="{width}" height="{height}" fill="#fff"/>\n{body}\n</svg>\n')
