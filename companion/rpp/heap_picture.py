"""The pictures of `rpp heap`: for each moment the heap as a tree of blocks, with the main object above and the frames of the
active calls below, and arrows for references."""
import html
import textwrap
from typing import Dict, List, NamedTuple, Optional, Tuple

from .memory import Block, Memory, block_words, frame_words, order_for, taken_words
from .page import page

COLUMN, LINE, GAP, ADDRESS, LETTER, WIDEST = 26, 18, 34, 58, 7.8, 62
FILES = ['heap.css']
WORDS = ('Each picture shows the main object, the blocks of the heap in the order of their addresses, and the frames of the '
         'active calls. A column is for an order k, with blocks of 2^k words; a block that was halved is left of its '
         'halves. An arrow leads to what a reference names, a thin one from a frame to the object on which its method runs, '
         'a dashed one to the next free block of a list.')


class Row(NamedTuple):
    """A row of the picture: what it shows, its top, its lines of text, the addresses that its references name, and of a frame
    that of the object on which its method runs."""
    address: int
    kind: str
    top: int
    lines: List[str]
    names: List[int]
    on: Optional[int] = None

    @property
    def height(self) -> int:
        return LINE * len(self.lines) + 8

    @property
    def middle(self) -> float:
        return self.top + self.height / 2


class Picture:
    """Places the rows of a memory, and draws them."""

    def __init__(self, memory: Memory):
        self.memory = memory
        self.deepest = min([order_for(block.words) for block in memory.blocks] + [memory.order])
        self.tree = COLUMN * (memory.order - self.deepest + 1)
        self.top = -10
        self.captions: List[Tuple[int, str]] = []
        self.caption('main object')
        self.main = [self.block_row(memory.main)]
        self.caption(f'heap: {1 << memory.order} words from {memory.base}, {taken_words(memory)} taken')
        self.head = self.top
        self.top += LINE
        self.blocks = [self.block_row(block) for block in memory.blocks]
        if memory.frames:
            self.caption(f'active calls: a frame of 512 words each from {memory.stack}')
        self.frames = [self.row(frame.address, 'frame', frame_words(frame), frame.variables)._replace(on=frame.on)
                       for frame in memory.frames]
        self.right = self.tree + ADDRESS + 20 + LETTER * max(len(line) for row in self.rows for line in row.lines)

    @property
    def rows(self) -> List[Row]:
        return self.main + self.blocks + self.frames

    def caption(self, text: str) -> None:
        self.captions.append((self.top + 24, text))
        self.top += GAP

    def block_row(self, block: Block) -> Row:
        return self.row(block.address, block.kind, block_words(block), block.cells)

    def row(self, address: int, kind: str, text: str, cells) -> Row:
        names = [int(value[1:]) for _, value in cells if value.startswith('@')]
        made = Row(address, kind, self.top, textwrap.wrap(text, WIDEST) or [''], names)
        self.top += made.height + 2
        return made

    # ---- drawing

    def drawn(self) -> str:
        curves = self.references() + self.lists()
        width = self.right + 30 + 10 * 8
        parts = [words('heap-caption', 0, top, caption) for top, caption in self.captions]
        parts += self.orders() + self.halved() + [self.drawn_row(row) for row in self.rows] + curves
        return (f'<svg class="heap-picture" width="{width:.0f}" height="{self.top + 4}" role="img" '
                f'aria-label="the memory, written as text below">{ARROW}{"".join(parts)}</svg>')

    def left_of(self, block: Block) -> int:
        return COLUMN * (self.memory.order - order_for(block.words))

    def orders(self) -> List[str]:
        """The heads of the columns."""
        columns = range(self.memory.order - self.deepest + 1)
        return [words('heap-order', COLUMN * at + COLUMN // 2, self.head + 13, str(self.memory.order - at)) for at in columns]

    def halved(self) -> List[str]:
        """The blocks that were halved, as boxes left of their halves."""
        spans: Dict[Tuple[int, int], List[Row]] = {}
        for block, row in zip(self.memory.blocks, self.blocks):
            for order in range(order_for(block.words) + 1, self.memory.order + 1):
                first = (block.address - self.memory.base) >> order
                spans.setdefault((order, first), []).append(row)
        return [box('heap-halved', COLUMN * (self.memory.order - order) + 1, rows[0].top, COLUMN - 2,
                    rows[-1].top + rows[-1].height - rows[0].top) for (order, _), rows in spans.items()]

    def drawn_row(self, row: Row) -> str:
        left = 0
        for block, of_block in zip(self.memory.blocks, self.blocks):
            if of_block is row:
                left = self.left_of(block)
        column, base = self.tree + ADDRESS, row.top + LINE - 1
        lines = [words('heap-words', column + 8, base + LINE * at, line) for at, line in enumerate(row.lines)]
        return (box(f'heap-{row.kind}', left + 1, row.top, round(self.right - left), row.height)
                + words('heap-address', column - 6, base, str(row.address)) + ''.join(lines))

    def references(self) -> List[str]:
        tops = {row.address: row for row in self.main + self.blocks}
        return [self.curve(row, tops[name], kind, at) for row in self.rows for at, (name, kind) in enumerate(
            [(row.on, 'heap-on')] * (row.on is not None) + [(name, 'heap-reference') for name in row.names]) if name in tops]

    def lists(self) -> List[str]:
        tops = {row.address: row for row in self.blocks}
        return [self.curve(tops[one], tops[next_one], 'heap-next', 0) for found in self.memory.lists.values()
                for one, next_one in zip(found, found[1:])]

    def curve(self, start: Row, end: Row, kind: str, at: int) -> str:
        """An arrow at the right from one row to another, the wider the farther they are."""
        begin, last, right = round(start.middle + 4 * (at % 3) - 3), round(end.middle), round(self.right + 3)
        bulge = right + 18 + min(70, abs(last - begin) // 4)
        return f'<path class="{kind}" d="M{right} {begin}C{bulge} {begin} {bulge} {last} {right} {last}"/>'


ARROW = ('<defs><marker id="heap-arrow" viewBox="0 0 9 8" refX="8" refY="4" markerWidth="9" markerHeight="8" orient="auto" '
         'markerUnits="userSpaceOnUse"><path class="heap-pointer" d="M0 0L9 4L0 8z"/></marker></defs>')
LEGEND = ''.join(f'<span class="heap-{kind}">{kind}</span>' for kind in ('free', 'object', 'array', 'frame'))


def box(kind: str, left: int, top: int, width: int, height: int) -> str:
    return f'<rect class="{kind}" x="{left}" y="{top}" width="{width}" height="{height}" rx="3"/>'


def words(kind: str, left: int, base: int, text: str) -> str:
    return f'<text class="{kind}" x="{left}" y="{base}">{html.escape(text)}</text>'


def scale(memory: Memory) -> str:
    """The whole heap true to scale, block next to block."""
    whole = 1 << memory.order
    rects = ''.join(f'<rect class="heap-{block.kind}" x="{block.address - memory.base}" y="0" width="{block.words}" height="1"/>'
                    for block in memory.blocks)
    return f'<svg class="heap-scale" viewBox="0 0 {whole} 1" preserveAspectRatio="none" aria-hidden="true">{rects}</svg>'


def section(title: str, memory: Memory, rows: List[str]) -> str:
    """The part of a page that shows the memory of a moment, as a picture and by the rows of its text."""
    text = html.escape('\n'.join(rows))
    return (f'<section><h2>{html.escape(title)}</h2>{scale(memory)}'
            f'<div class="heap-scroll" tabindex="0">{Picture(memory).drawn()}</div>'
            f'<details><summary>As text</summary><pre>{text}</pre></details></section>\n')


def heap_page(name: str, sections: List[str]) -> str:
    body = f'<p class="heap-legend">{LEGEND}</p>\n<div class="heap">{"".join(sections)}</div>'
    return page(f'{name}: the memory of its run', WORDS, FILES, body=body)
