"""Places of a text: the program counts bytes from 0; people count lines and characters from 1, and editors' protocols
lines from 0 and UTF-16 units.

    text = Text.read('list.rpp')
    text.place(120)            # Place(line=9, column=5), for people
    text.position(120)         # Position(line=8, character=4), for protocols
    text.offset(9, 5)          # 120 again
    text.spelled('list.rpp', 120)   # 'list.rpp:9:5'
    print(text.pointed(120))   # the source line, and a caret below the token there
"""
import bisect
import re
from typing import List, NamedTuple, Tuple

from .tokens import NAME

TOKEN = re.compile(NAME.encode() + rb"|[0-9]+|<=>|[-+^]=|&&|\|\||[<>!]=|::|\S")


class Place(NamedTuple):
    """A line and a column in characters, both from 1."""
    line: int
    column: int


class Position(NamedTuple):
    """A line and a column in UTF-16 units, both from 0, as the language server protocol has them."""
    line: int
    character: int


class Text:
    """The bytes of a source, and where its lines begin."""

    def __init__(self, content: bytes):
        self.content = content
        self.starts: List[int] = [0] + [found.end() for found in re.finditer(b'\n', content)]
        self.size = len(content)
        self.is_ascii = content.isascii()

    @classmethod
    def read(cls, path: str) -> 'Text':
        with open(path, 'rb') as file:
            return cls(file.read())

    @property
    def line_count(self) -> int:
        """How many lines there are; after a last line feed no line is counted."""
        return len(self.starts) - (len(self.starts) > 1 and self.starts[-1] == len(self.content))

    def within(self, offset: int) -> int:
        """The offset, brought into the text."""
        return offset if 0 <= offset <= self.size else max(0, min(offset, self.size))

    def shown(self, offset: int) -> int:
        """The offset; for the end of the text the one after its last token, where there is a line to show."""
        if offset >= len(self.content):
            return len(self.content.rstrip())
        return self.within(offset)

    def row(self, offset: int) -> int:
        """The index, from 0, of the line in which the offset is."""
        return bisect.bisect_right(self.starts, self.within(offset)) - 1

    def line_bytes(self, row: int) -> bytes:
        """The bytes of the line with this index, without its end."""
        if not 0 <= row < len(self.starts):
            return b''
        stop = self.starts[row + 1] - 1 if row + 1 < len(self.starts) else len(self.content)
        return self.content[self.starts[row]:stop].rstrip(b'\r')

    def line(self, number: int) -> str:
        """The line with this number, from 1."""
        return decoded(self.line_bytes(number - 1))

    def place(self, offset: int) -> Place:
        row = self.row(offset)
        before = self.content[self.starts[row]:self.within(offset)]
        return Place(row + 1, len(decoded(before)) + 1)

    def offset(self, line: int, column: int) -> int:
        """The byte of a line and a column in characters, both from 1; past the end of a line, its end."""
        row = max(0, min(line - 1, len(self.starts) - 1))
        before = decoded(self.line_bytes(row))[:max(0, column - 1)]
        return self.starts[row] + len(before.encode('utf-8'))

    def position(self, offset: int) -> Position:
        offset = self.within(offset)
        row = bisect.bisect_right(self.starts, offset) - 1
        begin = self.starts[row]
        return Position(row, offset - begin if self.is_ascii else utf16_length(decoded(self.content[begin:offset])))

    def position_offset(self, line: int, character: int) -> int:
        """The byte of a place of the protocols."""
        row = max(0, min(line, len(self.starts) - 1))
        units = decoded(self.line_bytes(row)).encode('utf-16-le')[:2 * max(0, character)]
        return self.starts[row] + len(units.decode('utf-16-le', 'ignore').encode('utf-8'))

    def token(self, offset: int) -> Tuple[int, int]:
        """Where the token at the offset begins and ends; at white space and at the end of the text both are the offset."""
        offset = self.within(offset)
        found = TOKEN.match(self.content, offset)
        return offset, found.end() if found else offset

    def spelled(self, file: str, offset: int) -> str:
        """FILE:LINE:COLUMN, as compilers and editors write a place."""
        place = self.place(self.shown(offset))
        return f'{file}:{place.line}:{place.column}'

    def pointed(self, offset: int) -> str:
        """The source line of the offset with its number, and below it carets under the token."""
        offset = self.shown(offset)
        row = self.row(offset)
        before = decoded(self.content[self.starts[row]:offset])
        begin, end = self.token(offset)
        width = max(1, len(decoded(self.content[begin:end])))
        number = f'{row + 1:5d} | '
        pad = ''.join('\t' if sign == '\t' else ' ' for sign in before)
        margin = ' ' * (len(number) - 2) + '| '
        return f'{number}{decoded(self.line_bytes(row))}\n{margin}{pad}{"^" * width}'


def decoded(piece: bytes) -> str:
    """The characters of these bytes; a byte that is no UTF-8 counts as one."""
    return piece.decode('utf-8', 'replace')


def utf16_length(piece: str) -> int:
    return len(piece.encode('utf-16-le')) // 2
