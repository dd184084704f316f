"""A look at a text that costs little, for what is asked at each keystroke: all heads, and the statements of one method.

The bodies of the other methods are blank in it, comments excepted, so that every place is that of the whole text."""
import re
from typing import List, NamedTuple, Optional

from .editing import Analysis
from .source import Method
from .tokens import NAME

HEAD = re.compile(rb"//[^\n]*|(?<![A-Za-z0-9_'])(?:class(?![A-Za-z0-9_'])|method\s+(?:" + NAME.encode() + rb")\s*\([^()/]*\))")
COMMENT = re.compile(rb'//[^\n]*')
BLANK = bytes(each if each == ord('\n') else ord(' ') for each in range(256))


class Body(NamedTuple):
    """The body of a method: where its head begins, and from byte to byte."""
    head: int
    begin: int
    end: int


def bodies(text: bytes) -> List[Body]:
    """The bodies of the methods, each up to the next head."""
    heads = [each for each in HEAD.finditer(text) if not each.group().startswith(b'//')]
    ends = [each.start() for each in heads[1:]] + [len(text)]
    return [Body(each.start(), each.end(), end) for each, end in zip(heads, ends) if each.group().startswith(b'method')]


def blank(code: bytes) -> bytes:
    """Spaces for all but comments and line feeds."""
    parts, end = [], 0
    for comment in COMMENT.finditer(code):
        parts += [code[end:comment.start()].translate(BLANK), comment.group()]
        end = comment.end()
    return b''.join([*parts, code[end:].translate(BLANK)])


def code_length(text: bytes) -> int:
    """How long a text is without the spaces, line feeds and comments at its end."""
    while True:
        text = text.rstrip()
        comment = text.find(b'//', text.rfind(b'\n') + 1)
        if comment < 0:
            return len(text)
        text = text[:comment]


class Glance(Analysis):
    """A text with the statements of the method at a byte, or of none."""

    def __init__(self, text: bytes, at: Optional[int] = None):
        self.bodies = {each.head: each for each in bodies(text)}
        self.open = self.body_at(at) if at is not None else None
        parts, end = [], 0
        for each in self.bodies.values():
            if each is not self.open:
                parts += [text[end:each.begin], blank(text[each.begin:each.end])]
                end = each.end
        super().__init__(b''.join([*parts, text[end:]]))
        self.whole = text

    def is_of(self, at: int) -> bool:
        """Whether the statements of the method at this byte are there, where there is one."""
        found = self.body_at(at)
        return found is None or found is self.open

    def body_at(self, at: int) -> Optional[Body]:
        return next((each for each in self.bodies.values() if each.begin <= at <= each.end), None)

    def end_of(self, method: Method) -> int:
        begin = self.source.tokens[method.first].at
        body = self.bodies.get(begin)
        if body is None:
            return super().end_of(method)
        return begin + code_length(self.whole[begin:body.end])
