"""The expressions of a text as trees, with the types of their parts.

    tree = expression(source, first, last)      # of these tokens; None where they are none
    tree.word, tree.at, tree.parts              # `+`, the number of its token, and its two sides
"""
from typing import Iterator, List, NamedTuple, Optional, Tuple

from .names import Names
from .source import Source, Variable

LEVELS = ('* / %', '+ -', '< > <= >=', '= !=', '&', '^', '|', '&&', '||')
LEVEL = {word: level for level, words in enumerate(LEVELS) for word in words.split()}


class Tree(NamedTuple):
    """An operator with two sides, a number, `nil`, or a variable, with an index where it has one; `is_closed` in parentheses."""
    word: str
    at: int
    first: int
    last: int
    parts: Tuple['Tree', ...] = ()
    is_closed: bool = False

    def walk(self) -> Iterator['Tree']:
        waiting = [self]
        while waiting:
            each = waiting.pop()
            yield each
            waiting.extend(each.parts)


class _Wrong(Exception):
    """No expression."""


class _Reader:
    def __init__(self, source: Source, first: int, last: int):
        self.tokens = source.tokens
        self.at, self.last = first, last

    def word(self) -> str:
        return self.tokens[self.at].text if self.at <= self.last else ''

    def expect(self, word: str):
        if self.word() != word:
            raise _Wrong
        self.at += 1

    def whole(self) -> Tree:
        """Operands and operators, put together by their levels."""
        operands, waiting = [self.operand()], []
        while self.word() in LEVEL:
            self.join(operands, waiting, LEVEL[self.word()])
            waiting.append(self.at)
            self.at += 1
            operands.append(self.operand())
        self.join(operands, waiting, len(LEVELS))
        return operands[0]

    def join(self, operands: List[Tree], waiting: List[int], level: int):
        """Joins what binds at least as closely as an operator of this level, which comes after it."""
        while waiting and LEVEL[self.tokens[waiting[-1]].text] <= level:
            at, right, left = waiting.pop(), operands.pop(), operands.pop()
            operands.append(Tree(self.tokens[at].text, at, left.first, right.last, (left, right)))

    def operand(self) -> Tree:
        if self.at > self.last:
            raise _Wrong
        first, token = self.at, self.tokens[self.at]
        self.at += 1
        if token.text == '(':
            inner = self.whole()
            self.expect(')')
            return inner._replace(first=first, last=self.at - 1, is_closed=True)
        if token.kind == 'name' and self.word() == '[':
            self.at += 1
            index = self.whole()
            self.expect(']')
            return Tree(token.text, first, first, self.at - 1, (index,))
        if token.kind not in ('name', 'number') and token.text != 'nil':
            raise _Wrong
        return Tree(token.text, first, first, first)


def expression(source: Source, first: int, last: int) -> Optional[Tree]:
    reader = _Reader(source, first, last)
    try:
        made = reader.whole()
    except (_Wrong, RecursionError):
        return None
    return made if reader.at == last + 1 else None


def end_of(source: Source, first: int) -> int:
    """The last token of the expression that begins here; the token in front of it where none does."""
    reader = _Reader(source, first, len(source.tokens) - 1)
    try:
        reader.whole()
    except (_Wrong, RecursionError):
        return first - 1
    return reader.at - 1


def type_of(names: Names, tree: Tree) -> str:
    """The type of an expression; `nil` of that word, and '' where a name has none."""
    if tree.word == 'nil':
        return 'nil'
    if tree.word in LEVEL or names.source.tokens[tree.at].kind == 'number':
        return 'int'
    variable = names.meaning.get(tree.at)
    if not isinstance(variable, Variable):
        return ''
    return variable.base if tree.parts else variable.type
