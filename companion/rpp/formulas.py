"""Formulas over the values of a moment, for what must hold along a run.

    formula = Formula('sum + sum = i * (i + 1)')      # raises BadFormula where it is none
    formula.value(lookup)                             # 1 or 0; lookup('sum') gives '15', 'nil' or '#3'
    formula.names                                     # ['sum', 'i']

The operators and their levels are those of the language, and also `*`; words have 32 bits and wrap. An operand is a
number, `nil`, or a path such as `i`, `list.head.data`, `#3.next`, `row[2]` or `row[i + 1]`.
"""
import re
from typing import Callable, Dict, List, Optional, Tuple, Union

from .tokens import NAME

Value = Union[int, str]
Lookup = Callable[[str], Optional[str]]
TOKEN = re.compile(rf'\s*({NAME}|#?\d+|&&|\|\||[<>!]=|[-+*^&|<>=()\[\].])')
LEVELS: List[Tuple[str, ...]] = [('||',), ('&&',), ('|',), ('^',), ('&',), ('=', '!='), ('<', '>', '<=', '>='), ('+', '-'), ('*',)]
WORDS: Dict[str, Callable[[int, int], int]] = {
    '||': lambda a, b: int(a != 0 or b != 0), '&&': lambda a, b: int(a != 0 and b != 0), '|': lambda a, b: a | b,
    '^': lambda a, b: a ^ b, '&': lambda a, b: a & b, '<': lambda a, b: int(a < b), '>': lambda a, b: int(a > b),
    '<=': lambda a, b: int(a <= b), '>=': lambda a, b: int(a >= b), '+': lambda a, b: a + b, '-': lambda a, b: a - b,
    '*': lambda a, b: a * b,
}


class BadFormula(Exception):
    """A text that is no formula, or a formula that has no value here; the text says why."""


class NoValue(BadFormula):
    """A formula whose path leads nowhere."""

    def __init__(self, path: str):
        super().__init__(f'there is no {path} here')
        self.path = path


def word(number: int) -> int:
    """The number as a signed word of 32 bits."""
    return (number + 2 ** 31) % 2 ** 32 - 2 ** 31


class Formula:
    """A formula; it is read once, and has a value for each lookup."""

    def __init__(self, text: str):
        self.text = text.strip()
        self.tokens = cut(self.text)
        self.names = [token for at, token in enumerate(self.tokens)
                      if token[0].isalpha() and token != 'nil' and (at == 0 or self.tokens[at - 1] != '.')]
        try:
            self.value(lambda _: None, dry=True)
        except RecursionError:
            raise BadFormula('it is nested too deep') from None

    def value(self, lookup: Lookup, dry: bool = False) -> Value:
        """The value; `dry` reads the formula only."""
        return _Reading(self.tokens, lookup, dry).whole()


def cut(text: str) -> List[str]:
    tokens, at = [], 0
    while at < len(text):
        found = TOKEN.match(text, at)
        if not found:
            raise BadFormula(f'`{text[at:].strip()}` is no part of a formula')
        tokens.append(found[1])
        at = found.end()
    return tokens


class _Reading:
    """One reading of a formula from left to right."""

    def __init__(self, tokens: List[str], lookup: Lookup, dry: bool):
        self.tokens, self.lookup, self.dry, self.at = tokens, lookup, dry, 0

    def whole(self) -> Value:
        value = self.level(0)
        if self.at < len(self.tokens):
            raise BadFormula(f'`{self.tokens[self.at]}` is one too many')
        return value

    def next(self) -> str:
        return self.tokens[self.at] if self.at < len(self.tokens) else ''

    def take(self, wanted: str = '') -> str:
        found = self.next()
        if not found or wanted and found != wanted:
            raise BadFormula(f'{wanted or "a value"} is missing' + (f' before `{found}`' if found else ' at the end'))
        self.at += 1
        return found

    def level(self, depth: int) -> Value:
        """Operands with the operators of this level, grouped to the left."""
        if depth == len(LEVELS):
            return self.operand()
        value = self.level(depth + 1)
        while self.next() in LEVELS[depth]:
            value = self.joined(self.take(), value, self.level(depth + 1))
        return value

    def joined(self, sign: str, left: Value, right: Value) -> Value:
        if sign in ('=', '!='):
            return int((left == right) == (sign == '='))
        if isinstance(left, str) or isinstance(right, str):
            raise BadFormula(f'`{sign}` takes numbers, and not {left if isinstance(left, str) else right}')
        return word(WORDS[sign](left, right))

    def operand(self) -> Value:
        token = self.take()
        if token == '(':
            value = self.level(0)
            self.take(')')
            return value
        if token == '-':
            return self.joined('-', 0, self.operand())
        if token.isdigit():
            return word(int(token))
        if token == 'nil':
            return token
        if not token[0].isalpha() and token[0] != '#':
            raise BadFormula(f'`{token}` is no value')
        return self.found(token + self.path())

    def path(self) -> str:
        """The fields and elements that follow a name."""
        path = ''
        while self.next() in ('.', '['):
            if self.take() == '.':
                path += f'.{self.take()}'
            else:
                path += f'[{self.level(0)}]'
                self.take(']')
        return path

    def found(self, path: str) -> Value:
        if self.dry:
            return 0
        value = self.lookup(path)
        if value is None:
            raise NoValue(path)
        return value if value == 'nil' or value.startswith('#') else int(value)
