"""Where a text leaves the grammar: the tokens around, what was expected, and what is open.

The modules syntax_declarations, syntax_changes, syntax_values, syntax_calls and syntax_blocks have the sentences for the mistakes of
each kind; syntax.py asks them."""
import difflib
from typing import List, Optional, Tuple

from .grammar import END, STATEMENTS, VALUES, Open, Spot
from .spelling import Edit, Hint
from .tokens import KEYWORDS, Token


class Place:
    """Where the grammar is left: the tokens around, what was expected, and what is open."""

    def __init__(self, text: bytes, tokens: List[Token], spot: Spot):
        self.text, self.tokens, self.spot = text, tokens, spot
        self.at = spot.at
        self.expected = spot.expected
        self.inside = spot.open[-1].what if spot.open else ''

    def word(self, ahead: int = 0) -> str:
        at = self.at + ahead
        return self.tokens[at].text if 0 <= at < len(self.tokens) else ''

    def kind(self, ahead: int = 0) -> str:
        at = self.at + ahead
        return self.tokens[at].kind if 0 <= at < len(self.tokens) else END

    def begin(self, ahead: int = 0) -> int:
        at = self.at + ahead
        return self.tokens[at].at if at < len(self.tokens) else len(self.text)

    def end(self, ahead: int = 0) -> int:
        at = self.at + ahead
        return self.tokens[at].end if at < len(self.tokens) else len(self.text)

    def expects(self, *kinds: str) -> bool:
        return set(kinds) <= self.expected

    def is_statement(self) -> bool:
        return STATEMENTS <= self.expected

    def is_value(self) -> bool:
        return VALUES <= self.expected

    def is_behind_place(self) -> bool:
        """Whether a variable was read that begins a statement."""
        return self.expects('+=', '<=>')

    def opened(self, *kinds: str) -> Optional[Open]:
        """The innermost open part of these kinds."""
        return next((each for each in reversed(self.spot.open) if each.what in kinds), None)

    def line_of(self, token: int) -> int:
        return self.text.count(b'\n', 0, self.tokens[token].at) + 1

    def has_method(self, name: str) -> bool:
        """Whether the text declares a method of this name."""
        return any(self.tokens[at].text == 'method' and self.tokens[at + 1].text == name for at in range(0, len(self.tokens) - 1))

    def has_array(self, name: str) -> bool:
        """Whether the text declares an array of this name."""
        words = [each.text for each in self.tokens]
        return any(words[at:at + 3] == ['[', ']', name] for at in range(0, len(words) - 2))

    def declared(self, name: str) -> str:
        """The type with which the text declares a name, as far as its words say; '' if none does."""
        words = [each.text for each in self.tokens]
        for at in range(1, len(words)):
            if words[at] == name and words[at - 1] == ']' and words[at - 2] == '[':
                return words[at - 3] + '[]'
            if words[at] == name and (words[at - 1] == 'int' or self.has_class(words[at - 1])):
                return words[at - 1]
        return ''

    def has_class(self, name: str) -> bool:
        """Whether the text declares a class of this name."""
        return any(self.tokens[at].text == 'class' and self.tokens[at + 1].text == name for at in range(0, len(self.tokens) - 1))

    def has_field(self, name: str) -> bool:
        """Whether a class of the text declares a field of this name, as far as its words say."""
        is_in_fields = False
        for at, each in enumerate(self.tokens):
            is_in_fields = each.text == 'class' or is_in_fields and each.text != 'method'
            if is_in_fields and each.text == name and (self.tokens[at - 1].kind == 'name' or self.tokens[at - 1].text in ('int', ']')):
                return True
        return False

    def is_joined(self, first: int = 0) -> bool:
        """Whether nothing is between a token and the next one."""
        return bool(self.word(first + 1)) and self.begin(first + 1) == self.end(first)

    def is_new_line(self) -> bool:
        """Whether a line ends in front of the token."""
        return self.at > 0 and b'\n' in self.text[self.end(-1):self.begin()]

    def written(self, first: int, last: int) -> str:
        """The text from a token to another, counted from here."""
        return ' '.join(self.text[self.begin(first):self.end(last)].decode('utf-8', 'replace').split())

    def changes(self, first: int, last: int, text: str) -> Tuple[Edit, ...]:
        """The edit that writes a text for the tokens from one to another, counted from here."""
        return (Edit(self.begin(first), self.end(last), text),)

    def puts(self, text: str) -> Tuple[Edit, ...]:
        """The edit that writes a text in front of this token."""
        return (Edit(self.begin(), self.begin(), text),)


def near_keyword(word: str) -> str:
    """The keyword that a name is most like."""
    if word in KEYWORDS or len(word) < 2:
        return ''
    if word.lower() in KEYWORDS:
        return word.lower()
    return next(iter(difflib.get_close_matches(word, sorted(KEYWORDS), 1, 0.75)), '')


def of_comment(it: Place, first: int = 0) -> Optional[Hint]:
    pair = it.word(first) + it.word(first + 1)
    if pair in ('/*', '*/', '--', '(*', '**') and it.begin(first + 1) == it.end(first):
        return Hint('A comment must begin with `//`, and it ends with its line.', 'Write `//` in front of each line.')
    return None
