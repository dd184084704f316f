"""The tokens and comments of a source text with their places in bytes, as docs/reference/language.md, "Tokens", has them."""
import re
from typing import List, NamedTuple, Tuple

KEYWORDS = frozenset(
    'class inherits method int nil skip if then else fi from do loop until local delocal construct destruct new delete '
    'copy uncopy call uncall'.split()
)
OPERATORS = frozenset('* / % + - < > <= >= = != & ^ | && ||'.split())
UPDATES = frozenset('+= -= ^='.split())

# The form of a name, as a part of patterns.
NAME = r"[A-Za-z][A-Za-z0-9_']*"

# Blanks, and a comment, a token or the end of the text.
_PIECE = re.compile(
    r"[ \t\n\r]*(?:(?P<comment>//[^\n]*)|(?P<name>" + NAME + r")|(?P<number>[0-9]+)"
    r'|(?P<sign><=>|[-+^]=|&&|\|\||[<>!]=|::|[-+^&|<>=*/%()\[\],])|(?P<bad>.)|\Z)',
    re.S,
)
_NAME = re.compile(NAME + r'\Z')
_WORD = re.compile(rb"(//[^\n]*)|" + NAME.encode() + rb"|[0-9]+|<=>|[-+^]=|&&|\|\||[<>!]=|::|[^ \t\n\r]")


class Token(NamedTuple):
    """A token or a comment: its kind (name, keyword, number, sign, comment, bad), its text and its first byte."""

    kind: str
    text: str
    at: int

    @property
    def end(self) -> int:
        return self.at + len(self.text)


def cut(text: bytes) -> Tuple[List[Token], List[Token]]:
    """The tokens and the comments of a text. A byte with which no token begins is a token of the kind `bad`."""
    tokens, comments = [], []
    # (a character for each byte, so that lengths are in bytes)
    for piece in _PIECE.finditer(text.decode('latin-1')):
        kind = piece.lastgroup
        if kind is None:
            continue
        word = piece.group(kind)
        if kind == 'name' and word in KEYWORDS:
            kind = 'keyword'
        (comments if kind == 'comment' else tokens).append(Token(kind, word, piece.end() - len(word)))
    return tokens, comments


def words(text: bytes) -> List[bytes]:
    """Only the texts of the tokens, which takes less time."""
    return [each.group() for each in _WORD.finditer(text) if each.lastindex is None]


def is_name(word: str) -> bool:
    """Whether a word can be a name of the language."""
    return bool(_NAME.match(word)) and word not in KEYWORDS
