"""What the grammar of docs/reference/language.md expects at the first token where a text leaves it, and what is open there.

    spot = first_wrong(tokens)          # tokens of tokens.cut; None where the grammar derives them
    spot.at, spot.expected              # the number of the token, and what could be there: 'NAME', 'NUMBER', 'END', 'else', '+=', ..
    spot.open                           # what is not ended there, the outermost first: Open(what='if', first=12), ..

Whether a text is refused, and where, is what the program says; this module is asked after such an answer."""
from typing import List, NamedTuple, Optional, Set

from .tokens import OPERATORS, UPDATES, Token

END = 'END'
NAME = 'NAME'
NUMBER = 'NUMBER'
STATEMENTS = frozenset('if from construct local new delete copy uncopy call uncall skip'.split()) | {NAME}
VALUES = frozenset([NUMBER, 'nil', NAME, '('])
# (the language allows 100 statements and 100 parentheses one in another)
DEEPEST = 600


class Open(NamedTuple):
    """A part of the text that is not ended: what it is, and its first token."""
    what: str
    first: int


class Spot(NamedTuple):
    """Where a text leaves the grammar."""
    at: int
    expected: Set[str]
    open: List[Open]


class _Left(Exception):
    """The text leaves the grammar here."""


class _TooDeep(Exception):
    """More is open than the language allows, which is another refusal."""


def first_wrong(tokens: List[Token]) -> Optional[Spot]:
    reader = _Reader(tokens)
    try:
        reader.program()
    except _Left:
        return Spot(reader.at, reader.expected, reader.open)
    except _TooDeep:
        return None
    return None


class _Reader:
    def __init__(self, tokens: List[Token]):
        self.kinds = [{'name': NAME, 'number': NUMBER}.get(each.kind, each.text) for each in tokens] + [END]
        self.at = 0
        self.expected: Set[str] = set()
        self.open: List[Open] = []

    # ---- tokens

    def sees(self, *kinds: str) -> bool:
        """Whether one of these is next; they are what could be here."""
        self.expected.update(kinds)
        return self.kinds[self.at] in kinds

    def take(self, *kinds: str) -> str:
        if not self.sees(*kinds):
            raise _Left
        self.at += 1
        self.expected = set()
        return self.kinds[self.at - 1]

    def takes(self, *kinds: str) -> bool:
        return self.sees(*kinds) and bool(self.take(*kinds))

    def within(self, what: str, *parts):
        """Reads parts of something that is open until its last part; a part is a token, or what reads one."""
        if len(self.open) >= DEEPEST:
            raise _TooDeep
        self.open.append(Open(what, self.at))
        for part in parts:
            part() if callable(part) else self.take(part)
        self.open.pop()

    # ---- declarations

    def program(self):
        while self.sees('class'):
            self.within('class', 'class', NAME, self.parent, self.fields, self.methods)
        self.take(END)

    def parent(self):
        if self.takes('inherits'):
            self.take(NAME)

    def fields(self):
        while self.sees('int', NAME):
            self.within('field', self.type, NAME)

    def methods(self):
        while self.sees('method'):
            self.within('method', 'method', NAME, self.parameters, self.block)

    def parameters(self):
        self.within('parameters', '(', self.parameter_list, ')')

    def parameter_list(self):
        if self.sees('int', NAME):
            self.within('parameter', self.type, NAME)
            while self.takes(','):
                self.within('parameter', self.type, NAME)

    def type(self):
        self.take('int', NAME)
        if self.takes('['):
            self.take(']')

    # ---- statements

    def block(self):
        self.statement()
        while self.sees(*STATEMENTS):
            self.statement()

    def statement(self):
        if not self.sees(*STATEMENTS):
            raise _Left
        word = self.kinds[self.at]
        self.within('change' if word == NAME else word, *FORMS[word](self))

    def change(self):
        self.place()
        if self.take('<=>', *UPDATES) == '<=>':
            self.place()
        else:
            self.expression()

    def made(self):
        """What `new` and `delete` name."""
        if self.take('int', NAME) == 'int' or self.sees('['):
            self.within('length', '[', self.expression, ']')

    def target(self):
        """What `call` and `uncall` name."""
        self.take(NAME)
        if self.sees('['):
            self.within('index', '[', self.expression, ']')
            self.take('::')
            self.take(NAME)
        elif self.takes('::'):
            self.take(NAME)
        self.within('arguments', '(', self.argument_list, ')')

    def argument_list(self):
        if self.takes(NAME):
            while self.takes(','):
                self.take(NAME)

    # ---- expressions

    def place(self):
        self.take(NAME)
        if self.sees('['):
            self.within('index', '[', self.expression, ']')

    def expression(self):
        self.within('expression', self.operands)

    def operands(self):
        self.operand()
        while self.takes(*OPERATORS):
            self.operand()

    def operand(self):
        if self.sees(NAME):
            self.place()
        elif self.sees('('):
            self.within('parentheses', '(', self.expression, ')')
        else:
            self.take(*VALUES)


FORMS = {
    NAME: lambda it: (it.change,),
    'if': lambda it: ('if', it.expression, 'then', it.block, 'else', it.block, 'fi', it.expression),
    'from': lambda it: ('from', it.expression, 'do', it.block, 'loop', it.block, 'until', it.expression),
    'construct': lambda it: ('construct', NAME, NAME, it.block, 'destruct', NAME),
    'local': lambda it: ('local', it.type, NAME, '=', it.expression, it.block, 'delocal', it.type, NAME, '=', it.expression),
    'new': lambda it: ('new', it.made, it.place),
    'delete': lambda it: ('delete', it.made, it.place),
    'copy': lambda it: ('copy', it.type, it.place, it.place),
    'uncopy': lambda it: ('uncopy', it.type, it.place, it.place),
    'call': lambda it: ('call', it.target),
    'uncall': lambda it: ('uncall', it.target),
    'skip': lambda it: ('skip',),
}


def spelled(expected: Set[str]) -> str:
    """What is expected, in words: `else`; a value; a statement or `fi`."""
    left, words = set(expected), []
    for kinds, word in ((STATEMENTS, 'a statement'), (VALUES, 'a value'), ({'int', NAME}, 'a type'), ({NAME}, 'a name'),
                        (OPERATORS, 'an operator')):
        if kinds <= left:
            words.append(word)
            left -= kinds
    is_at_end = END in left
    words += [f'`{each}`' for each in sorted(left - {END})] + (['the end of the source'] if is_at_end else [])
    return words[0] if len(words) == 1 else f'{", ".join(words[:-1])} or {words[-1]}'
