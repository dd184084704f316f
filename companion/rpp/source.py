"""A tolerant parser of source texts: classes, methods, statements and the names in them, also while a text is being
written.

It checks nothing: what is missing from a text is passed over, and `is_whole` says whether anything was. Whether a text is
accepted is what the program's `check` says. What ends in `_at`, and `first` and `last`, are numbers of tokens."""
from dataclasses import dataclass, field
from typing import List, Optional, Tuple

from .tokens import OPERATORS, UPDATES, Token, cut

# (the language allows 100)
DEEPEST = 150
STARTS = frozenset('if from construct local new delete copy uncopy call uncall skip'.split())
CLOSERS = frozenset('else fi loop until delocal destruct'.split())
CONSTRUCTS = {'if': ('then', 'else', 'fi'), 'from': ('do', 'loop', 'until')}


@dataclass
class Variable:
    """A field, a parameter or a local: its type in words, where type and name are, and where it is visible."""

    kind: str
    base: str
    is_array: bool
    type_at: Optional[int]
    name_at: int
    name: str
    begins: int = 0
    ends: int = 0

    @property
    def type(self) -> str:
        return self.base + ('[]' if self.is_array else '')


@dataclass
class Use:
    """A name in a statement: of a variable, a class or a method, the last with its receiver, where it has one."""

    kind: str
    at: int
    receiver: Optional['Use'] = None
    is_element: bool = False


@dataclass
class Statement:
    """A statement: its form, its tokens, its inner blocks, the keywords between them, and the names in it."""

    form: str
    first: int
    last: int = 0
    blocks: List[List['Statement']] = field(default_factory=list)
    closers: List[int] = field(default_factory=list)
    variable: Optional[Variable] = None
    closing_at: Optional[int] = None
    uses: List[Use] = field(default_factory=list)


@dataclass
class Method:
    name: str
    name_at: int
    first: int
    parameters: List[Variable] = field(default_factory=list)
    body: List[Statement] = field(default_factory=list)
    locals: List[Variable] = field(default_factory=list)
    last: int = 0
    begins: int = 0
    ends: int = 0
    owner: Optional['Class'] = None


@dataclass
class Class:
    name: str
    name_at: int
    first: int
    parent_at: Optional[int] = None
    parent: str = ''
    fields: List[Variable] = field(default_factory=list)
    methods: List[Method] = field(default_factory=list)
    last: int = 0
    begins: int = 0
    ends: int = 0


@dataclass
class Source:
    """A text, its tokens and comments, and what was found in it."""

    text: bytes
    tokens: List[Token]
    comments: List[Token]
    classes: List[Class]
    is_whole: bool

    def methods(self):
        return (method for each in self.classes for method in each.methods)

    def statements(self):
        """All statements in the order of the text, outer ones before inner ones."""
        waiting = [each for method in self.methods() for each in method.body][::-1]
        while waiting:
            each = waiting.pop()
            yield each
            waiting.extend([inner for block in each.blocks for inner in block][::-1])


class _Parser:
    def __init__(self, text: bytes):
        self.text = text
        self.tokens, self.comments = cut(text)
        self.place = 0
        self.is_whole = all(each.kind != 'bad' for each in self.tokens)
        self.awaited: List[str] = []
        self.depth = 0
        self.method: Optional[Method] = None

    # ---- tokens

    def word(self, ahead: int = 0) -> str:
        at = self.place + ahead
        return self.tokens[at].text if at < len(self.tokens) else ''

    def kind(self, ahead: int = 0) -> str:
        at = self.place + ahead
        return self.tokens[at].kind if at < len(self.tokens) else ''

    def take(self) -> int:
        self.place += 1
        return self.place - 1

    def skip(self):
        self.is_whole = False
        self.place += 1

    def expect(self, word: str) -> Optional[int]:
        if self.word() == word:
            return self.take()
        self.is_whole = False
        return None

    def name(self) -> Optional[int]:
        if self.kind() == 'name':
            return self.take()
        self.is_whole = False
        return None

    def named(self, at: Optional[int], first: int) -> Tuple[str, int]:
        """A name and its token; where there is none, the token in front of it takes its place."""
        return ('', first) if at is None else (self.tokens[at].text, at)

    def begin_of(self, at: int) -> int:
        return self.tokens[at].at if at < len(self.tokens) else len(self.text)

    def at_end(self) -> bool:
        return self.place >= len(self.tokens)

    # ---- declarations

    def source(self) -> Source:
        classes = []
        while not self.at_end():
            if self.word() == 'class':
                classes.append(self.class_())
            else:
                self.skip()
        return Source(self.text, self.tokens, self.comments, classes, self.is_whole)

    def class_(self) -> Class:
        first = self.take()
        at = self.name()
        made = Class(*self.named(at, first), first, begins=self.begin_of(first))
        if self.word() == 'inherits':
            self.take()
            made.parent_at = self.name()
            made.parent = self.tokens[made.parent_at].text if made.parent_at is not None else ''
        while not self.at_end() and self.word() != 'class':
            if self.word() == 'method':
                made.methods.append(self.method_(made))
            elif (found := None if made.methods else self.variable('field')) is not None:
                made.fields.append(found)
            else:
                self.skip()
        made.last, made.ends = self.place - 1, self.begin_of(self.place)
        for each in made.fields:
            each.begins, each.ends = made.begins, made.ends
        return made

    def variable(self, kind: str) -> Optional[Variable]:
        """A type and a name; None, and nothing taken, if they are not here."""
        width = 3 if self.word(1) == '[' and self.word(2) == ']' else 1
        if not (self.word() == 'int' or self.kind() == 'name') or self.kind(width) != 'name':
            return None
        type_at, name_at = self.place, self.place + width
        self.place = name_at + 1
        base = self.tokens[type_at].text
        return Variable(kind, base, width == 3, type_at, name_at, self.tokens[name_at].text)

    def method_(self, owner: Class) -> Method:
        first = self.take()
        at = self.name()
        self.method = made = Method(*self.named(at, first), first, owner=owner)
        self.expect('(')
        while self.word() not in (')', '') and self.word() not in STARTS:
            if (found := self.variable('parameter')) is None:
                break
            made.parameters.append(found)
            if self.word() != ',':
                break
            self.take()
            self.is_whole = self.is_whole and self.word() != ')'
        self.expect(')')
        made.begins = self.begin_of(first)
        body_begins = self.tokens[self.place - 1].end
        made.body = self.block()
        made.last, made.ends = self.place - 1, self.begin_of(self.place)
        for each in made.parameters:
            each.begins, each.ends = body_begins, made.ends
        return made

    # ---- statements

    def block(self) -> List[Statement]:
        """Statements up to a word that ends an open block, a class or a method. Other words are passed over."""
        made: List[Statement] = []
        while not self.at_end():
            word = self.word()
            if word in ('class', 'method') or word in CLOSERS and word in self.awaited:
                break
            if word in STARTS or self.kind() == 'name':
                made.append(self.statement())
            else:
                self.skip()
        self.is_whole = self.is_whole and bool(made)
        return made

    def inner_block(self, statement: Statement, closer: str):
        """An inner block and the word that closes it."""
        if self.depth >= DEEPEST:
            self.is_whole = False
            return
        self.depth += 1
        self.awaited.append(closer)
        statement.blocks.append(self.block())
        self.awaited.pop()
        self.depth -= 1
        self.closer(statement, closer)

    def closer(self, statement: Statement, word: str) -> Optional[int]:
        at = self.expect(word)
        if at is not None:
            statement.closers.append(at)
        return at

    def statement(self) -> Statement:
        made = Statement(self.word(), self.place)
        if self.kind() == 'name':
            self.change(made)
        else:
            self.take()
            if made.form in CONSTRUCTS:
                self.branch(made)
            elif made.form in ('local', 'construct'):
                self.scope(made)
            elif made.form in ('new', 'delete'):
                self.made(made)
                self.lvalue(made)
            elif made.form in ('copy', 'uncopy'):
                self.type_of_copy(made)
                self.lvalue(made)
                self.lvalue(made)
            elif made.form in ('call', 'uncall'):
                self.call(made)
        made.last = self.place - 1
        return made

    def change(self, made: Statement):
        """An update or a swap."""
        self.lvalue(made)
        made.form = 'swap' if self.word() == '<=>' else 'update'
        if self.word() in UPDATES:
            self.take()
            self.expression(made)
        elif self.word() == '<=>':
            self.take()
            self.lvalue(made)
        else:
            self.is_whole = False

    def branch(self, made: Statement):
        """A conditional or a loop: a test, a block, a block, a test."""
        head, middle, end = CONSTRUCTS[made.form]
        self.expression(made)
        self.closer(made, head)
        # (where the middle word is missing, the last one ends the first block too)
        self.awaited.append(end)
        self.inner_block(made, middle)
        self.awaited.pop()
        self.inner_block(made, end)
        self.expression(made)

    def scope(self, made: Statement):
        """A local, or what `construct` makes, and the block where it is visible."""
        is_local = made.form == 'local'
        found = self.variable('local')
        if found is None:
            self.is_whole = False
        elif is_local:
            self.value(made)
        else:
            self.is_whole = self.is_whole and not found.is_array and found.base != 'int'
        begins = self.tokens[self.place - 1].end
        self.inner_block(made, 'delocal' if is_local else 'destruct')
        if found is not None:
            is_closed = made.closers and made.closers[-1] == self.place - 1
            found.begins, found.ends = begins, self.begin_of(self.place - bool(is_closed))
            made.variable = found
            self.method.locals.append(found)
        self.scope_end(made, is_local)

    def scope_end(self, made: Statement, is_local: bool):
        if not made.closers:
            return
        if not is_local:
            made.closing_at = self.name()
        elif (closing := self.variable('local')) is not None:
            made.closing_at = closing.name_at
            if closing.base != 'int':
                made.uses.append(Use('class', closing.type_at))
            self.value(made)
        else:
            self.is_whole = False

    def value(self, made: Statement):
        if self.expect('=') is not None:
            self.expression(made)

    def made(self, made: Statement):
        """What `new` and `delete` name: a class, or an array with its length."""
        if self.kind() == 'name':
            made.uses.append(Use('class', self.take()))
        else:
            self.is_whole = self.is_whole and self.word(1) == '['
            self.expect('int')
        if self.word() == '[':
            self.index(made)

    def type_of_copy(self, made: Statement):
        if self.kind() == 'name':
            made.uses.append(Use('class', self.take()))
        else:
            self.expect('int')
        if self.word() == '[':
            self.take()
            self.expect(']')

    def lvalue(self, made: Statement) -> Optional[Use]:
        """A place: a variable or an element."""
        at = self.name()
        if at is None:
            return None
        use = Use('variable', at)
        made.uses.append(use)
        if self.word() == '[':
            use.is_element = True
            self.index(made)
        return use

    def index(self, made: Statement):
        self.take()
        self.expression(made)
        self.expect(']')

    def call(self, made: Statement):
        receiver = None
        if self.word(1) in ('::', '['):
            receiver = self.lvalue(made)
            self.expect('::')
        at = self.name()
        if at is not None:
            made.uses.append(Use('method', at, receiver))
        if self.expect('(') is None:
            return
        while self.kind() == 'name':
            made.uses.append(Use('variable', self.take()))
            if self.word() != ',':
                break
            self.take()
            self.is_whole = self.is_whole and self.kind() == 'name'
        self.expect(')')

    def expression(self, made: Statement):
        """An expression, its parentheses and indexes counted, so that no depth is too much."""
        awaited: List[str] = []
        while True:
            while self.word() == '(':
                awaited.append(')')
                self.take()
            if self.kind() == 'name':
                made.uses.append(Use('variable', self.take()))
                if self.word() == '[':
                    made.uses[-1].is_element = True
                    awaited.append(']')
                    self.take()
                    continue
            elif self.kind() == 'number' or self.word() == 'nil':
                self.take()
            else:
                self.is_whole = False
            while awaited and self.word() == awaited[-1]:
                awaited.pop()
                self.take()
            if self.word() not in OPERATORS:
                break
            self.take()
        self.is_whole = self.is_whole and not awaited


def parsed(text: bytes) -> Source:
    return _Parser(text).source()
