"""What each part of a run of a source costs, by docs/reference/language.md and the statements that `trace` prints. Nothing is evaluated:
the offset of the next statement says which way a run goes. Only texts that the program accepts are read.

    walk = Walk(text, heap, rows, lengths)   # rows: the offset and the depth of each position; lengths: of the array made or gone after it
    walk.costs, walk.calls                   # of each position: its cost, and its active calls
"""
import re
from typing import NamedTuple, Optional, Tuple

TOKEN = re.compile(rb"(?:[ \t\n\r]|//[^\n]*)*([A-Za-z][\w']*|\d+|<=>|[-+^]=|<=|>=|!=|&&|\|\||::|[-+^&|<>=*/%()\[\],]|\Z)")
OPERATORS = set('+ - ^ & | && || < > <= >= = != * / %'.split())
BLOCK_ENDS = {'else', 'fi', 'loop', 'until', 'delocal', 'destruct', 'method', 'class', ''}


class Value(NamedTuple):
    """An expression or a place: its nodes, and how many of them are elements of arrays."""
    nodes: int
    elements: int


class Place(NamedTuple):
    """A variable, or an element with an index."""
    name: str
    index: Optional[Value]

    def reads(self):
        return self.index.elements if self.index else 0

    def nodes(self):
        return self.index.nodes if self.index else 0


class Statement(NamedTuple):
    """A statement: its word, its offset, what its beginning costs after the 1 of each, its values, and its blocks."""
    word: str
    at: int
    cost: int = 0
    values: Tuple[Value, ...] = ()
    blocks: Tuple = ()
    is_array: bool = False
    receiver: Optional[Place] = None
    arguments: Tuple[str, ...] = ()


NIL = Value(1, 0)


class Reader:
    """Reads the methods of a source that is accepted."""

    def __init__(self, text):
        self.tokens, at = [], 0
        while at < len(text) or not self.tokens or self.tokens[-1][0]:
            found = TOKEN.match(text, at)
            self.tokens.append((found[1].decode(), found.start(1)))
            at = found.end()
        self.here = 0

    def word(self):
        return self.tokens[self.here][0]

    def take(self, *words):
        word = self.word()
        if words and word not in words:
            raise ValueError(f'{word!r} at {self.tokens[self.here][1]}, and not {words}')
        self.here += 1
        return word

    def bodies(self):
        """The body of each method."""
        found = []
        while self.word():
            if self.take() == 'method':
                while self.take() != ')':
                    pass
                found.append(self.block())
        return found

    def block(self):
        found = []
        while self.word() not in BLOCK_ENDS:
            found.append(self.statement())
        return found

    # ---- values

    def value(self):
        found = self.operand()
        while self.word() in OPERATORS:
            self.take()
            other = self.operand()
            found = Value(found.nodes + other.nodes + 1, found.elements + other.elements)
        return found

    def operand(self):
        if self.word() == '(':
            self.take()
            found = self.value()
            self.take(')')
            return found
        place = self.place()
        return Value(1 + place.nodes(), 1 + place.reads()) if place.index else Value(1, 0)

    def place(self):
        name = self.take()
        return Place(name, self.indexed() if self.word() == '[' else None)

    def indexed(self):
        self.take('[')
        found = self.value()
        self.take(']')
        return found

    # ---- statements

    def statement(self):
        word, at = self.tokens[self.here]
        forms = {'if': self.branches, 'from': self.branches, 'local': self.local, 'construct': self.construct, 'new': self.made, 'delete': self.made,
                 'copy': self.copied, 'uncopy': self.copied, 'call': self.call, 'uncall': self.call}
        if word == 'skip':
            self.take()
            return Statement(word, at)
        return forms[word](self.take(), at) if word in forms else self.change(at)

    def change(self, at):
        target, word = self.place(), self.take('+=', '-=', '^=', '<=>')
        if word == '<=>':
            other = self.place()
            reads = target.reads() + other.reads() if target.index or other.index else 0
            return Statement(word, at, target.nodes() + other.nodes() + reads)
        value = self.value()
        reads = target.reads() + value.elements if target.index else 0
        return Statement(word, at, target.nodes() + value.nodes + reads)

    def branches(self, word, at):
        """A choice or a loop: a value, two blocks and another value, with a word before all but the first."""
        before_one, before_other, before_end = ('then', 'else', 'fi') if word == 'if' else ('do', 'loop', 'until')
        begin = self.value()
        self.take(before_one)
        one = self.block()
        self.take(before_other)
        other = self.block()
        self.take(before_end)
        return Statement(word, at, values=(begin, self.value()), blocks=(one, other))

    def kind(self):
        """The type in a declaration, or what is made; the length that `new` and `delete` give."""
        self.take()
        if self.word() != '[':
            return None
        self.take()
        length = self.value() if self.word() != ']' else NIL
        self.take(']')
        return length

    def declared(self):
        self.kind()
        self.take()
        self.take('=')
        return self.value()

    def local(self, word, at):
        begin, body = self.declared(), self.block()
        self.take('delocal')
        return Statement(word, at, values=(begin, self.declared()), blocks=(body,))

    def construct(self, word, at):
        self.take()
        self.take()
        body = self.block()
        self.take('destruct')
        self.take()
        inside = [Statement('new', at), *body, Statement('delete', at)]
        return Statement(word, at, values=(NIL, NIL), blocks=(inside,))

    def made(self, word, at):
        length, target = self.kind(), self.place()
        if length:
            return Statement(word, at, target.nodes() + length.nodes, is_array=True)
        return Statement(word, at, target.nodes() + target.reads())

    def copied(self, word, at):
        self.kind()
        source, target = self.place(), self.place()
        return Statement(word, at, source.nodes() + target.nodes() + (source.reads() + target.reads() if target.index else 0))

    def call(self, word, at):
        target = self.place()
        receiver = target if self.word() == '::' else None
        if receiver:
            self.take()
            self.take()
        arguments = []
        while self.take('(', ',', ')') != ')':
            arguments += [self.take()] if self.word() != ')' else []
        inner = Statement(word, at, len(arguments), receiver=receiver and Place(receiver.name, None), arguments=tuple(arguments))
        if not receiver or not receiver.index:
            return inner
        swap = Statement('<=>', at, receiver.nodes() + receiver.reads())
        inner = inner._replace(receiver=Place('', None))
        return Statement('element', at, values=(NIL, NIL), blocks=([swap, inner, swap],))


class Call(NamedTuple):
    """An active call: the position of the statement that called, the statement, and whether the text of the call runs backward."""
    position: Optional[int]
    statement: Optional[Statement]
    back: bool


class Over(Exception):
    """There are no more positions."""


class Walk:
    """Follows the statements of a run."""

    def __init__(self, text, heap, rows, lengths):
        self.heap, self.rows, self.lengths = heap, rows, lengths
        self.cost, self.costs, self.calls, self.active = 0, [], [], [Call(None, None, False)]
        bodies = Reader(text).bodies()
        self.bodies = {(body[-1 if back else 0].at, back): body for body in bodies for back in (False, True)}
        try:
            self.run(self.bodies[rows[0][0], False], False)
            self.point(None)
        except Over:
            pass

    def point(self, at):
        """A position is passed, which must be at this offset."""
        position = len(self.costs)
        if position == len(self.rows):
            raise Over
        if self.rows[position] != (at, len(self.active)):
            raise ValueError(f'position {position} is {self.rows[position]}, and not {at, len(self.active)}')
        self.costs.append(self.cost)
        self.calls.append(tuple(self.active))
        self.cost += 1
        return position

    def next_is(self, body, back):
        """Whether this block begins at the next position."""
        if len(self.costs) == len(self.rows):
            raise Over
        return self.rows[len(self.costs)] == (body[-1 if back else 0].at, len(self.active))

    def run(self, body, back):
        for it in reversed(body) if back else body:
            self.statement(it, back)

    def statement(self, it, back):
        position = self.point(it.at)
        begin, end = (value.nodes for value in (it.values[::-1] if back else it.values) or (NIL, NIL))
        self.cost += it.cost
        if it.word in ('call', 'uncall'):
            self.call(it, back, position)
        elif it.word in ('new', 'delete'):
            self.cost += self.heap + 1 + (self.lengths[position] if it.is_array and self.lengths[position] is not None else 0)
        elif it.word == 'from':
            self.turns(it.blocks, back, begin, end)
        elif it.blocks:
            self.cost += begin
            self.run(it.blocks[0] if len(it.blocks) == 1 or self.next_is(it.blocks[0], back) else it.blocks[1], back)
            self.cost += end

    def turns(self, blocks, back, begin, end):
        self.cost += begin
        while True:
            self.run(blocks[0], back)
            self.cost += end
            if not self.next_is(blocks[1], back):
                return
            self.run(blocks[1], back)
            self.cost += begin

    def call(self, it, back, position):
        back = back != (it.word == 'uncall')
        if len(self.costs) == len(self.rows):
            raise Over
        self.active.append(Call(position, it, back))
        self.run(self.bodies[self.rows[len(self.costs)][0], back], back)
        self.active.pop()
