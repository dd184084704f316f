"""Random programs over every form of statement, for comparisons. Most are accepted and run to their end; some meet a
fault, and some are refused. The same seed gives the same program."""
import copy
import random

HEAD = '''// program {seed} \u00fc
class Cell
  int value
  Cell next
  method add(int n)
{add}
  method down(int n)
    if n > 0 then
      local int m = n - 1
        call down(m)
      delocal int m = n - 1
      value += n
    else
      skip
    fi n > 0
  method link(Cell other)
    next <=> other
  method again()
    call next::add(value)
  method each(int[] row, Cell[] shelf, Cell one)
{each}
class Wide inherits Cell
  int more
  int[] row
  method add(int n)
{wide}
class Main
  int a
  int b
  int c
  Cell head
  Wide wide
  int[] xs
  Cell[] cells
  method part(int n)
{part}
  method main()
    new int[6] xs
    new Cell[4] cells
    new Cell head
    new Wide wide
{main}
'''
UPDATES = ('+=', '-=', '^=')
OPERATORS = ('+', '-', '^', '&', '|', '&&', '||', '<', '>', '<=', '>=', '=', '!=')
DEEPEST = 3
SLIPS = 0.02
REFUSED = 0.06


class Scope:
    """What a statement may name: ints, and those of them that it keeps; variables that hold a Cell, and receivers of its methods;
    arrays of 6 ints, and of 4 Cells. Then the own method that takes an int, with the fields that it may change."""

    def __init__(self, ints, cells=(), receivers=(), rows=(), shelves=(), own='', fields=()):
        self.ints, self.kept, self.cells, self.receivers = ints, (), cells, receivers
        self.rows, self.shelves, self.own, self.fields = rows, shelves, own, fields

    def with_more(self, **names):
        """The same scope with more names of some kinds."""
        scope = copy.copy(self)
        for kind, more in names.items():
            setattr(scope, kind, (*getattr(self, kind), *more))
        return scope

    def keeping(self, names):
        return self.with_more(kept=names)

    def free(self):
        return [it for it in self.ints if it not in self.kept]


class Writer:
    """Writes statements as lists of lines."""

    def __init__(self, seed):
        self.random = random.Random(seed)
        self.names = 0

    def fresh(self):
        self.names += 1
        return f'v{self.names}'

    def slips(self):
        return self.random.random() < SLIPS

    def ways(self):
        """The directions of two calls that undo one another, or seldom do not."""
        if self.slips():
            return ('call', 'call')
        return self.random.choice((('call', 'uncall'), ('uncall', 'call')))

    def expression(self, names, depth=0):
        """An expression over these names and places."""
        if depth > 2 or self.random.random() < 0.4:
            if names and self.random.random() < 0.7:
                return self.random.choice(names)
            return str(self.random.choice((0, 1, 2, 7, 2147483647)))
        left, right = self.expression(names, depth + 1), self.expression(names, depth + 1)
        return f'({left} {self.random.choice(OPERATORS)} {right})'

    def block(self, scope, depth):
        lines = []
        for _ in range(self.random.randint(1, 3)):
            lines += self.statement(scope, depth)
        return ['  ' + line for line in lines]

    def statement(self, scope, depth):
        forms = [self.skip, self.update, self.update, self.update, self.swap, self.object, self.row, self.construct]
        forms += [self.branch, self.loop, self.local] * (depth < DEEPEST)
        forms += [self.call, self.call_pair] * bool(scope.receivers)
        forms += [self.own_call] * bool(scope.own)
        forms += [self.element_call, self.shelf] * bool(scope.shelves)
        forms += [self.alias, self.row_swap] * bool(scope.rows)
        forms += [self.copies, self.object_swap, self.links] * bool(scope.cells)
        forms += [self.call_of_many] * bool(scope.cells and scope.rows and scope.shelves and scope.own != 'down')
        return self.careless(scope) if self.slips() else self.random.choice(forms)(scope, depth)

    # ---- ints

    def skip(self, scope, depth):
        return ['skip']

    def index(self, scope, most=6):
        if self.random.random() < 0.6 or not scope.ints:
            return str(self.random.randrange(most + self.slips()))
        return f'{self.random.choice(scope.ints)} & {3 if most > 3 else 1}'

    def elements(self, scope, without=''):
        return [f'{it}[{self.index(scope)}]' for it in scope.rows if it != without]

    def tests(self, scope):
        """Comparisons of objects and arrays."""
        names = [*scope.receivers, *scope.rows, *scope.shelves]
        pairs = list(zip(scope.cells, scope.receivers[1:]))
        return [f'({it} {self.random.choice(("=", "!="))} nil)' for it in names] + [f'({one} = {two})' for one, two in pairs]

    def update(self, scope, depth):
        sign = self.random.choice(UPDATES)
        if scope.rows and (not scope.free() or self.random.random() < 0.4):
            row = self.random.choice(scope.rows)
            read = [*scope.ints, *(self.elements(scope, row) if self.random.random() < SLIPS * 4 else ())]
            return [f'{row}[{self.index(scope)}] {sign} {self.expression(read)}']
        if not scope.free():
            return ['skip']
        name = self.random.choice(scope.free())
        others = [it for it in scope.ints if it != name or self.random.random() < SLIPS / 8]
        more = [*self.elements(Scope(others, rows=scope.rows)), *self.tests(scope)] if self.random.random() < 0.4 else []
        return [f'{name} {sign} {self.expression([*others, *more])}']

    def swap(self, scope, depth):
        places = [*scope.free(), *(f'{it}[{self.random.randrange(6)}]' for it in scope.rows * 2)]
        return [' <=> '.join(self.random.sample(places, 2))] if len(places) > 1 else ['skip']

    def branch(self, scope, depth):
        names = self.random.sample(scope.ints, min(2, len(scope.ints)))
        test = self.expression(names)
        inner = scope if self.slips() else scope.keeping(names)
        end = self.expression(names) if self.slips() else test
        return [f'if {test} then', *self.block(inner, depth + 1), 'else', *self.block(inner, depth + 1), f'fi {end}']

    def loop(self, scope, depth):
        name, turns = self.fresh(), self.random.randint(1, 4)
        inner = scope.with_more(ints=[name])
        inner = inner if self.slips() else inner.keeping([name])
        body, again = self.block(inner, depth + 1), self.block(inner, depth + 2)
        lines = [f'from {name} = {int(self.slips())} do', *body, 'loop', *again, f'  {name} += 1', f'until {name} = {turns}']
        return self.with_local('int', name, lines, '0', turns + self.slips())

    def local(self, scope, depth):
        name = self.fresh()
        read = self.random.sample(scope.ints, min(2, len(scope.ints)))
        value = self.expression(read)
        inner = scope.with_more(ints=[name])
        inner = inner if self.slips() else inner.keeping([name, *read])
        return [f'local int {name} = {value}', *self.block(inner, depth + 1), f'delocal int {name} = {value}']

    def with_local(self, kind, name, lines, begin='nil', end='nil'):
        return [f'local {kind} {name} = {begin}', *['  ' + it for it in lines], f'delocal {kind} {name} = {end}']

    # ---- calls

    def with_argument(self, calls):
        """Calls with a new local as their argument."""
        name, value = self.fresh(), self.random.randint(0, 5)
        return self.with_local('int', name, calls(name), value, value + self.slips())

    def call(self, scope, depth):
        way, receiver = self.random.choice(('call', 'uncall')), self.random.choice(scope.receivers)
        method = self.method(scope)
        if scope.ints and method == 'add' and self.random.random() < 0.5:
            return [f'{way} {receiver}::add({self.random.choice(scope.ints)})']
        return self.with_argument(lambda name: [f'{way} {receiver}::{method}({name})'])

    def method(self, scope):
        """A method of Cell that takes an int; Cell's own methods do not call `add`, so that no recursion is without an end."""
        return 'down' if scope.own == 'down' else self.random.choice(('add', 'down'))

    def calls(self, scope, receiver):
        """Two calls on a receiver that undo one another."""
        method = self.method(scope)
        return self.with_argument(lambda name: [f'{way} {receiver}::{method}({name})' for way in self.ways()])

    def call_pair(self, scope, depth):
        return self.calls(scope, self.random.choice(scope.receivers))

    def own_call(self, scope, depth):
        if set(scope.kept) & set(scope.fields) and not self.slips():
            return ['skip']
        way = self.random.choice(('call', 'uncall'))
        return self.with_argument(lambda name: [f'{way} {scope.own}({name})'])

    def element_call(self, scope, depth):
        place, made = f'{self.random.choice(scope.shelves)}[{self.index(scope, 4)}]', self.random.choice(('Cell', 'Wide'))
        return [f'new {made} {place}', *self.calls(scope, place), *([] if self.slips() else [f'delete {made} {place}'])]

    def call_of_many(self, scope, depth):
        """Calls with an array of ints, an array of objects, and an object."""
        name, given = self.fresh(), [self.random.choice(it) for it in (scope.cells, scope.rows, scope.shelves)]
        calls = [f'{way} {given[0]}::each({given[1]}, {given[2]}, {name})' for way in self.ways()]
        return self.with_local('Cell', name, [f'new Cell {name}', *calls, f'delete Cell {name}'])

    def links(self, scope, depth):
        """Calls of a method that calls one on the next object, which seldom is the same object."""
        name, cell = self.fresh(), self.random.choice(scope.cells)
        begin, end = ('copy', 'uncopy') if self.slips() else ('new', 'delete')
        more = f'{cell} {name}' if begin == 'copy' else name
        begins = [f'{begin} Cell {more}', f'call {cell}::link({name})', f'call {cell}::again()']
        return self.with_local('Cell', name, [*begins, f'uncall {cell}::again()', f'uncall {cell}::link({name})', f'{end} Cell {more}'])

    # ---- objects and arrays

    def object(self, scope, depth):
        name, made = self.fresh(), self.random.choice(('Cell', 'Wide'))
        inner = scope.with_more(cells=[name], receivers=[name]) if self.random.random() < 0.1 else scope
        body = [] if depth >= DEEPEST else self.block(inner, depth + 1)
        gone = self.random.choice(('Cell', 'Wide')) if self.slips() else made
        return self.with_local('Cell', name, [f'new {made} {name}', *self.calls(scope, name), *body, f'delete {gone} {name}'])

    def row(self, scope, depth):
        name, length = self.fresh(), self.random.randint(1, 9)
        place, inner = f'{name}[{length - 1}]', scope.with_more(rows=[name]) if length > 5 and self.slips() else scope
        body = [] if depth >= DEEPEST else self.block(inner, depth + 1)
        inside = [f'{place} += 3', *body, f'{place} -= 3', f'delete int[{length}] {name}']
        return self.with_local('int[]', name, [f'new int[{length}] {name}', *inside])

    def shelf(self, scope, depth):
        name, length = self.fresh(), self.random.randint(1, 5)
        inside = self.element_call(Scope((), shelves=(name,), own=scope.own), depth) if length > 3 else ['skip']
        return self.with_local('Cell[]', name, [f'new Cell[{length}] {name}', *inside, f'delete Cell[{length}] {name}'])

    def alias(self, scope, depth):
        """A second name of an array."""
        name, kinds = self.fresh(), [('int[]', 'rows'), ('Cell[]', 'shelves')][: 1 + bool(scope.shelves)]
        kind, names = self.random.choice(kinds)
        source = self.random.choice(getattr(scope, names))
        body = ['skip'] if depth >= DEEPEST else self.block(scope.with_more(**{names: [name]}), depth + 1)
        return self.with_local(kind, name, [f'copy {kind} {source} {name}', *body, f'uncopy {kind} {source} {name}'])

    def row_swap(self, scope, depth):
        name, row = self.fresh(), self.random.choice(scope.rows)
        inside = [f'new int[2] {row}', f'{row}[1] <=> {row}[0]', f'delete int[2] {row}']
        return self.with_local('int[]', name, [f'{name} <=> {row}', *inside, f'{row} <=> {name}'])

    def copies(self, scope, depth):
        """A second reference to an object, in a local or in an element."""
        name, cell = self.fresh(), self.random.choice(scope.cells)
        in_element = scope.shelves and self.random.random() < 0.4
        place = f'{self.random.choice(scope.shelves)}[{self.random.randrange(4)}]' if in_element else name
        inner = scope if in_element else scope.with_more(cells=[name], receivers=[name])
        body = [] if depth >= DEEPEST else self.block(inner, depth + 1)
        body = [*body, f'delete Cell {cell}'] if self.slips() else body
        lines = [f'copy Cell {cell} {place}', *body, f'uncopy Cell {self.random.choice(scope.cells)} {place}']
        return lines if in_element else self.with_local('Cell', name, lines)

    def object_swap(self, scope, depth):
        name, cell = self.fresh(), self.random.choice(scope.cells)
        if scope.shelves and self.random.random() < 0.4:
            place = f'{self.random.choice(scope.shelves)}[{self.random.randrange(4)}]'
            return [f'new Cell {place}', f'{place} <=> {cell}', *self.calls(scope, cell), f'{cell} <=> {place}', f'delete Cell {place}']
        inside = [f'new Cell {name}', f'{name} <=> {cell}', *self.calls(scope, cell), f'{cell} <=> {name}', f'delete Cell {name}']
        return self.with_local('Cell', name, inside)

    def construct(self, scope, depth):
        name, made = self.fresh(), self.random.choice(('Cell', 'Wide'))
        body = ['skip'] if depth >= DEEPEST else self.block(scope, depth + 1)
        links = [f'call {name}::link({scope.cells[0]})', f'uncall {name}::link({scope.cells[0]})'] if scope.cells else []
        return [f'construct {made} {name}', *['  ' + it for it in [*self.calls(scope, name), *links]], *body, f'destruct {name}']

    def careless(self, scope):
        """A statement that most often meets a fault, with one cause or more."""
        choose, length = self.random.choice, self.expression(scope.ints, 2)
        cells = [*scope.cells, *(f'{it}[{self.expression(scope.ints, 2)}]' for it in scope.shelves)]
        forms = ['call down(n)'] if 'n' in scope.ints and scope.own == 'down' else []
        for it in cells:
            forms += [f'{choose(("new", "delete"))} {choose(("Cell", "Wide"))} {it}', f'{it} <=> {choose(cells)}']
            forms += [f'{choose(("copy", "uncopy"))} Cell {it} {other}' for other in cells if it.split('[')[0] != other.split('[')[0]]
        for kind, names in (('int', scope.rows), ('Cell', scope.shelves)):
            forms += [f'{choose(("new", "delete"))} {kind}[{length}] {it}' for it in names]
            forms += [f'{choose(("copy", "uncopy"))} {kind}[] {one} {two}' for one in names for two in names if one != two]
        forms += [f'{one}[{length}] += {two}[{length}]' for one in scope.rows for two in scope.rows if one != two]
        if forms and self.random.random() < 0.7:
            return [choose(forms)]
        name, kind, other = self.fresh(), choose(('int', 'Cell')), self.expression(scope.ints, 2)
        change = 'skip' if kind == 'Cell' else f'{name}[{other}] -= 1'
        inside = [f'new {kind}[{length}] {name}', change, f'delete {kind}[{other}] {name}']
        return self.with_local(f'{kind}[]', name, inside)


def indented(lines, by):
    return '\n'.join(' ' * by + line for line in lines)


def program(seed, refused=REFUSED):
    """The text of the program with this seed; so often one is spoiled, so that most likely it is refused."""
    writer = Writer(seed)
    cell = {'receivers': (), 'own': 'down', 'fields': ('value',)}
    main = {'cells': ('head',), 'receivers': ('head', 'wide'), 'rows': ('xs',), 'shelves': ('cells',)}
    blocks = {
        'add': writer.block(Scope(('value', 'n'), **cell).keeping(['n']), 2),
        'each': writer.block(Scope(('value',), ('one',), ('one',), ('row',), ('shelf',), 'down', ('value',)), 2),
        'wide': writer.block(Scope(('value', 'more', 'n'), **cell).keeping(['n']), 2),
        'part': writer.block(Scope(('a', 'b', 'c', 'n'), **main).keeping(['n']), 2),
    }
    body = [line for _ in range(3) for line in writer.block(Scope(('a', 'b', 'c'), own='part', fields=('a', 'b', 'c'), **main), 0)]
    text = HEAD.format(seed=seed, main=indented(body, 2), **{name: indented(lines, 2) for name, lines in blocks.items()})
    if writer.random.random() < refused:
        at = writer.random.randrange(30, len(text))
        text = text[:at] + writer.random.choice('@ 9x(') + text[at + writer.random.randrange(3) :]
    return text
