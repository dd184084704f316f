"""Random programs about places, for comparisons: arrays with two names, elements in indices, statements that read an element more than
once, and several causes of a fault in one statement. Every second one is mild: most often it runs to its end. The same seed gives
the same program."""
import random
import re

FIELDS = ('x', 'y', 'z', 'k', 'n')
OBJECTS = [f'{name} = nil' for name in ('a', 'b', 'c', 'd', 'g', 'u', 'w', 'p')] + ['live 0']
TEXT = '''// places {seed}
class Main
  int x
  int y
  int z
  int k
  int n
  int[] a
  int[] b
  int[] c
  int[] d
  int[] g
  Q[] u
  Q[] w
  Q p
  method own(int v)
    v += z
    y ^= 3
  method part(int l, int m)
{part}
  method main()
{main}
class Q
  int f
  method up(int v)
    f += v
class R inherits Q
  method up(int v)
    f -= v
    v += 5
'''
INTS, ARRAYS = ('x', 'y', 'z', 'l', 'm'), ('a', 'b', 'c', 'd')
OPERATORS = ('+', '-', '^', '+', '-', '^', '&', '|', '&&', '||', '<', '>', '<=', '>=', '=', '!=')
STRANGE = (3, 4, 7, 2147483646, 2147483647)
DEEPEST = 2


def names_in(text):
    return set(re.findall(r'[a-z]\w*', text))


class Writer:
    """Writes statements as lists of lines. `kept` are the names that a statement must not change."""

    def __init__(self, seed):
        self.random, self.mild = random.Random(f'places {seed}'), seed % 2 == 1
        self.ints, self.locals, self.element_before = INTS, 0, ''

    def chance(self, of):
        return self.random.random() < of

    def fresh(self):
        self.locals += 1
        return f't{self.locals}'

    # ---- expressions

    def number(self):
        if self.mild:
            return str(self.random.randrange(4))
        return str(self.random.choice(STRANGE) if self.chance(0.15) else self.random.randrange(3))

    def int_without(self, names):
        return self.random.choice([it for it in self.ints if it not in names] or ['0'])

    def element(self, depth, without):
        """An element of an array; often one that was read before."""
        names = names_in(self.element_before)
        if names and names <= {*self.ints, *ARRAYS} - set(without) and self.chance(0.3):
            return self.element_before
        free = [it for it in ARRAYS if it not in without]
        self.element_before = f'{self.random.choice(free)}[{self.index(depth, without)}]'
        return self.element_before

    def expression(self, depth, without=()):
        """An expression without these names."""
        if depth <= 0 or self.chance(0.25):
            ways = (self.number, lambda: self.int_without(without), lambda: self.element(1, without))
            return self.random.choices(ways, (7, 8, 5))[0]()
        if self.chance(0.2):
            return self.element(depth - 1, without)
        left = self.expression(depth - 1, without)
        right = left if self.chance(0.15) else self.expression(depth - 1, without)
        return f'({left} {self.random.choice(OPERATORS)} {right})'

    def index(self, depth, without=()):
        if self.chance(0.45):
            return self.number()
        if depth <= 0 or self.chance(0.3):
            return self.int_without(without) + (' & 3' if self.mild or self.chance(0.6) else '')
        if not self.mild and self.chance(0.4):
            return self.element(depth - 1, without)
        return f'{self.expression(depth - 1, without)} & 3'

    def place(self, name, without=()):
        """A variable, or an element of an array, without these names in its index."""
        return f'{name}[{self.index(2, {name, *without})}]' if name in ARRAYS else name

    def changed(self, kept, count=1):
        """So many names that a statement may change: of ints, and more often of arrays."""
        free = [it for it in (*self.ints, *ARRAYS * 2) if it not in kept]
        return [self.random.choice(free) for _ in range(count)] if free else []

    # ---- statements on ints

    def update(self, kept, depth):
        names = self.changed(kept)
        if not names:
            return self.skip(kept, depth)
        value = self.expression(self.random.randrange(4), names)
        return [f'{self.place(names[0])} {self.random.choice("+-^")}= {value}']

    def swap(self, kept, depth):
        names = self.changed(kept, 2)
        if not names or len(set(names)) == 1 and names[0] not in ARRAYS:
            return self.skip(kept, depth)
        return [' <=> '.join(self.place(it, names) for it in names)]

    def skip(self, kept, depth):
        return ['skip']

    # ---- statements with blocks

    def block(self, kept, depth, count=2):
        lines = [line for _ in range(self.random.randint(1, count)) for line in self.statement(kept, depth + 1)]
        return ['  ' + line for line in lines]

    def keeping(self, kept, text):
        return {*kept, *names_in(text)} if self.mild or self.chance(0.5) else kept

    def branch(self, kept, depth):
        test = self.expression(self.random.randrange(3))
        inner = self.keeping(kept, test)
        return [f'if {test} then', *self.block(inner, depth), 'else', *self.block(inner, depth), f'fi {test}']

    def loop(self, kept, depth):
        if not self.mild and self.chance(0.3):
            tests = self.expression(1), self.expression(1)
            return [f'from {tests[0]} do', *self.block(kept, depth), 'loop', *self.block(kept, depth), f'until {tests[1]}']
        name, turns = self.fresh(), self.random.randint(1, 3)
        body, again = (self.inside(name, {*kept, name}, depth) for _ in range(2))
        lines = [f'from {name} = 0 do', *body, 'loop', *again, f'  {name} += 1', f'until {name} = {turns}']
        return self.with_local('int', name, lines, '0', turns)

    def local(self, kept, depth):
        name, value = self.fresh(), self.expression(self.random.randrange(3))
        inner = self.keeping({*kept, name}, value)
        return self.with_local('int', name, [it[2:] for it in self.inside(name, inner, depth)], value, value)

    def inside(self, name, kept, depth):
        """A block that may read one more int."""
        outer, self.ints = self.ints, (*self.ints, name)
        lines = self.block(kept, depth)
        self.ints = outer
        return lines

    def with_local(self, kind, name, lines, begin='nil', end='nil'):
        return [f'local {kind} {name} = {begin}', *['  ' + it for it in lines], f'delocal {kind} {name} = {end}']

    def construct(self, kept, depth):
        name, made = self.fresh(), self.made()
        return [f'construct {made} {name}', *['  ' + it for it in self.calls(name, kept)], *self.block(kept, depth), f'destruct {name}']

    # ---- objects and arrays

    def made(self):
        return self.random.choice(('Q', 'R'))

    def calls(self, receiver, kept, ways=(('call', 'uncall'), ('uncall', 'call'))):
        """Two calls on a receiver that undo one another."""
        free = [it for it in INTS if it not in kept]
        given = self.random.choice(free) if free else ''
        return [f'{way} {receiver}::up({given})' for way in self.random.choice(ways)] if given else ['skip']

    def one_call(self, receiver, kept):
        return self.calls(receiver, kept, (('call',), ('uncall',)))

    def pair(self, kept, depth):
        """Statements on an object or an array, and those that undo them, except for calls on the object that stays."""
        choose, made, at, order = self.random.choice, self.made(), self.random.randint(1, 3 if self.mild else 2), self.random.randint(1, 5)
        array, last = choose(ARRAYS), f'g[{order - 1}]'
        begin, end = choose((
            ([f'new {made} u[{at}]', *self.calls(f'u[{at}]', kept)], [f'delete {made} u[{at}]']),
            ([f'new {made} p', *self.calls('p', kept)], [f'delete {made} p']),
            (['copy Q u[0] p', *self.one_call('p', kept)], ['uncopy Q u[0] p']),
            ([f'copy Q u[0] u[{at}]', *self.one_call('u[0]', kept)], [f'uncopy Q u[0] u[{at}]']),
            (['u[0] <=> p', *self.one_call('p', kept)], ['p <=> u[0]']),
            ([f'u[0] <=> u[{at}]', *self.one_call(f'u[{at}]', kept)], [f'u[{at}] <=> u[0]']),
            ([f'new int[{order}] g', f'{last} += 3'], [f'{last} -= 3', f'delete int[{order}] g']),
            ([f'copy int[] {array} g'], [f'uncopy int[] {array} g']),
            (['new Q[2] w', f'new {made} w[1]', *self.calls('w[1]', kept)], [f'delete {made} w[1]', 'delete Q[2] w']),
        ))
        used = names_in(' '.join(begin)) & {'u', 'p', 'g', 'w', *ARRAYS}
        if used & set(kept):
            return self.skip(kept, depth)
        return [*begin, *(it[2:] for it in self.block({*kept, *used}, depth, 1)), *end]

    def names_swapped(self, kept, depth):
        free = [it for it in ARRAYS if it not in kept]
        return [' <=> '.join(self.random.sample(free, 2))] if len(free) > 1 else self.skip(kept, depth)

    def own_call(self, kept, depth):
        free = [it for it in 'lm' if it not in kept]
        if not free or 'y' in kept:
            return self.skip(kept, depth)
        return [f'{self.random.choice(("call", "uncall"))} own({self.random.choice(free)})']

    def careless(self, kept, depth):
        """A statement on an object or an array that most often meets a fault, with one cause or more."""
        choose, given = self.random.choice, self.int_without(())
        one, two = f'u[{self.index(2)}]', f'u[{self.index(1)}]'
        way, values = choose(('call', 'uncall')), [f'{it}[{self.index(1, {"b", "c"})}]' for it in self.random.sample('adg', 2)]
        return [choose((
            f'{choose("bc")}[{choose(STRANGE)}] {choose("+-^")}= {values[0]}',
            f'{choose("bc")}[{self.number()}] {choose("+-^")}= {" + ".join(values)}',
            f'{choose(("new", "delete"))} {self.made()} {one}',
            f'{choose(("new", "delete"))} {self.made()} p',
            f'{choose(("new", "delete"))} int[{self.index(2, {"b"})}] {choose(("g", "b"))}',
            f'{choose(("new", "delete"))} Q[{self.index(2)}] w',
            f'{choose(("copy", "uncopy"))} Q {choose((f"{one} p", f"p {one}", f"{one} {two}"))}',
            f'{choose(("copy", "uncopy"))} int[] {choose(("a g", "g a", "b g", "c d"))}',
            f'{way} {one}::up({given if given not in one else "x"})',
            f'{way} p::up({given})',
            f'{way} own({choose("lm")})',
            f'{one} <=> {choose((two, "p", "w[0]"))}',
        ))]

    def statement(self, kept, depth):
        forms = [self.update] * 10 + [self.swap] * 4 + [self.skip, self.own_call, self.names_swapped]
        forms += [self.pair] * 4 if self.mild else [self.careless] * 3 + [self.pair]
        forms += [self.branch, self.branch, self.loop, self.local, self.local, self.construct] * (depth < DEEPEST)
        return self.random.choice(forms)(kept, depth)

    def body(self):
        """Statements on parameters or locals l and m, which are 0 at the end."""
        filled = [(name, at) for name in 'abc' for at in range(self.random.randrange(4 if self.mild else 3))]
        fill = [f'{name}[{at}] += {self.random.choice((0, 1, 1, 2, 2, 3, 5))}' for name, at in filled]
        begin = [f'{name} {self.random.choice("++-")}= {self.random.randrange(4)}' for name in INTS]
        return [*begin, *fill, *[it[2:] for it in self.block((), -1, 6)], 'l <=> k', 'm <=> n']

    def arrays(self):
        length = 4 if self.mild else self.random.randint(2, 4)
        second = self.random.choice(('copy int[] a d', 'copy int[] b d', 'new int[4] d', 'new int[4] d' if self.mild else 'skip'))
        arrays = ['new int[4] a', f'new int[{length}] b', 'new int[4] c', second, f'new Q[{4 if self.mild else 3}] u']
        return arrays + [f'new {self.made()} u[0]'] if self.mild or self.chance(0.8) else arrays


def program(seed):
    """The text of the program with this seed."""
    writer = Writer(seed)
    body, in_part = writer.body(), writer.chance(0.5)
    part, inside = (body, ['call part(l, m)']) if in_part else (['skip'], body)
    inside = writer.with_local('int', 'l', writer.with_local('int', 'm', inside, '0', '0'), '0', '0')
    main = writer.arrays() + inside
    return TEXT.format(seed=seed, part='\n'.join('    ' + it for it in part), main='\n'.join('    ' + it for it in main))
