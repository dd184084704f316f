"""Which definition each name in a definition means, and what is below a definition."""
import re

from sources import HOLE, without_comment

ATOM = re.compile(r'\[\]|[^\s(){}\[\];,"]+')
# What binds names: `(x y : T)` and `λ x y.` from there on, `let x =` and `x ←` from the next line on.
HERE = (re.compile(r'[({]\s*((?:[^\s(){}:;,]+\s+)+):(?=\s)'), re.compile(r'λ\s+([^.]*?)\.(?=\s|$)'))
LATER = (re.compile(r'\blet\s+([^\s=]+(?:\s+[^\s=]+)*)\s+='), re.compile(r'(?:^|[{;]|\bdo\b)\s*(\S+)\s+←', re.M))
FIELDS = re.compile(r'^\s+(?:pub )?([^\s(){}:]+) :(?=\s)', re.M)
LABELS = re.compile(r'[{;]\s*([^\s(){};=]+)\s+=(?=\s)')


def is_ahead(user, used):
    """Whether a definition of the same file begins after the one that would use it, with no block `mutual` around both."""
    return user.path == used.path and used.line > user.numbers[-1] and not set(user.opening) & set(used.opening)


class Scope:
    """What names mean in a module of definitions."""

    def __init__(self, sources, module):
        self.sources, self.module, self.known = sources, module, {}
        self.names = {*module.definitions, *module.constructors, *module.uses}
        self.operators = {part: name for name in self.names if HOLE in name for part in filter(None, name.split(HOLE))}

    def is_constructor(self, name, user):
        """Whether a name in a definition is a constructor, so that a pattern does not bind it."""
        head, _, rest = name.partition('.')
        if rest and head in self.module.aliases:
            return True
        if name in self.module.constructors:
            return not is_ahead(user, self.module.definitions[self.module.constructors[name]])
        if name not in self.module.uses:
            return False
        path, far = self.module.uses[name]
        found = self.sources.at_path(path, far)
        return found is None or found.name != far

    def meaning(self, name):
        """('own', Definition), ('kit', path and name), or None if it is no name of the scope."""
        if name not in self.known:
            self.known[name] = self.resolved(name)
        return self.known[name]

    def resolved(self, name):
        head, _, rest = name.partition('.')
        if rest and head in self.module.aliases:
            return self.at(self.module.aliases[head], rest.split('.')[0])
        head = self.operators.get(head, head)
        if head in self.module.definitions:
            return 'own', self.module.definitions[head]
        if head in self.module.constructors:
            return 'own', self.module.definitions[self.module.constructors[head]]
        return self.at(*self.module.uses[head]) if head in self.module.uses else None

    def at(self, path, name):
        found = self.sources.at_path(path, name)
        return ('own', found) if found else ('kit', f'{path}.{name}')


def clauses_of(definition, numbered):
    """The signature and the equations of a definition, or the head and the lines of a record or type, each as numbered lines."""
    clauses = []
    starts = re.compile(rf'\s{{{definition.indent}}}(?:{re.escape(definition.name)}(?=\s)|\S.*? = )')
    for number, line in numbered:
        if not clauses or definition.kind == 'definition' and starts.match(line) and not line.strip().startswith('--'):
            clauses.append([])
        clauses[-1].append((number, line))
    return clauses


def patterns_in(definition, text):
    """The names on the left of an equation."""
    left = re.split(r'\s=(?=\s|$)', text, maxsplit=1)[0]
    is_type = re.match(rf'(?:\S+ )*{re.escape(definition.name)}(?: \{{[^{{}}]*\}})* :', left.strip())
    return [] if left == text or is_type else ATOM.findall(left)


def bound_in(scope, definition, text):
    """The names that a clause binds, each with the offset from which on it means no definition."""
    bound = []
    for binder in HERE:
        bound += [(name, it.start()) for it in binder.finditer(text) for name in re.findall(r'[^\s(){},]+', it.group(1))]
    for binder in LATER:
        for it in binder.finditer(text):
            bound += [(name, (text + '\n').index('\n', it.end())) for name in re.findall(r'[^\s(){},]+', it.group(1))]
    if definition.kind == 'definition':
        bound += [(name, 0) for name in patterns_in(definition, text)]
    if definition.kind == 'record':
        fields = list(FIELDS.finditer(text))
        bound += [(it.group(1), following.start()) for it, following in zip(fields, fields[1:])]
    least = {}
    for name, start in bound:
        if name != definition.name and not scope.is_constructor(name, definition):
            least[name] = min(start, least.get(name, start))
    return least


def labels_in(definition, text):
    """The offsets of names that are only labels: fields of a record, and what `let` and `←` name."""
    found = [*LABELS.finditer(text), *(it for binder in LATER for it in binder.finditer(text))]
    return {it.start(1) for it in found + (list(FIELDS.finditer(text)) if definition.kind == 'record' else [])}


def names_in(scope, definition, clause):
    """(number, column, name, meaning) of each name of a clause that means a definition or a word of the kit."""
    lines = [without_comment(line) for _, line in clause]
    text = '\n'.join(lines)
    bound, labels = bound_in(scope, definition, text), labels_in(definition, text)
    at = 0
    for (number, _), line in zip(clause, lines):
        for found in ATOM.finditer(line):
            name = found.group(0).rstrip('.') or found.group(0)
            start = at + found.start()
            is_bound = bound.get(name.partition('.')[0], start + 1) <= start
            meaning = None if is_bound or start in labels else scope.meaning('◌>>=◌' if name == 'do' else name)
            if meaning and not (meaning[0] == 'own' and is_ahead(definition, meaning[1])):
                yield number, found.start(), name, meaning
        at += len(line) + 1


class Names:
    """The names of all definitions."""

    def __init__(self, sources):
        self.sources = sources
        self.scopes = {key: Scope(sources, module) for key, module in sources.modules.items()}

    def about(self, definition):
        """The comment at the head of the file of a definition."""
        module = self.sources.modules.get((definition.crate, definition.module))
        if module and module.path == definition.path:
            return module.about
        lines = self.sources.lines[definition.path]
        return [line for line in lines[:next((at for at, it in enumerate(lines) if not it.startswith('//')), 0)]]

    def clauses(self, definition):
        return clauses_of(definition, self.sources.text_of(definition))

    def names(self, definition, clauses=None):
        """(number, column, name, meaning) of the names in a definition, or in these clauses of it."""
        if (definition.crate, definition.module) not in self.scopes or definition.path.endswith('.rt'):
            yield from self.names_of_declared(definition)
            return
        scope = self.scopes[definition.crate, definition.module]
        opening = [(number, scope.module.lines[number - 1]) for number in definition.opening]
        for clause in [opening, *(self.clauses(definition) if clauses is None else clauses)]:
            yield from names_in(scope, definition, clause)

    def names_of_declared(self, definition):
        """The names in a type or constant: those of types and constants of its crate or of a crate below."""
        is_constant = definition.kind == 'const'
        for number, line in self.sources.text_of(definition):
            code = re.sub(r'//.*$', lambda text: ' ' * len(text.group(0)), line)
            for found in re.finditer(r'\b[A-Z]\w+', code):
                near = self.sources.declared_near(definition, found.group(0))
                in_type = is_constant or re.search(r'[(:,<]\s*(?:[\w:<&\' ]*)$', code[:found.start()])
                if near and near is not definition and in_type and (near.kind == 'const') == is_constant:
                    yield number, found.start(), found.group(0), ('own', near)
