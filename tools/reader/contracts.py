"""The functions of the code with their contracts, and what the names in a contract mean."""
import re

from names import ATOM, HERE, LABELS
from sources import HOLE

FUNCTION = re.compile(r'^(\s*)(pub(?:\(crate\))? )?(?:const )?(?:ghost )?fn (\w+)')
OWNER = re.compile(r'^(?:pub )?(impl|trait)\b(?:<[^{]*?>)?\s+(.*?)\s*(?:\{|where|$)')
PART = re.compile(r'^\s*(?:requires|ensures|decreases)\b(?: (\w+))?')


class Function:
    """A function: its name, whose it is, the numbers of the lines of its comment and of its contract."""

    def __init__(self, crate, path, name, owner, line):
        self.crate, self.path, self.name, self.owner, self.line = crate, path, name, owner, line
        self.comment, self.numbers, self.is_public, self.anchor = [], [], False, ''

    @property
    def label(self):
        return f'{self.owner}::{self.name}' if self.owner else self.name


def owner_in(line):
    """The type or trait that a line opens, or None."""
    found = OWNER.match(line)
    if not found:
        return None
    words = re.sub(r'<.*?>', '', found.group(2)).split(' for ')
    return re.match(r"[&\w:']*", words[-1].strip()).group(0).split('::')[-1]


def contract_end(lines, start, indent):
    """The index of the last line of a function's signature and contract that begin at this index."""
    for at in range(start, len(lines)):
        line = lines[at]
        if at > start and re.match(rf'^\s{{{indent}}}\S', line) and line.strip() == '{':
            return at - 1
        if re.match(rf'^\s{{{indent}}}[^\s{{}}].*\{{$', line) and not PART.match(line) or line.rstrip().endswith('}') and at == start:
            return at
        if line.rstrip().endswith(';') and not re.search(r'\{[^}]*$', line):
            return at
    return start


def functions_of(crate, path, lines):
    """The functions of a file of code in their order, without those of its tests."""
    owner, counts = '', {}
    for at, line in enumerate(lines):
        if re.match(r'^\S', line):
            owner = owner_in(line) or ('' if not line.startswith(('{', ')', 'where')) else owner)
        if line.startswith('mod tests {'):
            return
        found = FUNCTION.match(line)
        if found:
            it = Function(crate, path, found.group(3), owner, at + 1)
            start = at
            while start and re.match(r'\s*(?:///|#\[)', lines[start - 1]):
                start -= 1
            it.comment = [text.strip() for text in lines[start:at] if text.strip().startswith('///')]
            it.numbers = list(range(at + 1, contract_end(lines, at, len(found.group(1))) + 2))
            counts[it.label] = counts.get(it.label, 0) + 1
            it.anchor = f'fn-{it.label}' + (f'-{counts[it.label]}' if counts[it.label] > 1 else '')
            it.is_public = bool(found.group(2)) or bool(owner and found.group(1))
            yield it


class CodeScope:
    """What names in the contracts of a file of code mean."""

    def __init__(self, sources, crate, path):
        self.sources, self.crate, self.path = sources, crate, path
        self.uses, self.aliases = {}, {}
        for line in sources.lines[path]:
            named = re.match(r'\s*ghost use (\S+?)\.\{(.*)\};', line)
            renamed = re.match(r'\s*ghost use (\S+) as (\S+);', line)
            for item in filter(None, (it.strip() for it in named.group(2).split(','))) if named else ():
                far, _, near = item.partition(' as ')
                self.uses[near or far] = (named.group(1), far)
            if renamed:
                self.aliases[renamed.group(2)] = renamed.group(1)
        self.operators = {part: name for name in self.uses if HOLE in name for part in filter(None, name.split(HOLE))}

    def meaning(self, name, traits):
        """('own', Definition), ('kit', path and name), or None if it is no name of a definition or type."""
        head, _, rest = name.partition('.')
        if rest and head in self.aliases:
            return self.at(self.aliases[head], rest.split('.')[0])
        head = self.operators.get(head, head)
        if head in self.uses:
            return self.at(*self.uses[head])
        found = self.declared(traits.get(head, head))
        return ('own', found) if found else None

    def declared(self, name):
        crate = self.sources.imports_of(self.path).get(name, self.crate)
        return self.sources.declared.get((crate, name))

    def at(self, path, name):
        try:
            found = self.sources.at_path(path, name)
        except LookupError:
            return None
        return ('own', found) if found else ('kit', f'{path}.{name}')

    def names(self, function):
        """(number, column, name, meaning) of the names of a signature and contract."""
        numbered = [(it, re.sub(r'//.*$', '', self.sources.lines[self.path][it - 1])) for it in function.numbers]
        text = '\n'.join(line for _, line in numbered)
        traits = dict(re.findall(r'(?<=[<,\s])(\w+): (?:\w+::)*(\w+)', text.split('(')[0]))
        bound = {name for binder in HERE for names in binder.findall(text) for name in re.findall(r'[^\s(){},]+', names)}
        labels = {it.start(1) for it in LABELS.finditer(text)}
        at, is_contract = 0, False
        for number, line in numbered:
            is_contract = is_contract or bool(PART.match(line))
            found_names = ATOM.finditer(line) if is_contract else re.finditer(r'\b[A-Z]\w*', line)
            for found in found_names:
                name = found.group(0).rstrip('.') or found.group(0)
                if name.partition('.')[0] not in bound and at + found.start() not in labels:
                    meaning = self.meaning(name, traits)
                    if meaning:
                        yield number, found.start(), name, meaning
            at += len(line) + 1
