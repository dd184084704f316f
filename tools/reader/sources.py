"""The definitions of the crates: those of specs/*.antt, and the types and constants of src/*.rt that definitions use."""
import glob
import os
import re

BEGINS = re.compile(r'^(\s*)((?:(?:abbrev|unfoldable|opaque|pattern|pub) )*)(?:(record|data) )?([^\s(){}:]+)((?: \{[^{}]*\})*)(?=\s|$)')
FIELD = re.compile(r'^\s+(?:pub )?([^\s(){}:]+) :')
DECLARED = re.compile(r'^(?:pub(?:\(crate\))? )?(struct|enum|trait|const) (\w+)')
HOLE = '◌'


class Definition:
    """A definition with its place, the numbers of its lines and of those above them that belong to it, and its comment."""

    def __init__(self, crate, module, name, kind, path):
        self.crate, self.module, self.name, self.kind, self.path = crate, module, name, kind, path
        self.line, self.numbers, self.comment, self.opening = 0, [], [], []
        self.constructors, self.is_public = [], True

    @property
    def key(self):
        return (self.crate, self.module, self.name)

    @property
    def label(self):
        return '.'.join(self.key)


class Module:
    """A file of definitions: what it defines and what it brings into scope."""

    def __init__(self, crate, name, path, lines):
        self.crate, self.name, self.path, self.lines = crate, name, path, lines
        self.definitions, self.constructors, self.uses, self.aliases, self.handed_on = {}, {}, {}, {}, {}
        self.about = []


def read_lines(path):
    with open(path, encoding='utf-8') as file:
        return file.read().split('\n')


def without_comment(line):
    """A line of a definition without its comment and its texts."""
    line = re.sub(r'"(?:[^"\\]|\\.)*"', lambda text: '"' + ' ' * (len(text.group(0)) - 2) + '"', line)
    return re.sub(r'(^|\s)--(?=\s|$).*$', '', line)


def indent_of(line):
    return len(line) - len(line.lstrip())


def take_use(module, line):
    """Brings what a line `use` names into the scope of the module."""
    named = re.match(r'(pub )?use (\S+?)\.\{(.*)\}', line)
    renamed = re.match(r'(?:pub )?use (\S+) as (\S+)', line)
    if named:
        for item in filter(None, (it.strip() for it in named.group(3).split(','))):
            far, _, near = item.partition(' as ')
            module.uses[near or far] = (named.group(2), far)
            if named.group(1):
                module.handed_on[near or far] = (named.group(2), far)
    elif renamed:
        module.aliases[renamed.group(2)] = renamed.group(1)


class Reading:
    """Reads the definitions of one file, line by line."""

    def __init__(self, module, path):
        self.module, self.path = module, path
        self.above, self.blocks, self.current, self.is_first = [], [], None, True

    def begun(self, line):
        """The match of a line that begins a definition, or None."""
        found = BEGINS.match(line)
        if not found or self.current and indent_of(line) > self.current.indent:
            return None
        typed = re.match(r'\s*:(?:\s|$)', line[found.end():])
        return found if found.group(3) or found.group(2) or typed and found.group(4) not in ('use', 'module') else None

    def begin(self, found, number):
        _, modifiers, kind, name, _ = found.groups()
        it = Definition(self.module.crate, self.module.name, name, kind or 'definition', self.path)
        it.indent, it.line, it.is_public = indent_of(found.group(0)), number, 'pub' in modifiers
        it.comment = [text for _, text in self.above if text.startswith('--')]
        it.numbers = [it for it, _ in self.above] + [number]
        it.opening = [line for _, lines in self.blocks for line in lines]
        self.module.definitions[name] = self.current = it
        self.above = []

    def take(self, number, line):
        text = line.strip()
        while self.blocks and text and not text.startswith('--') and indent_of(line) < self.blocks[-1][0]:
            self.blocks.pop()
        if not text:
            self.above, self.is_first = [], False
        elif text.startswith('--'):
            self.take_comment(number, line, text)
        elif re.match(r'(?:pub )?(?:use|mod) ', line):
            take_use(self.module, line)
            self.current, self.above, self.is_first = None, [], False
        elif re.match(r'(?:abbrev )?(?:mutual|module _)', text):
            self.blocks.append((indent_of(line) + 2, [*[it for it, _ in self.above], number]))
            self.current, self.above = None, []
        elif text.startswith('infix'):
            self.above.append((number, text))
        elif self.blocks and self.current is None and indent_of(line) > self.blocks[-1][0] and not self.begun(line):
            self.blocks[-1][1].append(number)
        else:
            self.take_code(number, line)

    def take_comment(self, number, line, text):
        if self.is_first:
            self.module.about.append(text)
        elif self.current and indent_of(line) > self.current.indent:
            self.current.numbers.append(number)
        else:
            self.above.append((number, text))

    def take_code(self, number, line):
        self.is_first = False
        found = self.begun(line)
        if found:
            self.begin(found, number)
        elif self.current:
            self.current.numbers += [it for it, _ in self.above] + [number]
            self.above = []
            field = FIELD.match(line)
            if self.current.kind == 'data' and field:
                self.current.constructors.append(field.group(1))
                self.module.constructors[field.group(1)] = self.current.name


def read_module(top, crate, path):
    lines = read_lines(f'{top}/{path}')
    module = Module(crate, os.path.basename(path)[:-len('.antt')], path, lines)
    reading = Reading(module, path)
    for number, line in enumerate(lines, 1):
        reading.take(number, line)
    return module


def end_of(lines, start):
    """The index of the last line of a type or constant that begins at this index."""
    if lines[start].rstrip().endswith((';', '}')):
        return start
    return next(at for at in range(start + 1, len(lines)) if re.match(r'[}\])]', lines[at]) or lines[at].rstrip().endswith(';'))


def declared_in(crate, path, lines):
    """The types and constants of a file of code."""
    for number, line in enumerate(lines, 1):
        found = DECLARED.match(line)
        if found:
            it = Definition(crate, os.path.basename(path)[:-len('.rt')], found.group(2), found.group(1), path)
            start = number
            while start > 1 and re.match(r'///|#\[', lines[start - 2]):
                start -= 1
            it.line, it.numbers = number, list(range(start, end_of(lines, number - 1) + 2))
            it.comment = [text for text in lines[start - 1:number - 1] if text.startswith('///')]
            it.is_public = line.startswith('pub')
            yield it


class Sources:
    """All definitions of the crates below a folder, by their names."""

    def __init__(self, top):
        self.top, self.modules, self.declared, self.lines, self.imports, self.handed = top, {}, {}, {}, {}, {}
        self.crates = sorted(os.path.basename(it) for it in glob.glob(f'{top}/crates/*') if os.path.isdir(it))
        for crate in self.crates:
            for path in sorted(glob.glob(f'{top}/crates/{crate}/specs/*.antt')):
                if path.endswith('/Lib.antt'):
                    paths = (re.match(r'pub use (Rattle(?:\.\w+)+)$', line) for line in read_lines(path))
                    self.handed.update({(crate, it[1].split('.')[-1]): it[1].split('.') for it in paths if it})
                else:
                    module = read_module(top, crate, os.path.relpath(path, top))
                    self.modules[crate, module.name] = module
                    self.lines[module.path] = module.lines
            for path in sorted(glob.glob(f'{top}/crates/{crate}/src/**/*.rt', recursive=True)):
                path = os.path.relpath(path, top)
                self.lines[path] = read_lines(f'{top}/{path}')
                for it in declared_in(crate, path, self.lines[path]):
                    self.declared.setdefault((crate, it.name), it)

    def text_of(self, definition):
        """The numbered lines of a definition."""
        return [(number, self.lines[definition.path][number - 1]) for number in definition.numbers]

    def crate_of(self, parts):
        """The crate at the end of a path `Rattle.A.specs.B..`, and what follows it; None if it is of the kit."""
        if parts[:1] != ['Rattle'] or len(parts) < 3 or parts[1] not in self.crates:
            return None
        crate, rest = parts[1], parts[3:]
        while rest and rest[0] in self.crates:
            crate, rest = rest[0], rest[1:]
        if (crate, rest[0] if rest else '') in self.handed and (crate, '.'.join(rest)) not in self.modules:
            return self.crate_of(self.handed[crate, rest[0]] + rest[1:])
        return crate, rest

    def at_path(self, path, name, is_last=False):
        """The definition that this path hands on under this name. None if the path is of the kit; LookupError if there is none."""
        found = self.crate_of(path.split('.'))
        if found is None:
            return None
        crate, rest = found
        if rest[:1] == ['declared']:
            wanted = rest[-2] if rest[-1] == 'TheVariants' else name
            # The prover makes further names of a type, such as a shape of its fields: those mean the type.
            return self.declared[crate, next((it for it in (wanted, *reversed(rest)) if (crate, it) in self.declared), wanted)]
        module = self.modules[crate, '.'.join(rest)]
        wanted = module.constructors.get(name, name)
        if wanted in module.definitions:
            return module.definitions[wanted]
        return self.at_path(*module.handed_on[name])

    def imports_of(self, path):
        """The crates that the lines `use` of a file of code name, by each name that they bring."""
        if path not in self.imports:
            text = '\n'.join(it for it in self.lines[path] if not it.startswith('ghost '))
            self.imports[path] = {}
            for crates, names in re.findall(r'^(?:pub )?use ((?:\w+::)+)(\{[^}]*\}|\w+)', text, re.M):
                crate = [it for it in crates.split('::') if it in self.crates][-1:]
                self.imports[path].update({name: crate[0] for name in re.findall(r'\w+', names) if crate})
        return self.imports[path]

    def declared_near(self, definition, name):
        """The type or constant that this name is in the file of a type or constant."""
        crate = self.imports_of(definition.path).get(name, definition.crate)
        return self.declared.get((crate, name))
