"""What an editor shows of a text besides its names: colours of names, the parameters of a call, lenses, and the declarations of a
folder. All in bytes and tokens; the language server says it in the words of its protocol."""
import os
from typing import Dict, Iterator, List, NamedTuple, Optional, Tuple

from .editing import Analysis, Symbol
from .glance import Glance
from .names import Declaration
from .source import Class, Method

KINDS = ('class', 'method', 'property', 'parameter', 'variable')
MODIFIERS = ('declaration',)
MOST_FILES = 500
MOST_BYTES = 1_000_000


class Coloured(NamedTuple):
    """A name: its token, its kind as a number of KINDS, and whether it is declared there."""
    at: int
    kind: int
    is_declaring: bool


class Signature(NamedTuple):
    """A method as a call needs it: its heading, where in it each parameter is, and which one is being written."""
    heading: str
    parameters: List[Tuple[int, int]]
    active: int
    remark: str


def coloured(text: Analysis) -> Iterator[Coloured]:
    """The names of a text that mean something, in its order."""
    for at in sorted(text.names.meaning):
        yield Coloured(at, kind_of(text.names.meaning[at]), text.names.is_declaring(at))


def kind_of(declaration: Declaration) -> int:
    if isinstance(declaration, Class):
        return 0
    if isinstance(declaration, Method):
        return 1
    return {'field': 2, 'parameter': 3}.get(declaration.kind, 4)


def signature(text: Analysis, at: int) -> Optional[Signature]:
    """The method of the call in whose parentheses a byte is."""
    tokens = text.source.tokens
    number = next((index for index in range(len(tokens) - 1, -1, -1) if tokens[index].at < at), -1)
    commas = 0
    while number > 0 and tokens[number].text != '(':
        if tokens[number].kind not in ('name', 'number') and tokens[number].text != ',':
            return None
        commas += tokens[number].text == ','
        number -= 1
    method = called(text, number - 1) if number > 0 else None
    if method is None:
        return None
    heading, places = f'{method.name}(', []
    for index, each in enumerate(method.parameters):
        shown = f'{", " if index else ""}{each.type} {each.name}'
        places.append((len(heading) + (2 if index else 0), len(heading) + len(shown)))
        heading += shown
    return Signature(f'{heading})', places, min(commas, max(0, len(places) - 1)), text.remark(method))


def called(text: Analysis, name_at: int) -> Optional[Method]:
    """The method that a call names with this token."""
    found = text.names.meaning.get(name_at)
    is_head = text.source.tokens[name_at - 1].text == 'method'
    return found if isinstance(found, Method) and not is_head else None


def main_method(text: Analysis) -> Optional[Method]:
    return next((each for each in text.source.methods() if each.name == 'main' and not each.parameters), None)


class Folders:
    """The declarations in the sources of folders. What was read of a file is kept as long as the file stays as it is."""

    def __init__(self):
        self.paths: List[str] = []
        self._kept: Dict[str, Tuple[int, Glance]] = {}

    def sources(self) -> Iterator[str]:
        """The sources below the folders, at most so many."""
        count = 0
        for top in self.paths:
            for folder, below, files in os.walk(top):
                below[:] = sorted(each for each in below if not each.startswith('.'))
                for name in sorted(files):
                    if name.endswith('.rpp') and count < MOST_FILES:
                        count += 1
                        yield os.path.join(folder, name)

    def read(self, path: str) -> Optional[Glance]:
        try:
            status = os.stat(path)
            if status.st_size > MOST_BYTES:
                return None
            if path not in self._kept or self._kept[path][0] != status.st_mtime_ns:
                with open(path, 'rb') as file:
                    self._kept[path] = (status.st_mtime_ns, Glance(file.read()))
        except OSError:
            return None
        return self._kept[path][1]


def named(text: Glance, query: str) -> Iterator[Tuple[Symbol, str]]:
    """The classes, fields and methods whose names have the letters of a query in them, each with the class that has it."""
    wanted = query.lower()
    for owner in text.symbols():
        for each in [owner, *owner.children]:
            if wanted in each.name.lower():
                yield each, '' if each is owner else owner.name
