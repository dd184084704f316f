"""What is where in a source: its classes and methods, by the keywords only, and its statements, by the marks with
which the program notes them in a compiled image.

    outline = Outline.made(program, run.text)
    outline.places                      # the byte at which each statement begins, in order
    outline.method_at(375)              # Method(owner='Node', name='append', at=340, end=520)
    outline.call_at(375)                # Call(is_uncall=False, receiver='next', index=False, method='append') or None
"""
import bisect
import re
from typing import List, NamedTuple, Optional, Tuple

from .messages import read_answer
from .places import TOKEN, Text
from .program import Program
from .source import parsed
from .spelling import similar

GAP = re.compile(rb'(?:[ \t\r\n]+|//[^\n]*)+')
MARK = re.compile(r'^MARK \d+ \d+ (\d+)$', re.M)


class Method(NamedTuple):
    """A method: the class that declares it, its name, the byte of `method`, and the byte after its last token."""
    owner: str
    name: str
    at: int
    end: int

    @property
    def label(self) -> str:
        return f'{self.owner}.{self.name}'


class Call(NamedTuple):
    """A call statement as it is written: `receiver` is a variable's name, or '' for the current object; `is_element` says
    that an element of the variable is called."""
    is_uncall: bool
    receiver: str
    is_element: bool
    method: str


class Outline:
    """The methods and statements of a text."""

    def __init__(self, text: Text, places: List[int]):
        self.text = text
        self.places = sorted(set(places))
        self.tokens = tokens(text.content)
        self._starts = [at for at, _ in self.tokens]
        self.methods = methods(self.tokens)
        self.parsed = parsed(text.content)

    @classmethod
    def made(cls, program: Program, text: Text) -> 'Outline':
        """The outline of an accepted text; where the program does not compile it, without statements."""
        return cls(text, statement_places(program, text))

    def method_at(self, offset: int) -> Optional[Method]:
        index = bisect.bisect_right([method.at for method in self.methods], offset) - 1
        return self.methods[index] if index >= 0 else None

    def line_of(self, offset: int) -> int:
        return self.text.place(offset).line

    def places_on(self, line: int) -> List[int]:
        """The statements that begin on this line, from 1."""
        return [place for place in self.places if self.line_of(place) == line]

    def breakable(self, line: int) -> Tuple[int, List[int]]:
        """This line, or the next one on which a statement begins, with its statements; (0, []) where there is none."""
        behind = [place for place in self.places if self.line_of(place) >= line]
        if not behind:
            return 0, []
        found = self.line_of(behind[0])
        return found, self.places_on(found)

    def methods_named(self, name: str) -> List[Method]:
        """The methods `Class.name`, or of all classes `name`."""
        return [method for method in self.methods if name.replace('::', '.') in (method.label, method.name)]

    def methods_near(self, name: str) -> List[str]:
        """The methods that a name may mean which is none: those that are spelled so, or else those of a class that is."""
        head, _, tail = name.replace('::', '.').rpartition('.')
        owner = nearest(head or tail, [method.owner for method in self.methods])
        own = [method for method in self.methods if method.owner == owner]
        for group in (own, self.methods):
            near = nearest(tail, [method.name for method in group])
            if near:
                return [method.label for method in group if method.name == near]
        return [method.label for method in own]

    def entries(self, method: Method) -> List[int]:
        """The statements with which a body can begin: its first one, and on the way back its last one."""
        own = next((each for each in self.parsed.methods() if self.parsed.tokens[each.first].at == method.at), None)
        if own is None or not own.body:
            return []
        first, last = own.body[0], own.body[-1]
        ends = [last.first] + ([last.closing_at - 1] if last.form == 'construct' and last.closing_at else [])
        places = [self.parsed.tokens[each].at for each in (first.first, *ends)]
        return sorted({place for place in places if place in self.places})

    def places_in(self, method: Method) -> List[int]:
        return [place for place in self.places if method.at <= place < method.end]

    def call_at(self, place: int) -> Optional[Call]:
        """The call that is written at this place, if one is."""
        index = bisect.bisect_left(self._starts, place)
        words = [word for _, word in self.tokens[index:index + 400]]
        if not words or self._starts[index] != place or words[0] not in ('call', 'uncall'):
            return None
        is_uncall, receiver = words[0] == 'uncall', words[1]
        if words[2:3] == ['(']:
            return Call(is_uncall, '', False, receiver)
        is_element = words[2:3] == ['[']
        behind = words.index('::') if '::' in words else 0
        return Call(is_uncall, receiver, is_element, words[behind + 1])

    def call_sites(self, method: str) -> List[int]:
        """The places of all calls that name this method."""
        calls = [(place, self.call_at(place)) for place in self.places]
        return [place for place, call in calls if call and call.method == method]


def nearest(word: str, known: List[str]) -> str:
    """The word if it is known, else the one most like it, or ''."""
    return word if word in known else similar(word, known)


def tokens(content: bytes) -> List[Tuple[int, str]]:
    """The tokens with their places; comments and white space are left out."""
    found, at = [], 0
    while at < len(content):
        gap = GAP.match(content, at)
        if gap:
            at = gap.end()
            continue
        token = TOKEN.match(content, at)
        found.append((at, token[0].decode('utf-8', 'replace')))
        at = token.end()
    return found


def methods(words: List[Tuple[int, str]]) -> List[Method]:
    """The methods in the order of the text."""
    found: List[Method] = []
    owner, begun, end = '', None, 0
    for index, (at, word) in enumerate(words):
        if word in ('class', 'method'):
            if begun:
                found.append(Method(begun[0], begun[1], begun[2], end))
            name = words[index + 1][1] if index + 1 < len(words) else ''
            owner = name if word == 'class' else owner
            begun = (owner, name, at) if word == 'method' else None
        end = at + len(word.encode('utf-8'))
    if begun:
        found.append(Method(begun[0], begun[1], begun[2], end))
    return found


def statement_places(program: Program, text: Text) -> List[int]:
    """The places of the marks of the compiled text."""
    with program.folder() as folder:
        with open(folder.name('source'), 'wb') as out:
            out.write(text.content)
        image, listing = folder.name('image'), folder.name('listing')
        if read_answer(program.call('compile', folder.name('source'), image)).status != 0:
            return []
        program.call('list', image, listing)
        with open(listing, encoding='utf-8') as file:
            return [int(place) for place in MARK.findall(file.read())]
