"""What is accepted and hardly meant: few warnings, each of which follows from the text.

    for each in warnings(Analysis(text)): each.begin, each.end, each.name, each.sentence
"""
import bisect
import re
from typing import Dict, Iterator, List, NamedTuple, Set

from .editing import Analysis
from .expressions import LEVEL, Tree
from .slots import Slots
from .source import Method, Statement, Variable
from .tokens import NAME

COMPARING = frozenset('= != < > <= >='.split())
BITS = frozenset('& ^ |'.split())
CALLS = ('call', 'uncall')
DIVISOR = re.compile(rf'//[ \t]*(?:([0-9]+)|({NAME}))\s*')


class Remark(NamedTuple):
    """From byte to byte, a name for the kind, and what is said."""
    begin: int
    end: int
    name: str
    sentence: str


def warnings(text: Analysis) -> List[Remark]:
    """The warnings of an accepted text, in its order."""
    lint = _Lint(text)
    return sorted([*lint.mixed(), *lint.chained(), *lint.divided(), *lint.unused(), *lint.endless()])


class _Lint:
    def __init__(self, text: Analysis):
        self.source, self.names = text.source, text.names
        self.slots = Slots.over(self.source, self.names)

    def at(self, first: int, last: int, name: str, sentence: str) -> Remark:
        return Remark(self.source.tokens[first].at, self.source.tokens[last].end, name, sentence)

    # ---- operators

    def mixed(self) -> Iterator[Remark]:
        """`x & 1 = 0`, which is `x & (1 = 0)`."""
        for statement in self.source.statements():
            for whole in self.slots.expressions(statement):
                for tree in whole.walk():
                    if tree.word in BITS and tree.parts:
                        yield from self.mixed_in(tree)

    def mixed_in(self, tree: Tree) -> Iterator[Remark]:
        is_open = [part.word in COMPARING and bool(part.parts) and not part.is_closed for part in tree.parts]
        is_truth = [part.word in COMPARING | {'&&', '||'} | BITS and bool(part.parts) for part in tree.parts]
        if any(is_open) and not all(is_truth):
            part = tree.parts[is_open.index(True)]
            yield self.at(tree.first, tree.last, 'Order', f'`{part.word}` binds more closely than `{tree.word}`: this is '
                          f'{self.grouped(tree)}. Write parentheses.')

    def grouped(self, tree: Tree) -> str:
        parts = [self.slots.spelled(part.first, part.last) for part in tree.parts]
        shown = [f'({text})' if part.parts and part.word in LEVEL and not part.is_closed else text for part, text in zip(tree.parts, parts)]
        return f'`{shown[0]} {tree.word} {shown[1]}`'

    def chained(self) -> Iterator[Remark]:
        """`0 <= x <= 10`, which is `(0 <= x) <= 10`."""
        for statement in self.source.statements():
            for whole in self.slots.expressions(statement):
                inner: Set[int] = set()
                for tree in whole.walk():
                    left = tree.parts[0] if tree.word in COMPARING and tree.parts else tree
                    if left is tree or left.is_closed or not left.parts or LEVEL.get(left.word) != LEVEL[tree.word]:
                        continue
                    inner.add(left.at)
                    if tree.at not in inner:
                        yield self.at(tree.first, tree.last, 'Chain', f'This is {self.grouped(tree)}, which compares 0 or 1. Write '
                                      f'{self.joined(left, tree)}.')

    def joined(self, left: Tree, tree: Tree) -> str:
        """`a <= b && b <= c` for `a <= b <= c`."""
        right, middle = tree.parts[1], left.parts[1]
        return f'`{self.slots.spelled(left.first, left.last)} && {self.slots.spelled(middle.first, middle.last)} {tree.word} ' \
               f'{self.slots.spelled(right.first, right.last)}`'

    # ---- comments

    def divided(self) -> Iterator[Remark]:
        """`x += y // 2`, where `//` begins a comment: one space after a value that is no number, a number from 2 on or a variable."""
        begins = [each.at for each in self.source.tokens]
        last = {bisect.bisect_left(begins, each.at) - 1: each for each in reversed(self.source.comments)}
        for statement in self.source.statements():
            for tree in self.slots.expressions(statement) if statement.form in ('update', 'local') else ():
                comment = last.get(tree.last)
                if comment is None or tree.word.isdigit() or self.source.text[self.source.tokens[tree.last].end:comment.at] not in (b'', b' '):
                    continue
                found = DIVISOR.fullmatch(comment.text)
                ints = {each.name for each in self.names.visible(self.source.tokens[tree.last].at) if each.type == 'int'}
                if found and (int(found[1]) > 1 if found[1] else found[2] in ints):
                    yield Remark(comment.at, comment.end, 'Comment', f'`//` begins a comment, so this value is only '
                                 f'`{self.slots.spelled(tree.first, tree.last)}`: there is no quotient.')

    # ---- what is never used

    def unused(self) -> Iterator[Remark]:
        main = next((each for each in self.source.methods() if each.name == 'main' and not each.parameters), None)
        used = self.used()
        for owner in self.source.classes:
            if owner.name_at not in used and (main is None or main.owner is not owner):
                yield self.never(owner.name_at, f'The class `{owner.name}`')
                continue
            for field in owner.fields:
                if field.name_at not in used:
                    yield self.never(field.name_at, f'The field `{field.name}`')
            for method in owner.methods:
                yield from self.unused_in(method, used, main)

    def unused_in(self, method: Method, used: Set[int], main) -> Iterator[Remark]:
        if method is not main and self.names.slot(method).name_at not in used:
            yield self.never(method.name_at, f'The method `{method.name}`')
        for local in method.locals:
            if local.name_at not in used and local.kind == 'local' and not self.is_constructed(local):
                yield self.never(local.name_at, f'The local `{local.name}`')

    def is_constructed(self, local: Variable) -> bool:
        """Whether it is of a `construct`, which makes an object, and so may be there only for its use of the heap."""
        return self.source.tokens[local.type_at - 1].text == 'construct'

    def never(self, at: int, what: str) -> Remark:
        return self.at(at, at, 'Unused', f'{what} is never used.')

    def used(self) -> Set[int]:
        """The names' tokens of all declarations that something else names."""
        found = set()
        closing = {each.closing_at for each in self.source.statements()}
        for at, declaration in self.names.meaning.items():
            if at == declaration.name_at or at in closing:
                continue
            found.add(self.names.slot(declaration).name_at if isinstance(declaration, Method) else declaration.name_at)
        return found

    # ---- loops

    def endless(self) -> Iterator[Remark]:
        """A loop whose last test nothing in it can change ends after its first block, or never."""
        for statement in self.source.statements():
            if statement.form != 'from' or len(statement.closers) < 3:
                continue
            test = [each for each in self.slots.expressions(statement) if each.first > statement.closers[-1]]
            read = self.read(test[-1]) if test else {}
            changed = self.changed([each for block in statement.blocks for each in block])
            if test and None not in changed and not (set(read) & changed):
                shown = self.slots.spelled(test[-1].first, test[-1].last)
                yield self.at(test[-1].first, test[-1].last, 'Loop', f'Nothing in this loop changes `{shown}`, so it ends after its '
                              'first block or never.')

    def read(self, tree: Tree) -> Dict[str, bool]:
        """The variables of an expression, by name."""
        return {each.word: True for each in tree.walk() if self.source.tokens[each.at].kind == 'name'}

    def changed(self, block: List[Statement]) -> set:
        """The names of the variables that a block may change; with None where a call may change any field or element."""
        found, waiting = set(), list(block)
        while waiting:
            each = waiting.pop()
            waiting += [inner for parts in each.blocks for inner in parts]
            if each.form in CALLS or each.form == 'construct':
                found.add(None)
            elif each.form not in ('if', 'from', 'local', 'skip'):
                found |= {self.source.tokens[at].text for at in self.slots.variables(each)}
                if any(self.slots.word_at(at + 1) == '[' for at in self.slots.variables(each)):
                    found |= self.arrays()
        return found

    def arrays(self) -> Set[str]:
        """The names of all arrays: one may be another's."""
        return {each.name for each in self.names.meaning.values() if isinstance(each, Variable) and each.is_array}
