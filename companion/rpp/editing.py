"""What an editor asks about a text, in bytes: what is at a place, what can be written there, its outline, its folds."""
from functools import cached_property
from typing import Dict, Iterator, List, NamedTuple, Optional, Tuple

from .forms import FORMS, SNIPPETS, Form, form_of
from .names import Declaration, Names
from .source import CONSTRUCTS, STARTS, Class, Method, Source, Statement, Variable, parsed
from .tokens import OPERATORS, UPDATES, Token, is_name


INVERSE_SIGNS = {'+=': '-=', '-=': '+='}


class Item(NamedTuple):
    """A completion: its label, its kind, what is shown after it, and the text that is put in, if that is another."""

    label: str
    kind: str
    detail: str = ''
    insert: str = ''


class Symbol(NamedTuple):
    """A declaration: from byte to byte, and the token of its name."""
    kind: str
    name: str
    detail: str
    begin: int
    end: int
    name_at: int
    children: List['Symbol']


class Analysis:
    """A text with what its names mean."""

    def __init__(self, text: bytes):
        self.source: Source = parsed(text)

    @cached_property
    def names(self) -> Names:
        return Names(self.source)

    # ---- words about declarations

    def heading(self, declaration: Declaration) -> str:
        """A declaration as the language writes it."""
        if isinstance(declaration, Class):
            return f'class {declaration.name}' + (f' inherits {declaration.parent}' if declaration.parent else '')
        if isinstance(declaration, Method):
            return f'method {declaration.name}({parameters(declaration)})'
        return f'{declaration.type} {declaration.name}'

    def owner_of(self, declaration: Declaration) -> Optional[Class]:
        return self.names.class_at(self.source.tokens[declaration.name_at].at)

    def remark(self, declaration: Declaration) -> str:
        """The comment that the author put above a class or method, or after a variable."""
        begin = self.source.tokens[declaration.name_at].at
        if isinstance(declaration, Variable):
            return self._remark_behind(begin)
        begin, lines = self.source.tokens[declaration.first].at, []
        for each in reversed([it for it in self.source.comments if it.at < begin]):
            between = self.source.text[each.end : begin]
            if between.strip() or between.count(b'\n') != 1 or not self.is_alone(each):
                break
            lines.insert(0, self.words_of(each))
            begin = each.at
        return ' '.join(lines)

    def _remark_behind(self, begin: int) -> str:
        end = self.source.text.find(b'\n', begin)
        found = [it for it in self.source.comments if begin < it.at and (end < 0 or it.at < end)]
        return self.words_of(found[0]) if found else ''

    def words_of(self, comment: Token) -> str:
        return self.source.text[comment.at + 2 : comment.end].decode('utf-8', 'replace').strip()

    # ---- what is at a place

    def statement_of(self, at: int) -> Optional[Statement]:
        """The statement one of whose own words is this token."""
        for each in self.source.statements():
            if at in each.closers or at == self.word_of(each):
                return each
        return None

    def word_of(self, statement: Statement) -> int:
        """The keyword of a statement, or the sign of an update or swap."""
        tokens = self.source.tokens
        if statement.form not in ('update', 'swap'):
            return statement.first
        every = range(statement.first, statement.last + 1)
        return next((at for at in every if tokens[at].text in UPDATES or tokens[at].text == '<=>'), -1)

    def form_of(self, statement: Statement) -> Form:
        """The form of a statement, with the sign that it has."""
        tokens, word = self.source.tokens, statement.form
        if word in ('new', 'delete') and tokens[min(statement.first + 2, len(tokens) - 1)].text == '[':
            word += '[]'
        if word in ('call', 'uncall') and any(use.receiver for use in statement.uses):
            word += '::'
        form = form_of(word)
        if word != 'update':
            return form
        sign = tokens[self.word_of(statement)].text
        return form._replace(shape=f'y {sign} e', inverse=f'y {INVERSE_SIGNS.get(sign, sign)} e')

    # ---- outline and folds

    def symbols(self) -> List[Symbol]:
        made, tokens = [], self.source.tokens
        for each in self.source.classes:
            inner = [Symbol('field', it.name, it.type, tokens[it.type_at].at, tokens[it.name_at].end, it.name_at, [])
                     for it in each.fields]
            for it in each.methods:
                inner.append(Symbol('method', it.name, f'({parameters(it)})', tokens[it.first].at, self.end_of(it), it.name_at, []))
            end = self.end_of(each.methods[-1]) if each.methods else tokens[each.last].end
            made.append(Symbol('class', each.name, each.parent, tokens[each.first].at, end, each.name_at, inner))
        return [each for each in made if each.name]

    def end_of(self, method: Method) -> int:
        """The byte after the last token of a method."""
        return self.source.tokens[method.last].end

    def folds(self) -> Iterator[Tuple[str, int, int]]:
        """Kind, first and last byte of all that can be folded: classes, methods, blocks, rows of comments."""
        tokens = self.source.tokens
        for each in self.source.classes:
            yield 'region', tokens[each.first].at, tokens[each.last].at
            for method in each.methods:
                yield 'region', tokens[method.first].at, tokens[method.last].at
        for each in self.source.statements():
            # (then, do and the head of a local open the block that ends before the next word)
            closers = [at for at in each.closers if tokens[at].text not in ('then', 'do')]
            for first, last in zip([each.first] + closers, closers):
                yield 'region', tokens[first].at, tokens[last - 1].at
        yield from self._comment_folds()

    def _comment_folds(self):
        text, run = self.source.text, []
        for each in self.source.comments:
            if not self.is_alone(each):
                continue
            if run and (text[run[-1].end : each.at].strip() or text.count(b'\n', run[-1].end, each.at) != 1):
                run = []
            run.append(each)
            if len(run) > 1:
                yield 'comment', run[0].at, each.at

    def is_alone(self, comment: Token) -> bool:
        """Whether a comment is on a line of its own."""
        return not self.source.text[self.source.text.rfind(b'\n', 0, comment.at) + 1 : comment.at].strip()

    # ---- what can be written at a place

    def completions(self, at: int) -> List[Item]:
        if any(each.at < at <= each.end for each in self.source.comments):
            return []
        before = [each for each in self.source.tokens if each.at < at]
        if before and before[-1].end >= at and before[-1].kind in ('name', 'keyword', 'number'):
            # (the word that is being written)
            before.pop()
        words = [''] * 3 + [each.text for each in before]
        owner, method = self.names.class_at(at), self.names.method_at(at)
        if owner is None or words[-1] == 'class':
            return [] if words[-1] == 'class' else keywords(['class'])
        if method is None or at <= self.source.tokens[method.name_at].end or in_head(words):
            return self._in_class(words, owner, method)
        return self._in_body(words, at, owner, len(before))

    def _in_class(self, words: List[str], owner: Class, method: Optional[Method]) -> List[Item]:
        if words[-1] == 'inherits':
            return self._classes()
        if words[-1] == 'method':
            inherited = [each for each in self.names.all_methods(owner) if each.owner is not owner]
            return [Item(each.name, 'method', f'({parameters(each)}) of {each.owner.name}') for each in inherited]
        if words[-2] == 'class':
            return keywords(['inherits', 'method', 'int']) + self._classes()
        is_type = words[-1] in ('(', ',') if in_head(words) else not (is_name(words[-1]) and is_type_word(words[-2]))
        types = keywords(['int']) + self._classes() if is_type or words[-1] == ']' else []
        return types if in_head(words) else types + keywords(['method', 'class'])

    def _in_body(self, words: List[str], at: int, owner: Class, count: int) -> List[Item]:
        word = words[-1]
        if word == '::':
            receiver = self._receiver(count - 1)
            return self._methods(receiver) if receiver else []
        if word in ('call', 'uncall'):
            receivers = [each for each in self.names.visible(at) if each.base != 'int']
            return self._methods(owner) + [self._variable(each) for each in receivers]
        if word in ('new', 'delete', 'copy', 'uncopy', 'local', 'delocal', 'construct'):
            types = self._classes() if word == 'construct' else keywords(['int']) + self._classes()
            return [each for each in self._closing(at, word) if word == 'delocal'] + types
        if word == 'destruct':
            return self._closing(at, word)
        variables = [self._variable(each) for each in self.names.visible(at)]
        if word in OPERATORS | UPDATES or word in ('<=>', '(', '[', ',', '=', 'if', 'fi', 'from', 'until'):
            return variables + keywords(['nil'])
        starts = [Item(it, 'keyword', FORMS[it].shape, SNIPPETS.get(it, '')) for it in FORMS if it in STARTS]
        return self._closing(at) + starts + variables + keywords(['method', 'class'])

    def _classes(self) -> List[Item]:
        return [Item(each.name, 'class', self.heading(each)) for each in self.names.classes.values() if each.name]

    def _methods(self, owner: Class) -> List[Item]:
        found = self.names.all_methods(owner)
        return [Item(each.name, 'method', f'({parameters(each)}) of {each.owner.name}') for each in found if each.name]

    def _variable(self, each: Variable) -> Item:
        return Item(each.name, 'field' if each.kind == 'field' else 'variable', each.type)

    def _receiver(self, sign: int) -> Optional[Class]:
        """The class of the place in front of the `::` that is this token."""
        tokens, at, depth = self.source.tokens, sign - 1, 0
        is_element = at >= 0 and tokens[at].text == ']'
        while at > 0 and (depth or tokens[at].text == ']'):
            depth += {']': 1, '[': -1}.get(tokens[at].text, 0)
            at -= 1
        variable = self.names.variable(tokens[at].text, tokens[at].at) if at >= 0 else None
        if variable is None or variable.is_array != is_element:
            return None
        return self.names.classes.get(variable.base)

    def _closing(self, at: int, written: str = '') -> List[Item]:
        """The word that is missing from the innermost open construct at this byte, without the word that is already written."""
        inner = self.innermost(at)
        if inner is None:
            return []
        wanted = CONSTRUCTS.get(inner.form) or ('delocal' if inner.form == 'local' else 'destruct',)
        there = [self.source.tokens[each].text for each in inner.closers if not written]
        lacking = next((each for each in wanted if each not in there), None)
        if lacking is None or inner.variable is None:
            return keywords([lacking]) if lacking else []
        variable = inner.variable
        rest = f'{variable.type} {variable.name} = ' if inner.form == 'local' else variable.name
        return [Item(rest if written else f'{lacking} {rest}', 'keyword')]

    def innermost(self, at: int) -> Optional[Statement]:
        """The innermost statement with blocks that is open at a byte: begun before it, its last word not yet read."""
        found, tokens = None, self.source.tokens
        for each in self.source.statements():
            wanted = len(CONSTRUCTS.get(each.form, ' '))
            is_closed = len(each.closers) == wanted and tokens[each.closers[-1]].end < at
            is_begun = bool(each.blocks or each.closers) and tokens[each.first].at < at
            if is_begun and not is_closed and at <= self._reach(each):
                found = each
        return found

    def _reach(self, each: Statement) -> int:
        """Up to where an unfinished statement can go on: the token after it."""
        tokens = self.source.tokens
        return tokens[each.last + 1].at if each.last + 1 < len(tokens) else len(self.source.text)

    # ---- renaming

    def renamed(self, at: int, name: str) -> Dict[int, str]:
        """The tokens that are written otherwise where what token `at` means is called `name`."""
        return {each: name for each in self.names.places(self.names.meaning[at])}

    def keeps_meaning(self, edits: Dict[int, str]) -> bool:
        """Whether each name of the text with these edits means what it meant before."""
        after = Analysis(self.with_edits(edits)).names
        before = self.names
        shape = lambda names: {at: names.same(each).name_at for at, each in names.meaning.items()}
        return shape(before) == shape(after)

    def with_edits(self, edits: Dict[int, str]) -> bytes:
        made, end = [], 0
        for at in sorted(edits):
            token = self.source.tokens[at]
            made += [self.source.text[end : token.at], edits[at].encode()]
            end = token.end
        return b''.join(made + [self.source.text[end:]])


def parameters(method: Method) -> str:
    return ', '.join(f'{each.type} {each.name}' for each in method.parameters)


def keywords(words) -> List[Item]:
    return [Item(each, 'keyword') for each in words]


def is_type_word(word: str) -> bool:
    return word == 'int' or is_name(word) or word == ']'


def in_head(words: List[str]) -> bool:
    """Whether the last of these words is between the parentheses of a method's head."""
    for number in range(len(words) - 1, 1, -1):
        if words[number] == '(':
            return words[number - 2] == 'method'
        if not (is_name(words[number]) or words[number] in ('int', '[', ']', ',')):
            return False
    return False
