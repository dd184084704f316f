"""The names and numbers that a sentence about a refused text can show: its slots.

    filled(rule.forms, slots(text, 19, 50), rule.fix)     # ('The call must pass 1 argument to `add`, not 0: `int n`.', 'Give ..', '')

The first sentence whose slots are all known is taken. A slot that cannot be found out is not known, so that no sentence says what is
not so; then the general sentence of the rule remains."""
import re
from typing import Dict, Iterable, List, NamedTuple, Optional, Tuple

from .expressions import LEVEL, Tree, end_of, expression, type_of
from .names import Names
from .rules import Forms
from .source import Class, Method, Source, Statement, Variable, parsed
from .spelling import similar

SLOT = re.compile(r'\{(\w+)\}')
TRUTHS = {'true': '1', 'false': '0', 'True': '1', 'False': '0'}
TRUTH_TYPES = ('bool', 'boolean', 'Bool', 'Boolean')
NULLS = frozenset('NULL null Null nill nul None nullptr Nil NIL undefined nothing'.split())
FOREIGN = frozenset('string String str char float double long short byte void var let unsigned integer Integer number any i32 u32 i64 u64 '
                    'usize f32 f64 object Object List Vec ArrayList Map'.split())
OPERATORS = {'*': 'product', '/': 'quotient', '%': 'remainder'}


class Filled(NamedTuple):
    """A sentence, what to do, and what can be written for the word at the place, or ''."""
    sentence: str
    fix: str
    written: str


def filled(forms: Forms, known: Dict[str, str], fix: str = '') -> Optional[Filled]:
    """The first sentence whose slots are all known, with them, and the advice that it has; else `fix`."""
    for form in forms:
        texts = [form, fix, ''] if isinstance(form, str) else [*form, ''][:3]
        if all(slot in known for slot in SLOT.findall(texts[0] + texts[1])):
            return Filled(*[SLOT.sub(lambda found: known[found[1]], text) for text in texts])
    return None


def slots(text: bytes, number: int, at: int) -> Dict[str, str]:
    """What is known about refusal `number` at the byte `at`."""
    found = Slots(text, at)
    return {name: value for name, value in getattr(found, f'of_{number}', dict)().items() if value}


def spelled(source: Source, first: int, last: int) -> str:
    """The text from one token to another, in one line, with the spaces of the author where they part words."""
    text = source.text[source.tokens[first].at:source.tokens[last].end].decode('utf-8', 'replace')
    return ' '.join(re.sub(r'//[^\n]*', ' ', text).split())


class Slots:
    """A text with a place in it, and what is there."""

    def __init__(self, text: bytes, at: int):
        self.text, self.at = text, at
        self.source: Source = parsed(text)
        self.names = Names(self.source)
        self.token = next((number for number, each in enumerate(self.source.tokens) if each.at == at), None)
        self.word = self.source.tokens[self.token].text if self.token is not None else ''
        self.owner: Optional[Class] = self.names.class_at(at)
        self.method: Optional[Method] = self.names.method_at(at)

    @classmethod
    def over(cls, source: Source, names: Names) -> 'Slots':
        """Over a text that was taken apart, with no place in it."""
        made = cls.__new__(cls)
        made.text, made.at, made.source, made.names = source.text, 0, source, names
        made.token, made.word, made.owner, made.method = None, '', None, None
        return made

    # ---- what is where

    def spelled(self, first: int, last: int) -> str:
        return spelled(self.source, first, last)

    def line_of(self, token: int) -> str:
        return str(self.text.count(b'\n', 0, self.source.tokens[token].at) + 1)

    def word_at(self, token: int) -> str:
        return self.source.tokens[token].text if 0 <= token < len(self.source.tokens) else ''

    def statement(self) -> Optional[Statement]:
        """The innermost statement that holds the place."""
        inside = [each for each in self.source.statements() if self.token is not None and each.first <= self.token <= each.last]
        return inside[-1] if inside else None

    def variables(self, statement: Statement) -> List[int]:
        """The tokens of a statement that are variables, in its order."""
        return sorted(use.at for use in statement.uses if use.kind == 'variable')

    def declared(self, token: int) -> Optional[Variable]:
        found = self.names.meaning.get(token)
        return found if isinstance(found, Variable) else None

    def type_at(self, token: int) -> str:
        """The type of a variable, or of its element where an index is after it."""
        variable = self.declared(token)
        if variable is None:
            return ''
        return variable.base if self.word_at(token + 1) == '[' else variable.type

    def method_named(self, statement: Statement) -> Optional[int]:
        """The token of the method's name in a call."""
        return next((use.at for use in statement.uses if use.kind == 'method'), None)

    def called(self, statement: Statement) -> Optional[Method]:
        found = self.names.meaning.get(self.method_named(statement))
        return found if isinstance(found, Method) else None

    def arguments(self, statement: Statement) -> List[int]:
        at = self.method_named(statement)
        return [each for each in self.variables(statement) if at is not None and each > at]

    def expressions(self, statement: Statement) -> List[Tree]:
        """The outermost expressions of a statement: its tests and values, and its indexes."""
        found, at = [], statement.first
        inner = [(block[0].first, block[-1].last) for block in statement.blocks if block]
        while at <= statement.last:
            skipped = next((last for first, last in inner if first <= at <= last), None)
            if skipped is not None:
                at = skipped + 1
            elif self.begins_expression(statement, at):
                last = end_of(self.source, at)
                tree = expression(self.source, at, last) if last >= at else None
                found += [tree] if tree else []
                at = max(at, last) + 1
            else:
                at += 1
        return found

    def begins_expression(self, statement: Statement, at: int) -> bool:
        before = self.word_at(at - 1)
        if statement.form in ('if', 'from') and (at == statement.first + 1 or before in ('fi', 'until') and at - 1 in statement.closers):
            return True
        return at > statement.first and before in ('+=', '-=', '^=', '[', '=') and self.word_at(at) != ']'

    # ---- texts and declarations

    def of_1(self):
        character = self.text[self.at:self.at + 4].decode('utf-8', 'ignore')[:1]
        return {'character': character if character.isprintable() and character != ' ' else '',
                'byte': str(self.text[self.at]) if self.at < len(self.text) else ''}

    def of_2(self):
        return {'number': self.word}

    def of_4(self):
        tokens, statement = self.source.tokens, self.statement()
        is_head = self.method and self.method.body and self.token is not None and self.token < self.method.body[0].first
        if len(tokens) > 20000 and self.token == 20000:
            return {'most': '20,000', 'what': 'tokens in a source'}
        if self.word == 'class':
            return {'most': '256', 'what': 'classes in a source'}
        if self.word_at((self.token or 1) - 1) == 'class':
            many = self.names.all_fields(self.owner) if self.owner else []
            return {'most': '64', 'what': 'fields in a class'} if len(many) > 64 else {'most': '256', 'what': 'methods in a class'}
        if is_head:
            return {'most': '16', 'what': 'parameters in a method'}
        if statement and statement.first == self.token:
            what = '32 locals in scope' if self.word in ('local', 'construct') else ''
            return {'most': what or '100', 'what': 'and 100 statements one in another' if what else 'statements one in another'}
        if self.word == '(':
            return {'most': '100', 'what': 'parentheses one in another'}
        if self.word == '[':
            return {'most': '32', 'what': 'locals in scope, where a call on an element counts as one'}
        return {'most': '64', 'what': 'operands and operators in the expressions of one statement'}

    def of_5(self):
        first = self.names.classes.get(self.word)
        return {'name': self.word, 'line': self.line_of(first.name_at) if first else ''}

    def one_of(self, *words: str) -> str:
        """The word at the place if it is one of these, or ''."""
        return self.word if self.word in words else ''

    def of_6(self):
        return {'name': self.word, 'inherits': self.of_parent(), 'parent': self.word_at((self.token or 0) + 1),
                'stack': self.one_of('stack', 'Stack', 'queue', 'Queue'),
                'truth': self.one_of(*TRUTH_TYPES), 'foreign': self.one_of(*FOREIGN),
                'similar': similar(self.word, [*self.names.classes, 'int']), 'what': self.kind_of_name()}

    def kind_of_name(self) -> str:
        """What the source declares by the word at the place, if it is a field or a method."""
        if any(each.name == self.word for owner in self.source.classes for each in owner.fields):
            return 'field'
        return 'method' if any(each.name == self.word for each in self.source.methods()) else ''

    def of_parent(self) -> str:
        """The word that is written for `inherits` after the name of a class."""
        if self.token is None or self.word_at(self.token - 2) != 'class':
            return self.word if self.word in ('extends', 'implements') else ''
        is_near = similar(self.word, ['inherits']) and self.word_at(self.token + 1) in self.names.classes
        return self.word if is_near or self.word in ('extends', 'implements') else ''

    def of_7(self):
        chain, each = [self.word], self.names.classes.get(self.word)
        while each and each.parent and len(chain) < 8:
            chain.append(each.parent)
            if each.parent == self.word:
                return {'name': self.word, 'chain': ' inherits '.join(f'`{name}`' for name in chain)}
            each = self.names.classes.get(each.parent)
        return {'name': self.word}

    def of_8(self):
        above = list(self.names.ancestors(self.owner))[1:] if self.owner else []
        holder = next((each.name for each in above if any(it.name == self.word for it in each.fields)), '')
        return {'name': self.word, 'class': self.owner.name if self.owner else '', 'ancestor': holder}

    def of_9(self):
        same = [it for it in self.owner.methods if it.name == self.word] if self.owner else []
        if not same:
            return {}
        types = [[each.type for each in it.parameters] for it in same]
        is_overloaded = len(same) > 1 and types[0] != types[1]
        line = self.line_of(same[0].name_at)
        return {'name': self.word, 'class': self.owner.name, 'line': line, 'overloaded': line if is_overloaded else ''}

    def of_10(self):
        types = lambda method: ', '.join(each.type for each in method.parameters) or 'nothing'
        own = next((it for it in self.owner.methods if it.name_at == self.token), None) if self.owner else None
        for above in list(self.names.ancestors(self.owner))[1:] if own else []:
            for it in above.methods:
                if it.name == self.word:
                    return {'name': self.word, 'ancestor': above.name, 'wanted': types(it), 'given': types(own)}
        return {}

    def of_11(self):
        methods = list(self.source.methods())
        main = next((it for it in methods if it.name == 'main'), None)
        if main:
            return {'class': main.owner.name, 'line': self.line_of(main.name_at)}
        if not methods:
            return {'empty': 'without methods' if self.source.classes else 'empty'}
        near = similar('main', [it.name for it in methods if not it.parameters])
        at = next((it.name_at for it in methods if it.name == near), None)
        if near:
            return {'similar': near, 'line': self.line_of(at)}
        own = next((it for it in methods if it.name == it.owner.name), None)
        return {'constructor': own.name, 'line': self.line_of(own.name_at)} if own else {}

    def of_12(self):
        first = next((it for it in self.source.methods() if it.name == 'main' and not it.parameters), None)
        return {'class': self.owner.name if self.owner else '', 'first': first.owner.name if first else ''}

    # ---- names

    def of_13(self):
        statement = self.statement()
        uses = [use for use in statement.uses if use.at == self.token] if statement else []
        if not uses or uses[0].kind == 'class':
            variable = next((it for it in self.names.visible(self.at) if it.name == self.word and it.base in self.names.classes), None)
            return {'class_name': self.word, 'similar': similar(self.word, self.names.classes), 'type': variable.base if variable else '',
                    'type_truth': self.one_of(*TRUTH_TYPES), 'type_foreign': self.one_of(*FOREIGN)}
        if uses[0].kind == 'method':
            return self.of_unknown_method(self.names.receiver_class(uses[0], self.owner))
        return self.of_unknown_variable()

    def of_unknown_method(self, receiver: Optional[Class]):
        known = [it.name for it in self.names.all_methods(receiver)] if receiver else []
        others = [it.owner.name for it in self.source.methods() if it.name == self.word and it.owner is not receiver]
        return {'method': self.word, 'class': receiver.name if receiver else '', 'similar': similar(self.word, known),
                'other': others[0] if others and receiver is self.owner else ''}

    def of_unknown_variable(self):
        known = {'variable': self.word, 'class': self.owner.name if self.owner else ''}
        if self.word in self.names.classes and self.word_at(self.token + 1) == '::':
            return {'receiver': self.word, 'called': self.word_at(self.token + 2)}
        if self.word == 'super':
            return {'super': self.word}
        if self.word in NULLS:
            return {'null': self.word}
        if self.word in ('this', 'self', 'me'):
            methods = [it.name for it in self.owner.methods if it.name != 'main'] if self.owner else []
            return {'this': self.word, 'example': methods[0] if methods else 'm'}
        if self.word in TRUTHS:
            return {'truth': self.word, 'number': TRUTHS[self.word]}
        late = [it for it in self.method.locals if it.name == self.word] if self.method else []
        holders = [each.name for each in self.source.classes if any(it.name == self.word for it in each.fields)]
        near = similar(self.word, [it.name for it in self.names.visible(self.at)])
        if late:
            last = str(self.text.count(b'\n', 0, late[0].ends) + 1)
            return {**known, 'late': self.word, 'first': self.line_of(late[0].name_at), 'last': last}
        if holders:
            return {**known, 'elsewhere': self.word, 'other': holders[0]}
        return {**known, 'similar': near}

    def of_14(self):
        first = next((it for it in self.names.visible(self.at) if it.name == self.word and it.kind != 'field'), None)
        if first is None and self.method:
            first = next((it for it in self.method.parameters if it.name == self.word), None)
        return {'name': self.word, 'line': self.line_of(first.name_at) if first else ''}

    # ---- types

    def of_15(self):
        statement = self.statement()
        if statement is None:
            return {}
        found = self.of_wrong_expression(statement)
        kinds = {'local': self.of_local, 'construct': self.of_closing, 'call': self.of_argument, 'uncall': self.of_argument,
                 'new': self.of_made, 'delete': self.of_made, 'copy': self.of_copy, 'uncopy': self.of_copy, 'update': self.of_update,
                 'swap': self.of_swap}
        return found or kinds.get(statement.form, dict)(statement)

    def of_wrong_expression(self, statement: Statement):
        """An operator, an index or a condition that does not fit."""
        for whole in self.expressions(statement):
            for tree in whole.walk():
                if tree.at == self.token and tree.word in LEVEL:
                    return self.of_operator(tree)
                index = tree.parts[0] if tree.parts and tree.word not in LEVEL else None
                if index and self.is_at(index) and type_of(self.names, index) != 'int':
                    return {'index': self.spelled(index.first, index.last), 'given': type_of(self.names, index)}
            slot = self.slot_of(statement, whole)
            if slot and self.is_at(whole) and type_of(self.names, whole) != 'int':
                return {slot: self.spelled(whole.first, whole.last), 'given': type_of(self.names, whole)}
        return {}

    def slot_of(self, statement: Statement, whole: Tree) -> str:
        """What an outermost expression is, where it has to be an int."""
        before = self.word_at(whole.first - 1)
        if before == '[':
            return 'length' if statement.form in ('new', 'delete') and whole.first == statement.first + 3 else 'index'
        return 'condition' if before in ('if', 'from', 'fi', 'until') else ''

    def is_at(self, tree: Tree) -> bool:
        return self.token in (tree.first, tree.at)

    def of_operator(self, tree: Tree):
        left, right = (type_of(self.names, part) for part in tree.parts)
        if tree.word not in ('=', '!='):
            return {'arithmetic': tree.word, 'left': left, 'right': right}
        is_nil = 'nil' in (left, right) and 'int' in (left, right)
        return {'operator': tree.word, 'left': left, 'right': right, 'nil': 'nil' if is_nil else ''}

    def of_local(self, statement: Statement):
        variable = statement.variable
        closing = self.of_closing(statement)
        if closing or variable is None:
            return closing
        return {'int_local': variable.name} if variable.type == 'int' else {'local': variable.name, 'type': variable.type}

    def of_closing(self, statement: Statement):
        """The word that ends a local, where its name or type is another."""
        variable, at = statement.variable, statement.closing_at
        if variable is None or at is None:
            return {}
        closer = 'delocal' if statement.form == 'local' else 'destruct'
        if self.word_at(at) != variable.name:
            return {'closer': closer, 'wanted': variable.name, 'found': self.word_at(at)}
        given = self.spelled(statement.closers[-1] + 1, at - 1) if closer == 'delocal' else variable.type
        if given.replace(' ', '') != variable.type:
            return {'closer': closer, 'wanted': variable.name, 'type': variable.type, 'given': given}
        return {}

    def of_argument(self, statement: Statement):
        method, arguments = self.called(statement), self.arguments(statement)
        number = arguments.index(self.token) if self.token in arguments else -1
        if method is None or not 0 <= number < len(method.parameters):
            return {}
        wanted, given = method.parameters[number], self.type_at(self.token)
        above = [each.name for each in self.names.ancestors(self.names.classes.get(given))]
        return {'argument': self.word, 'given': given, 'parameter': wanted.name, 'type': wanted.type,
                'subclass': given if wanted.type in above else ''}

    def of_made(self, statement: Statement):
        """`new` and `delete`: what they name, and the place that they fill or empty."""
        made, is_array = self.word_at(statement.first + 1), self.word_at(statement.first + 2) == '['
        place = self.place_of(statement, -1)
        if place is None:
            return {}
        known = {'form': statement.form, 'place': self.word_at(place), 'given': self.type_at(place),
                 'made': made + ('[]' if is_array else '')}
        length = expression(self.source, statement.first + 3, end_of(self.source, statement.first + 3)) if is_array else None
        if length and type_of(self.names, length) != 'int':
            return {'length': self.spelled(length.first, length.last), 'given': type_of(self.names, length)}
        return known if is_array else {**known, 'ancestor': 'ancestor'}

    def place_of(self, statement: Statement, number: int) -> Optional[int]:
        """One of the outermost variables of a statement, which are in no index and in no length."""
        depth, found, variables = 0, [], set(self.variables(statement))
        for token in range(statement.first, statement.last + 1):
            word = self.word_at(token)
            depth += (word == '[') - (word == ']')
            if depth == 0 and token in variables:
                found.append(token)
        return found[number] if found and -len(found) <= number < len(found) else None

    def of_copy(self, statement: Statement):
        first, second = self.place_of(statement, 0), self.place_of(statement, 1)
        if first is None or second is None:
            return {}
        made = self.word_at(statement.first + 1) + ('[]' if self.word_at(statement.first + 2) == '[' else '')
        known = {'form': statement.form, 'made': made}
        if self.type_at(first) != made:
            return {**known, 'place': self.word_at(first), 'given': self.type_at(first)}
        return {**known, 'place': self.word_at(second), 'given': self.type_at(second), 'ancestor': 'ancestor'}

    def of_update(self, statement: Statement):
        given = self.type_at(statement.first)
        if given != 'int':
            return {'updated': self.spelled_place(statement.first), 'given': given}
        value = next((tree for tree in self.expressions(statement) if self.word_at(tree.first - 1) in ('+=', '-=', '^=')), None)
        if value is None:
            return {}
        written, given = self.spelled(value.first, value.last), type_of(self.names, value)
        return {'name': self.spelled_place(statement.first), 'value': written, 'given': given, 'row': written if given == 'int[]' else ''}

    def spelled_place(self, token: int) -> str:
        """A place with its index."""
        if self.word_at(token + 1) != '[':
            return self.word_at(token)
        tree = expression(self.source, token, end_of_place(self.source, token))
        return self.spelled(token, tree.last) if tree else self.word_at(token)

    def of_swap(self, statement: Statement):
        first, second = self.place_of(statement, 0), self.place_of(statement, 1)
        if first is None or second is None:
            return {}
        return {'left_name': self.spelled_place(first), 'left_type': self.type_at(first),
                'right_name': self.spelled_place(second), 'right_type': self.type_at(second)}

    # ---- changes and calls

    def of_16(self):
        statement = self.statement()
        if statement is None:
            return {}
        if statement.form in ('call', 'uncall'):
            index = self.index_of(self.token)
            return {'receiver': self.word, 'index': index, 'fresh': self.fresh('i')} if index else {}
        return self.of_own_value(statement) if statement.form == 'update' else self.of_own_index(statement)

    def of_own_value(self, statement: Statement):
        """An update that reads what it changes."""
        name, end = self.word_at(statement.first), end_of_place(self.source, statement.first)
        place, by = self.spelled_place(statement.first), self.word_at(end + 1)
        inside = expression(self.source, statement.first + 2, end - 1) if end > statement.first else None
        if inside and any(each.word == name for each in inside.walk()):
            return {'indexed': name, 'index': self.index_of(statement.first), 'fresh': self.fresh('i')}
        value = expression(self.source, end + 2, statement.last)
        if value is None:
            return {}
        written = self.spelled(value.first, value.last)
        if not any(self.is_same(each, statement.first) for each in value.walk()):
            return {'array': name, 'value': written, 'changed': place, 'by': by, 'fresh': self.fresh('v')}
        if by != '+=' and self.is_same(value, statement.first):
            return {'cleared': place}
        part = f'({written})' if value.word in LEVEL and not value.is_closed else written
        return {'name': place, 'new': f'{place} {by[0]} {part}', 'fresh': self.fresh('y')}

    def of_own_index(self, statement: Statement):
        """An exchange, a `copy`, a `new` or one of their inverses, with what it changes in an index or in the length."""
        places = [self.place_of(statement, -1)] + ([self.place_of(statement, 0)] if statement.form == 'swap' else [])
        changed = [self.word_at(each) for each in places if each is not None]
        for whole in self.expressions(statement):
            name = next((each.word for each in whole.walk() if each.word in changed), '')
            if name and self.word_at(whole.first - 1) == '[':
                form = '<=>' if statement.form == 'swap' else statement.form
                if self.slot_of(statement, whole) == 'length':
                    return {'measured': name, 'form': form}
                return {'moved': name, 'form': form, 'index': self.spelled(whole.first, whole.last), 'fresh': self.fresh('i')}
        return {}

    def is_same(self, tree: Tree, place: int) -> bool:
        """Whether an operand is the place that begins at a token, word by word."""
        ends = [end_of_place(self.source, each) for each in (tree.at, place)]
        words = [[self.word_at(each) for each in range(first, last + 1)] for first, last in ((tree.at, ends[0]), (place, ends[1]))]
        return tree.word not in LEVEL and words[0] == words[1]

    def index_of(self, token: int) -> str:
        end = end_of_place(self.source, token)
        return self.spelled(token + 2, end - 1) if end > token + 2 else ''

    def fresh(self, name: str) -> str:
        """A name that the source does not have."""
        words = {each.text for each in self.source.tokens}
        return next((each for each in (name, name + '1', name + '2') if each not in words), '')

    def of_17(self):
        statement = self.statement()
        if statement is None:
            return {}
        if statement.form in ('copy', 'uncopy'):
            return {'form': statement.form, 'name': self.word_at(self.variables(statement)[0])}
        same = [each for each in self.arguments(statement) if self.word_at(each) == self.word]
        return {'argument' if len(same) > 1 else 'receiver': self.word}

    def of_18(self):
        statement = self.statement()
        if statement is None or self.called(statement) is None:
            return {}
        fields = [each for each in self.arguments(statement) if getattr(self.declared(each), 'kind', '') == 'field']
        return {'name': self.word_at(fields[0]), 'method': self.called(statement).name} if fields else {}

    def of_19(self):
        statement = self.statement()
        method = self.called(statement) if statement else None
        if method is None:
            return {}
        count = len(method.parameters)
        wanted = f'{count} argument{"" if count == 1 else "s"}' if count else 'no arguments'
        return {'method': method.name, 'wanted': wanted, 'given': str(len(self.arguments(statement))),
                'parameters': ', '.join(f'`{each.type} {each.name}`' for each in method.parameters)}

    def of_20(self):
        variable = self.declared(self.token)
        return {'name': self.word, 'type': variable.type if variable else ''}

    def of_21(self):
        return {OPERATORS[self.word]: self.word} if self.word in OPERATORS else {}

    def of_22(self):
        statement = self.statement()
        if not statement or not statement.variable:
            return {}
        name, closing = statement.variable.name, statement.closing_at
        words = [self.word_at(at) for at in range(closing + 1, statement.last + 1)] if closing is not None else []
        is_field = self.owner is not None and any(each.name == name for each in self.names.all_fields(self.owner))
        if name in words and not is_field:
            return {'final': name, 'line': self.line_of(closing)}
        return {'name': name}

    def of_23(self):
        statement = self.statement()
        if statement and statement.form in ('copy', 'uncopy'):
            return {'form': statement.form, 'written': self.word_at(statement.first + 1)}
        return {'receiver': self.word, 'type': self.type_at(self.token) if self.token is not None else ''}


def end_of_place(source: Source, token: int) -> int:
    """The last token of a place that begins here."""
    depth, at = 0, token
    while at + 1 < len(source.tokens):
        word = source.tokens[at + 1].text
        if depth == 0 and word != '[':
            break
        depth += (word == '[') - (word == ']')
        at += 1
        if depth == 0:
            break
    return at
