"""Mistakes in what changes a variable, and words of other languages at the begin of a statement."""
from typing import Optional

from .spelling import ALONE, LISTS, STRUCTURES, Edit, Hint, foreign_method, foreign_word
from .syntax_declarations import of_head_without_method
from .syntax_place import Place, near_keyword
from .tokens import KEYWORDS, OPERATORS, UPDATES

LIBRARIES = ('std', 'core', 'math', 'Math', 'System')
NUMBERS = ('byte', 'short', 'long', 'char', 'float', 'double', 'unsigned', 'bool', 'i32', 'u32', 'i64', 'u64', 'usize', 'Integer')
PRODUCTS = {'*': 'A product', '/': 'A quotient', '%': 'A remainder'}
OPERATOR_WORDS = {'and': '&&', 'or': '||', 'xor': '^', 'is': '=', 'eq': '=', 'not': '', 'mod': '', 'div': '', 'in': '', 'as': '',
                  'instanceof': ''}


def of_keyword_as_variable(it: Place) -> Optional[Hint]:
    if it.word() in KEYWORDS and it.word(1) in UPDATES | {'<=>', '='} and it.is_statement():
        return Hint(f'`{it.word()}` is a word of the language, so it must not be the name of a variable.', 'Take another name.')
    return None


def of_update(it: Place) -> Optional[Hint]:
    """What is after a variable that begins a statement."""
    if not it.is_behind_place():
        return None
    name = it.written(-1, -1) if it.word(-1) != ']' else 'the element'
    if it.word() in OPERATOR_WORDS and it.word(1) == '=' and it.word() == 'xor':
        return Hint('There is no `xor=`: write `^=`.', '', it.changes(0, 1, '^='), 'Write `^=`')
    if it.word() in OPERATOR_WORDS and it.word(1) == '=':
        return Hint(f'There is no `{it.word()}=`.', 'The changes are `+=`, `-=`, `^=` and `<=>`.')
    if it.word() == '=' and it.word(1) == 'nil':
        return Hint(f'`{name}` must not be set to nil, which would lose its reference.',
                    f'End the object by `delete C {name}`, or the reference by `uncopy C y {name}`, or move it by `<=>`.')
    if it.word() == '=' and it.word(1) == '=':
        return Hint('A statement must change something: `=` only compares.', f'Write `{name} += ..`, or `if {name} = .. then`.')
    if it.word() == '=' and it.word(1) in ('+', '-') and it.begin(1) == it.end():
        return Hint(f'The signs are in the other order: `{it.word(1)}=`.', '', it.changes(0, 1, f'{it.word(1)}='),
                    f'Write `{it.word(1)}=`')
    if it.word() == '=' and it.word(1) == 'new':
        made = f'{it.word(2)}[{it.word(4)}]' if it.word(3) == '[' else it.word(2)
        return Hint(f'`new` is a statement and has no value: `new {made} {name}` fills `{name}`, which must be nil before.',
                    f'Write `new {made} {name}`.')
    if it.word() == '=' and it.word(1) == name and it.word(2) in ('+', '-', '^'):
        return Hint(f'`{name}` must be changed by `{it.word(2)}=`: an assignment by `=` would lose its old value.', '',
                    it.changes(0, 2, f'{it.word(2)}='), f'Write `{it.word(2)}=`')
    if it.word() == '=' and it.word(1) == '[':
        return LISTS
    if it.word() == '=' and it.kind(1) == 'name' and it.word(2) == '=':
        return Hint('A statement must change one place: there are no chains of `=`.', f'Write a statement for each, as `{name} += ..`.')
    if it.word() == '=':
        return Hint(f'`{name}` must be changed by `+=`, `-=` or `^=`: an assignment by `=` would lose its old value.',
                    f'`{name} += ..` sets it where it is 0; `{name} <=> y` exchanges two variables.', it.changes(0, 0, '+='), 'Write `+=`')
    if it.word() in ('+', '-') and it.word(1) == it.word():
        return Hint(f'There is no `{it.word()}{it.word()}`: write `{name} {it.word()}= 1`.', '', it.changes(0, 1, f' {it.word()}= 1'),
                    f'Write `{it.word()}= 1`')
    return of_other_update(it, name) or of_only_computed(it, name)


def of_only_computed(it: Place, name: str) -> Optional[Hint]:
    """`x + 1`, `x != y` and `x[1][2]`, which are no changes."""
    if it.word() == '[':
        return Hint('Only a variable can be indexed: there are no arrays of arrays.', 'Keep the rows one after the other in one array.')
    if it.word() == '<' and it.word(1) == '-' and it.is_joined():
        return Hint('There is no `<-`, which would lose the old value: `+=` sets a variable that is 0.', '', it.changes(0, 1, '+='),
                    'Write `+=`')
    if it.word() == '!=':
        return Hint('`!=` only compares: the exclusive or is written `^=`.', '', it.changes(0, 0, '^='), 'Write `^=`')
    if it.word() in ('+', '-', '^'):
        return Hint(f'A statement must change something: `{it.word()}` only computes a value.', f'Write `{name} {it.word()}= ..`.',
                    it.changes(0, 0, f'{it.word()}='), f'Write `{it.word()}=`')
    if it.word() in OPERATORS:
        return Hint(f'A statement must change something: `{it.word()}` only computes a value.', f'Write `{name} += ..`, or `if` for a test.')
    return None


def of_comment_as_quotient(it: Place) -> Optional[Hint]:
    """`x //= 2`."""
    between = it.text[it.end(-1):it.begin()].decode('latin-1') if it.at else ''
    if it.is_behind_place() and between.strip().startswith('//='):
        return Hint('There is no `//=`: `//` begins a comment, so nothing is left that changes `' + it.word(-1) + '`.',
                    'A quotient is computed into another variable. docs/learn/from-janus.md has a method for it.')
    return None


def of_arrow(it: Place) -> Optional[Hint]:
    """`c->m()`, `->` in front of a type, and `x <-> y`."""
    if it.written(0, 2).replace(' ', '') == '<->' and it.is_joined(0) and it.is_joined(1):
        return Hint('Two variables are exchanged by `<=>`, not by `<->`.', '', it.changes(0, 2, '<=>'), 'Write `<=>`')
    if it.word() == '-' and it.word(1) == '>' and it.is_joined() and it.is_statement() and it.word(-1) == ')':
        return Hint('A method must have no type: it has no result.', 'Let it add what it computes to a parameter.',
                    (Edit(it.end(-1), it.end(2), ''),), 'Remove the type')
    if it.word() == '-' and it.word(1) == '>' and it.is_joined() and it.is_behind_place() and it.word(3) == '(':
        return Hint(f'There is no `->`: a call on an object is `call {it.word(-1)}::{it.word(2)}(..)`.', '',
                    (Edit(it.begin(-1), it.begin(-1), 'call '), *it.changes(0, 1, '::')), 'Write `call` and `::`')
    first = 0 if it.word() == '-' else -1
    if it.word(first) == '-' and it.word(first + 1) == '>' and it.is_joined(first) and it.kind(first + 2) == 'name':
        return Hint('There is no `->`, and fields of other objects are not seen.',
                    'Let a method of its class change the field, or add it to a parameter.')
    return None


def of_other_update(it: Place, name: str) -> Optional[Hint]:
    if it.word() in PRODUCTS and it.word(1) == '=':
        return Hint(f'There is no `{it.word()}=`: a factor cannot be undone by itself, since 0 would lose the number.',
                    f'{PRODUCTS[it.word()]} is computed into another variable. docs/learn/from-janus.md has a method for it.')
    if it.word() in ('*', '/') and it.word(1) == it.word():
        return Hint(f'There is no `{it.word()}{it.word()}=`: a power cannot be undone by itself.', 'It is computed into another variable.')
    if it.word() in ('&', '|', '&&', '||') and it.word(1) == '=':
        return Hint(f'There is no `{it.word()}=`, which would lose bits.', 'The changes are `+=`, `-=`, `^=` and `<=>`.')
    if it.word() in ('<', '>') and it.word(1) in ('<', '>', '<=', '>='):
        pair = it.word() + it.word(1)
        if pair == '<>':
            return Hint('The exchange is written `<=>`.', '', it.changes(0, 1, '<=>'), 'Write `<=>`')
        return Hint('There are no shifts.', f'A doubling is `y += {name} + {name}` of another variable; halving needs a loop.')
    if it.word() == '::' and it.word(-1) in ('this', 'self'):
        return Hint(f'There is no `{it.word(-1)}`: a field of the same object is named by itself, and `call m(..)` calls a method of it.',
                    '', it.changes(-1, 0, '' if it.word(2) != '(' else 'call '), f'Remove `{it.word(-1)}::`')
    if it.word() == '::' and it.word(-1) in LIBRARIES:
        return Hint(ALONE.replace('{word}', it.word(-1)), 'Write a method for what you need of it.')
    if it.word() == '::' and it.word(2) != '(':
        of_which = f', and `{it.word(1)}` is one of `{it.word(-1)}`' if it.has_field(it.word(1)) else f', as by `{it.word(-1)}::`'
        return Hint(f'A field of another object must not be named{of_which}.',
                    'Let a method of its class change it, or add it to a parameter.')
    if it.word() == '::' and it.kind(-1) == 'name':
        return Hint(f'A call must begin with `call` or `uncall`: `call {it.word(-1)}::{it.word(1)}(..)`.',
                    '', (Edit(it.begin(-1), it.begin(-1), 'call '),), 'Write `call`')
    return None


def of_call_without_word(it: Place) -> Optional[Hint]:
    """`m(x)`, and words of other languages with parentheses."""
    if not it.is_behind_place() or it.word() != '(' or it.kind(-1) != 'name':
        return None
    if it.kind(-2) == 'name' and it.has_class(it.word(-2)) or it.has_class(it.word(-1)):
        return of_head_without_method(it)
    if it.word(-1) == 'super':
        return Hint('There is no `super`: a method of the parent that no other one replaces is called by its name.')
    foreign = of_foreign_word(it.word(-1), it) or (None if it.has_method(it.word(-1)) else foreign_method(it.word(-1)))
    near = near_keyword(it.word(-2)) if it.kind(-2) == 'name' else near_keyword(it.word(-1))
    if foreign or near:
        at = -2 if it.kind(-2) == 'name' else -1
        return foreign or Hint(f'There is no `{it.word(at)}`. Did you mean `{near}`?', '', it.changes(at, at, near), f'Write `{near}`')
    return Hint(f'A call must begin with `call` or `uncall`: `call {it.word(-1)}(..)`.', 'It has no value: what a method computes, it '
                'adds to an argument or a field.', (Edit(it.begin(-1), it.begin(-1), 'call '),), 'Write `call`')


def of_word_at_begin(it: Place) -> Optional[Hint]:
    """A name that begins a statement and is no variable: a word of another language, or one that is written otherwise here."""
    if not it.is_behind_place() or it.kind(-1) != 'name':
        return None
    word = it.word(-1)
    if it.kind(-2) == 'number' and it.begin(-1) == it.end(-2):
        return Hint(f'A number must be decimal: `{it.word(-2)}{word}` is none.', 'Write its decimal digits.')
    foreign = of_foreign_word(word, it) or (of_foreign_word(it.word(-2), it) if it.kind(-2) == 'name' else None)
    if foreign and word in STRUCTURES and it.kind() == 'name':
        return foreign._replace(edits=it.changes(-1, -1, 'class'), title='Write `class`')
    if foreign:
        return foreign
    near = near_keyword(word)
    if near:
        return Hint(f'There is no `{word}`. Did you mean `{near}`?', '', it.changes(-1, -1, near), f'Write `{near}`')
    if it.kind(-2) == 'name' and near_keyword(it.word(-2)):
        near = near_keyword(it.word(-2))
        return Hint(f'There is no `{it.word(-2)}`. Did you mean `{near}`?', '', it.changes(-2, -2, near), f'Write `{near}`')
    if it.word() == 'int' and not it.is_new_line():
        name = it.word(1) if it.kind(1) == 'name' else 'x'
        return Hint(f'There is no `{word}`: a variable of a method is `local int {name} = ..` .. `delocal int {name} = ..`.',
                    'Or declare it as a field, before the methods.')
    if it.kind() == 'name' and word[0].isupper():
        return Hint(f'A variable must be declared by `local {word} {it.word()} = nil` .. `delocal {word} {it.word()} = nil`, or as a '
                    'field.')
    if it.word() == ',' and [it.word(at) for at in range(2, 6)] == ['=', it.word(1), ',', word]:
        return Hint('The exchange is written `<=>`, and there are no lists.', '', it.changes(0, 5, f' <=> {it.word(1)}'), 'Write `<=>`')
    if it.word() == ',':
        return Hint('A statement must change one variable: there are no lists.', 'Write a statement for each.')
    if it.kind() in ('name', 'number') and not it.is_new_line():
        return Hint(f'A statement must not be `{word} {it.word()}`: a change is `{word} += ..`, and a call is `call {word}(..)`.')
    return None


def of_cast(it: Place) -> Optional[Hint]:
    """`(long) y`."""
    is_cast = it.is_behind_place() and [it.word(-2), it.word(-4)] == [')', '('] and (it.word(-3) in NUMBERS or it.has_class(it.word(-3)))
    if not is_cast or b'\n' in it.text[it.end(-2):it.begin(-1)]:
        return None
    return Hint('There are no casts: every number is an `int`.', 'Leave it out.', (Edit(it.begin(-4), it.begin(-1), ''),), 'Remove the cast')


def of_foreign_word(word: str, it: Place) -> Optional[Hint]:
    """A word of other languages, and what serves in its place."""
    ahead = 1 if it.word() in ('mut', 'int') else 0
    found = foreign_word(word, it.word(ahead) if it.kind(ahead) == 'name' else 'x', it.has_method(word))
    return found or (of_operator_word(word) if word in OPERATOR_WORDS else None)


def of_operator_name(it: Place) -> Optional[Hint]:
    """A word in the place of an operator."""
    is_behind_value = OPERATORS <= it.expected
    at = next((at for at in (0, -1) if it.kind(at) == 'name' and it.word(at) in OPERATOR_WORDS), None)
    if at is None or not (is_behind_value or at and it.expects('[')):
        return None
    if it.word(at) == 'as' and it.kind(at + 1) not in ('name', 'keyword'):
        return None
    sign = OPERATOR_WORDS[it.word(at)]
    edits = it.changes(at, at, sign) if sign else ()
    return of_operator_word(it.word(at))._replace(edits=edits, title=f'Write `{sign}`' if sign else '')


def of_operator_word(word: str) -> Hint:
    if OPERATOR_WORDS[word]:
        return Hint(f'There is no `{word}`: write `{OPERATOR_WORDS[word]}`.')
    if word == 'in':
        return Hint('There is no `in`: a condition compares two values, and a loop looks for an element.')
    if word == 'as':
        return Hint('There is no `as`: every number is an `int`.', 'Leave it out.')
    if word == 'instanceof':
        return Hint('There is no `instanceof`: a call runs the method of the class that the object has.')
    if word == 'not':
        return Hint('There is no `not`: write the opposite comparison, as `x = 0` or `x >= y`.')
    return Hint(f'There is no `{word}`: a quotient or remainder is computed by a method, and `x & 7` is the remainder of x by 8.')
