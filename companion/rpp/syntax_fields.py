"""Mistakes among the fields of a class: statements, names without a type, and names that are there twice; and `int` for a class."""
from typing import Optional

from .grammar import NAME
from .spelling import Edit, Hint, foreign_word
from .syntax_place import Place

BEGINNING = ('call', 'uncall', 'new', 'delete', 'if', 'from', 'local', 'construct', 'copy', 'uncopy', 'skip')
CHANGING = ('+=', '-=', '^=', '<=>', '=', '+', '-')
# So many tokens of an index are looked at for its end.
MOST_OF_INDEX = 40


def of_statement_among_fields(it: Place) -> Optional[Hint]:
    """A statement after a class begins, and before its first method."""
    name = it.word(-1)
    is_in_type = it.inside == 'field' and it.kind(-1) == 'name' and it.expects(NAME, '[')
    if it.expects('class', 'method', 'int') and it.word() in BEGINNING:
        return said_of_statement(it, 0, f'This `{it.word()}`')
    if is_in_type and it.word() == '::':
        return said_of_statement(it, -1, f'This call on `{name}`', f'write `call {name}::{it.word(1)}(..)`')
    if is_in_type and it.word() in CHANGING:
        return said_of_statement(it, -1, f'This change of `{name}`', '' if it.word() in CHANGING[:4] else f'write `{name} += ..`')
    if is_in_type and it.word() == '(' and it.has_method(name):
        return said_of_statement(it, -1, f'This call of `{name}`', f'write `call {name}(..)`')
    if is_in_type and it.word() == '(' and not it.has_class(name) and foreign_word(name):
        return foreign_word(name)
    if it.inside == 'field' and it.word(-1) == '[' and it.kind(-2) == 'name' and it.word(behind_index(it)) in CHANGING + ('::',):
        return said_of_statement(it, -2, f'This statement on `{it.word(-2)}[..]`')
    return None


def behind_index(it: Place) -> int:
    """How far ahead is the token that follows the index in which this token is."""
    depth = 1
    for ahead in range(0, MOST_OF_INDEX):
        depth += (it.word(ahead) == '[') - (it.word(ahead) == ']')
        if depth == 0:
            return ahead + 1
    return MOST_OF_INDEX


def said_of_statement(it: Place, first: int, what: str, way: str = '') -> Hint:
    """What is said of a statement that begins so many tokens from here, in no method."""
    sentence = f'{what} must be in a method: a class has only fields before its first `method`.'
    also = f', and {way}' if way else ''
    below = method_below(it)
    if below:
        return Hint(sentence, f'Put it into a method, such as `{below}`{also}.')
    head = 'method m()' if it.has_method('main') else 'method main()'
    return Hint(sentence, f'Write `{head}` in front{also}.', (Edit(it.begin(first), it.begin(first), f'{head}\n'),), f'Write `{head}`')


def method_below(it: Place) -> str:
    """The name of the next method of this class, or ''."""
    for at in range(it.at, len(it.tokens) - 1):
        word = it.tokens[at].text
        if word == 'class':
            return ''
        if word == 'method':
            return it.tokens[at + 1].text
    return ''


def of_int_as_class(it: Place) -> Optional[Hint]:
    """`inherits int`, `construct int x`, `call int::m()`."""
    if it.word() != 'int':
        return None
    if it.word(-1) == 'inherits':
        return Hint('`int` must not be a parent: it is no class.', 'Leave `inherits int` out, and declare an `int` field.',
                    (Edit(it.end(-2), it.end(), ''),), 'Remove `inherits int`')
    if it.word(-1) == 'construct':
        return Hint('An `int` is not made by `construct`: a number for the time of a block is a local.',
                    f'Write `local int {it.word(1)} = 0` .. `delocal int {it.word(1)} = 0`.')
    if it.word(-1) in ('call', 'uncall') and it.word(1) == '::':
        return Hint(f'`int` must not be called: only objects have methods, and `{it.word(-1)} x::{it.word(2)}(..)` names a variable.',
                    'Name a variable of a class.')
    return None


def of_name_twice(it: Place) -> Optional[Hint]:
    """`int int x`, `method method f()`, `class P P`, `int x x`, `method f g()`."""
    name, before = it.word(-1), it.word(-2)
    if it.word() in ('int', 'method', 'class') and it.word() == name and it.expects(NAME) and not it.is_value():
        return Hint(f'`{name}` must be there only once.', '', (Edit(it.begin(-1), it.begin(), ''),), f'Remove one `{name}`')
    if it.kind(-1) != 'name' or it.kind(-2) not in ('name', 'keyword'):
        return None
    is_last = it.kind(1) != 'name' and it.word(1) != '[' or b'\n' in it.text[it.end():it.begin(1)]
    is_type = it.inside == 'field' and it.word() == 'int' and not it.is_new_line() and it.expects(NAME, '[')
    if is_type and is_last and not it.has_class(name):
        return Hint(f'A type must be in front of its name: `int {name}`.', '', it.changes(-1, 0, f'int {name}'), f'Write `int {name}`')
    if before == 'method' and it.kind() == 'name' and it.expected == {'('} and it.word(1) == '(':
        return of_two_names_of_method(it)
    is_left = it.inside == 'field' and it.expects(NAME, '[') and it.word() in ('int', 'method', 'class', '')
    if not is_left:
        return None
    if before == name and it.kind(-2) == 'name' and (it.word(-3) in ('class', 'int', ']') or it.has_class(it.word(-3))):
        return Hint(f'The name `{name}` must be there only once.', '', (Edit(it.end(-2), it.end(-1), ''),), f'Remove one `{name}`')
    return of_field_without_type(it) if it.is_new_line() or not it.word() else None


def of_two_names_of_method(it: Place) -> Hint:
    """`method f g()`, at the second name."""
    first, second = it.word(-1), it.word()
    remove = (Edit(it.begin(-1), it.begin(), ''),)
    if first == second:
        return Hint(f'The name `{first}` must be there only once.', '', remove, f'Remove one `{first}`')
    if it.has_class(first):
        return Hint('A method must have no type: it has no result.', 'Let it add what it computes to a parameter.', remove, f'Remove `{first}`')
    joined = f'{first}_{second}'
    return Hint(f'A method must have one name: `{first}` and `{second}` are two.', f'Leave one out, or write `{joined}`.',
                it.changes(-1, 0, joined), f'Write `{joined}`')


def of_field_without_type(it: Place) -> Hint:
    """A name among the fields after which no other name follows."""
    name, is_in_line = it.word(-1), b'\n' not in it.text[it.end(-2):it.begin(-1)]
    if it.has_class(name):
        return Hint(f'A field must have a name: there is none after its type `{name}`.', f'Write `{name} x`.')
    edits = (Edit(it.begin(-1), it.begin(-1), 'int '),)
    if is_in_line and it.kind(-2) == 'name' and it.word(-3) == 'int':
        return Hint('Each field must have its own type; there are no lists of names.', 'Write `int` in front of each name.', edits,
                    'Write the type again')
    return Hint(f'The field `{name}` must have a type, as `int {name}`.', 'Write the type in front of the name.', edits, f'Write `int {name}`')
