"""Mistakes in classes, fields, methods and their heads."""
from typing import Optional

from .grammar import NAME
from .spelling import ALONE, CONSTRUCTORS, IMPORTS, STRUCTURES, Edit, Hint, foreign_word
from .syntax_place import Place, near_keyword, of_comment
from .tokens import KEYWORDS

DECLARING = ('class', 'field', 'method', 'parameter', 'local', 'construct')
DECLARED = {'construct': 'local'}
HEADS_OF_OTHERS = ('public', 'private', 'protected', 'static', 'function', 'func', 'fn', 'def', 'void', 'proc', 'procedure', 'sub')
CONSTANTS = ('const', 'final', 'readonly', 'constexpr', 'immutable')
WIDTHS = ('unsigned', 'signed', 'short', 'long')
POINTERS = 'There are no pointers: a variable of a class refers to its object, and an `int` is a number.'


def of_first_word(it: Place) -> Optional[Hint]:
    if it.at or it.inside:
        return None
    comment = of_comment(it)
    if comment:
        return comment
    if it.word() in IMPORTS:
        return Hint(ALONE.replace('{word}', it.word()), 'Leave the line out.')
    if near_keyword(it.word()) == 'class':
        return Hint(f'There is no `{it.word()}`. Did you mean `class`?', '', it.changes(0, 0, 'class'), 'Write `class`')
    if it.word() in STRUCTURES and it.kind(1) == 'name':
        return Hint(f'A source must begin with a class, and there is no `{it.word()}`.', 'Write `class`, the fields, and the methods that '
                    'use them.', it.changes(0, 0, 'class'), 'Write `class`')
    if it.word() in HEADS_OF_OTHERS:
        return Hint(f'A source must begin with a class, and there is no `{it.word()}` outside of one.',
                    'Write `class Program`, its fields, and then `method main()`.')
    if it.kind(1) in ('name', 'keyword') and foreign_word(it.word()):
        return foreign_word(it.word(), it.word(1))
    return Hint(f'A source must begin with a class, not with `{it.word()}`: fields and methods are always those of a class.',
                'Write `class Program` in front.', it.puts('class Program\n'), 'Put a class in front')


def of_keyword_as_name(it: Place) -> Optional[Hint]:
    if it.word() not in KEYWORDS or not it.expects(NAME) or it.is_value() or it.word(-1) == 'destruct':
        return None
    is_over = it.is_new_line() or it.word() in ('class', 'method')
    if it.inside == 'local' and it.kind(-1) == 'name' and it.word(-2) in ('local', 'delocal') and is_over:
        return None
    if it.inside == 'field' and it.word() == 'method' and not it.is_new_line() and (it.word(-1) == 'int' or it.has_class(it.word(-1))):
        return Hint(f'A method must have no type, and so no `{it.word(-1)}` before `method`: it has no result.',
                    'Let it add what it computes to a parameter.', (Edit(it.begin(-1), it.begin(), ''),), f'Remove `{it.word(-1)}`')
    if it.inside == 'parameter' and it.word() == 'int' and it.kind(-1) == 'name':
        return Hint(f'A parameter must begin with its type: there is no `{it.word(-1)}`.', 'Leave it out.', (Edit(it.begin(-1), it.begin(), ''),),
                    f'Remove `{it.word(-1)}`')
    if it.word(-1) == 'method' and it.word() == 'int':
        return Hint('A method must have no type: it has no result.', 'Let it add what it computes to a parameter.',
                    (Edit(it.begin(), it.begin(1), ''),), 'Remove the type')
    is_modified = it.inside == 'field' and it.kind(-1) == 'name' and not it.is_new_line() and not it.has_class(it.word(-1))
    if is_modified and it.word() in ('int', 'method', 'class'):
        return Hint(f'There is no `{it.word(-1)}` before `{it.word()}`.', 'Leave it out.', (Edit(it.begin(-1), it.begin(), ''),),
                    f'Remove `{it.word(-1)}`')
    is_broken = it.is_new_line() or it.word() in ('class', 'method')
    if it.inside in DECLARING and not it.is_statement() and it.kind(-1) != 'name' and is_broken:
        return Hint(f'A {DECLARED.get(it.inside, it.inside)} must have a name: there is none before this `{it.word()}`.')
    is_declared = it.inside in DECLARING or it.inside in ('call', 'uncall', 'arguments')
    if it.inside == 'arguments' and it.word() in ('nil', 'int', 'call', 'uncall', 'new') and not it.is_new_line() or it.is_statement():
        return None
    return Hint(f'`{it.word()}` is a word of the language, so it must not be a name.', 'Take another name.') if is_declared else None


def of_field(it: Place) -> Optional[Hint]:
    """Fields with lengths, lists or values, and what is after the methods."""
    is_behind_field = it.expects('class', 'method', 'int') and it.kind(-1) == 'name'
    name = it.word(-1)
    if is_behind_field and it.word() == '(' and near_keyword(it.word(-2)) == 'method':
        return Hint(f'There is no `{it.word(-2)}`. Did you mean `method`?', '', it.changes(-2, -2, 'method'), 'Write `method`')
    if it.expects('inherits') and it.word() == '(' and it.word(1) == ')':
        return Hint('No parentheses must follow the name of a class.', 'Leave them out.', it.changes(0, 1, ''), 'Remove `()`')
    if it.expects('inherits') and it.word() in ('<', '('):
        edits = it.changes(0, 2, f' inherits {it.word(1)}') if it.word(2) == ')' else it.changes(0, 0, 'inherits')
        return Hint('A class names its parent by `inherits`.', f'Write `inherits {it.word(1)}`.', edits, 'Write `inherits`')
    if it.word() == '(' and (is_behind_field or it.inside == 'field'):
        return of_head_without_method(it)
    if it.word() == '<' and it.expects(NAME, '['):
        return Hint(f'There are no types with parameters, as `{name}<..>`.', f'Write `{it.word(1)}`, or `{it.word(1)}[]` for a row of objects.')
    if is_behind_field and it.word() == '[':
        return Hint(f'`{name}` must have its brackets after the type, and no length: `{it.word(-2)}[] {name}`.',
                    f'The array is made by `new {it.word(-2)}[5] {name}`.')
    if is_behind_field and it.word() == ',':
        return Hint('Each field must have its own type; there are no lists of names.', f'Write `{it.word(-2)}` in front of each name.',
                    it.changes(0, 0, f' {it.word(-2)}'), 'Write the type again')
    if is_behind_field and it.word() in ('=', '+=', '-=', '^='):
        kind = it.word(-2)
        way = f'`{name} += ..`' if kind == 'int' else f'`new {kind} {name}`' if kind != ']' else f'`new {it.word(-4)}[5] {name}`'
        return Hint(f'The field `{name}` must not have a value here: fields begin as 0 or nil, or by the input.', f'Write {way} in a method.')
    return None


def of_digit_first(it: Place) -> Optional[Hint]:
    """`int 2nd`, where a name is declared."""
    if it.kind() != 'number' or not it.expects(NAME) or it.is_value() or it.inside not in DECLARING:
        return None
    name = it.written(0, 1) if it.kind(1) == 'name' and it.is_joined(0) else it.word()
    return Hint(f'A name must begin with a letter: `{name}` begins with a digit.', 'Take another name.')


def of_hyphen(it: Place) -> Optional[Hint]:
    """`int my-count`, where a name is declared, and later where it is changed."""
    is_name = it.word() == '-' and it.kind(-1) == 'name' and it.kind(1) == 'name' and it.is_joined(-1) and it.is_joined(0)
    name = f'{it.word(-1)}_{it.word(1)}'
    is_declared = it.expects('class', 'int') or it.expects('inherits') or it.expected <= {'=', '(', ',', ')'}
    if not is_name or not (is_declared or it.is_behind_place() and it.declared(name)):
        return None
    return Hint(f'A name must not have a `-`: `{name}`.', 'Use letters, digits and `_`.', it.changes(-1, 1, name), f'Write `{name}`')


def of_head_without_method(it: Place) -> Hint:
    """`int f(..)`, `f(..)` and a constructor."""
    name, owner = it.word(-1), class_above(it)
    if name == owner or it.has_class(name) or owner and 'constructor' in (name, it.word(-2)):
        made = name if it.has_class(name) else owner
        return CONSTRUCTORS._replace(sentence=CONSTRUCTORS.sentence.replace('new C', f'new {made}'))
    first = -2 if it.word(-2) == 'int' or it.kind(-2) == 'name' and it.word(-3) in ('int', ')', 'class') or it.has_class(it.word(-2)) else -1
    return Hint(f'A method must begin with `method`, and has no type: `method {name}(..)`.', 'Let it add what it computes to a parameter.',
                (Edit(it.begin(first), it.begin(-1), 'method '),), 'Write `method`')


def class_above(it: Place) -> str:
    """The name of the last class that begins in front of the token."""
    return next((it.word(1 - back) for back in range(1, it.at + 1) if it.word(-back) == 'class'), '')


def of_extends(it: Place) -> Optional[Hint]:
    if it.inside == 'field' and it.word(-1) in ('extends', 'implements', 'is', 'of') and it.word(-3) == 'class':
        return Hint(f'A class names its parent by `inherits`, not by `{it.word(-1)}`.', '', it.changes(-1, -1, 'inherits'),
                    'Write `inherits`')
    return None


def of_modifier(it: Place) -> Optional[Hint]:
    """`public int x`, `void f()`, `def f()`."""
    words = [it.word(-2), it.word(-1), it.word()]
    found = next((word for word in words if word in HEADS_OF_OTHERS), '')
    is_in_fields = it.inside == 'field' or it.expects('class', 'method', 'int')
    if is_in_fields and it.word() == 'int' and it.word(-1) in CONSTANTS + WIDTHS:
        return of_kind_of_int(it)
    if not is_in_fields or not found:
        return None
    if it.word() == '(' or it.word(1) == '(' or it.word(-1) in HEADS_OF_OTHERS and it.word() != 'int':
        edits = it.changes(-1, -1, '') if it.word() == 'method' else ()
        return Hint(f'A method must begin with `method`, not with `{found}`.', 'Write `method NAME(..)`; a method has no result.', edits,
                    f'Remove `{found}`' if edits else '')
    return Hint(f'There is no `{found}`: fields are seen by the methods of their class, and methods can be called by all.',
                'Leave it out.')


def of_kind_of_int(it: Place) -> Hint:
    """`const int`, `unsigned int`."""
    edits, title = (Edit(it.begin(-1), it.begin(), ''),), f'Remove `{it.word(-1)}`'
    if it.word(-1) in WIDTHS:
        return Hint(f'There is no `{it.word(-1)} int`: every number is an `int` of 32 bits.', 'Leave it out.', edits, title)
    return Hint(f'There is no `{it.word(-1)}`: write the number itself, or keep it in a field that nothing changes.', '', edits, title)


def of_type(it: Place) -> Optional[Hint]:
    name = it.word(1) if it.kind(1) == 'name' else it.word(2) if it.kind(2) == 'name' else ''
    if it.word() in ('*', '&') and it.expects(NAME, '['):
        return Hint(POINTERS, 'Leave it out.', it.changes(0, 0, ''), f'Remove the `{it.word()}`')
    if it.kind() == 'number' and it.word(-1) == '[' and it.expected == {']'}:
        kind = it.word(-2)
        return Hint('A type must not have a length: it is given when the array is made.',
                    f'Write `{kind}[]`, and `new {kind}[{it.word()}] {name or "a"}` in a method.', it.changes(0, 0, ''), 'Remove the length')
    if it.word() == '[' and it.word(-1) == ']' and it.expects(NAME):
        return Hint('There must not be arrays of arrays.', 'Keep the rows one after the other in one array.')
    if it.inside == 'parameter' and it.expects(NAME) and it.word() in (',', ')'):
        return Hint(f'A parameter must have a type: `int {it.word(-1)}`.', '', it.changes(-1, -1, f'int {it.word(-1)}'), 'Write the type')
    if it.inside == 'parameters' and it.kind(-1) == 'name' and it.word() == '[':
        return Hint(f'`{it.word(-1)}` must have its brackets after the type: `{it.word(-2)}[] {it.word(-1)}`.')
    if it.inside == 'parameters' and it.kind(-1) == 'name' and (it.word() == 'int' or it.kind() == 'name'):
        return Hint(f'There must be a `,` between the parameters `{it.word(-1)}` and `{it.word(1)}`.' if it.kind(1) == 'name' else
                    'There must be a `,` between two parameters.', '', (Edit(it.end(-1), it.end(-1), ','),), 'Write `,`')
    if it.inside == 'parameters' and it.word() == '=':
        return Hint('A parameter must not have a value of its own: each call passes one.')
    return None


def of_method_head(it: Place) -> Optional[Hint]:
    if it.inside == 'method' and it.kind(-1) == 'name' and it.word(-2) != 'method' and it.word() == '(' and it.word(-3) == 'method':
        return Hint('A method must have no type: it has no result.', 'Let it add what it computes to a parameter.')
    if it.word(-1) == 'method' and it.word() == '<':
        return Hint('There are no types with parameters.', 'Write a method for each type.')
    if it.inside == 'parameters' and it.expected == {'('}:
        return Hint(f'The method `{it.word(-1)}` must have parentheses, also where it has no parameters.', '',
                    (Edit(it.end(-1), it.end(-1), '()'),), 'Write `()`')
    if it.inside == 'method' and it.word(-1) == ')' and it.is_statement() and it.word() in ('', 'method', 'class'):
        fix = 'Write `skip`.' + (' No method is inside another one.' if it.word() == 'method' else '')
        return Hint('A method must have at least one statement.', fix, (Edit(it.end(-1), it.end(-1), '\n  skip'),),
                    'Write `skip`')
    return None


def of_word_behind_statement(it: Place) -> Optional[Hint]:
    """After the last statement of a class comes a method or a class."""
    if it.inside in ('', 'class') and it.expects('class') and it.word():
        said = f'`{it.word()}` must be in a method, or declare one: a class has its fields first and then its methods.'
        return of_comment(it) or Hint(said)
    return None
