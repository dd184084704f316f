"""Mistakes in calls, objects, arrays and locals."""
from typing import Optional

from .grammar import NAME
from .spelling import Edit, Hint
from .syntax_place import Place
from .tokens import OPERATORS, UPDATES

BY_REFERENCE = ('mut', 'ref', 'out', 'inout', 'var')


def of_argument(it: Place) -> Optional[Hint]:
    if it.inside != 'arguments':
        return None
    local = 'Put it into a local around the call: `local int v = ..` .. `delocal int v = ..`.'
    if not_called(it):
        return not_called(it)
    if it.word() in ('&', '*') and it.kind(1) == 'name' and it.word(-1) in ('(', ',') or it.kind() == 'name' and it.word(-1) in BY_REFERENCE:
        return of_argument_by_reference(it)
    if it.word() == 'int' or it.kind() == 'name' and it.kind(-1) == 'name' and it.has_class(it.word(-1)):
        return Hint('An argument must be a variable without its type.', 'Leave the type out.')
    if it.kind() == 'name' and it.kind(-1) == 'name':
        return Hint(f'There must be a `,` between `{it.word(-1)}` and `{it.word()}`.', '', (Edit(it.end(-1), it.end(-1), ','),), 'Write `,`')
    if it.word() == '[':
        name = it.word(-1)
        return Hint(f'An argument must be a variable, not an element: `{name}[..]` cannot move into the call.',
                    f'Swap it into a local around the call: `local int v = 0`, `v <=> {name}[..]`, the call, and back by the same.')
    if it.word() == 'nil':
        return Hint('An argument must be a variable, not `nil`.', 'Pass a local that begins as `nil`.')
    if it.word() in ('call', 'new'):
        return Hint(f'An argument must be a variable: `{it.word()}` has no value.', local)
    if it.kind() == 'number' or it.word() in ('-', '('):
        return Hint(f'An argument must be a variable, not `{it.word()}`.', local)
    if it.word() == '=' and it.kind(-1) == 'name' and it.word(-2) in ('(', ','):
        return Hint(f'An argument must be a variable without the name `{it.word(-1)}` of the parameter: the order of arguments counts.',
                    f'Leave `{it.word(-1)} =` out.', (Edit(it.begin(-1), it.begin(1), ''),), f'Remove `{it.word(-1)} =`')
    if it.word() in UPDATES | {'<=>'}:
        return Hint(f'An argument must be a variable, and `{it.word()}` makes it a change.', 'Write the change as a statement before the call.')
    if it.word() in OPERATORS:
        return Hint(f'An argument must be a variable, not an expression with `{it.word()}`.', local)
    if it.word() == '::':
        return Hint('An argument must be a variable: fields of other objects are not seen.')
    if it.word() == ')' and it.word(-1) == ',':
        return Hint('There must be a variable after the `,`.', 'Leave it out.', it.changes(-1, -1, ''), 'Remove the `,`')
    return None


def not_called(it: Place) -> Optional[Hint]:
    """What follows the name of a method instead of the parentheses."""
    if it.expected == {'('}:
        if it.word() == '::':
            return Hint(f'A call must name one object: `{it.word(-1)}` must be a method of `{it.word(-3)}`, whose fields are not seen here.',
                        f'Let a method of `{it.word(-3)}` make the call.')
        if it.expects('('):
            named = it.written(-3, -1) if it.word(-2) == '::' else it.word(-1)
            return Hint(f'A call must have parentheses: `call {named}()`.', '', (Edit(it.end(-1), it.end(-1), '()'),), 'Write `()`')
    if it.expects('(') and it.kind() == 'name' and it.kind(-1) == 'name' and it.word(1) == '(' and not it.is_new_line():
        called = f'{it.word(-1)}::{it.word()}'
        return Hint(f'A call on an object must have `::`: `call {called}(..)`.', '', it.changes(-1, 0, called), f'Write `{called}`')
    if it.expects('(') and it.kind() == 'name' and it.kind(-1) == 'name' and not it.is_new_line():
        is_on = it.word() in ('on', 'of') and it.kind(1) == 'name'
        called = f'{it.word(1)}::{it.word(-1)}()' if is_on else f'{it.word(-1)}({it.word()})'
        return Hint(f'A call must have parentheses: `call {called}`.', '', it.changes(-1, 1 if is_on else 0, called), f'Write `{called}`')
    return None


def of_argument_by_reference(it: Place) -> Hint:
    """`&x`, `&mut x`, `mut x`, `ref x`."""
    first, last = (0, 1 if it.word(1) in BY_REFERENCE else 0) if it.kind() != 'name' else (-1, -1)
    edits = (Edit(it.begin(first), it.begin(last + 1), ''),)
    return Hint(f'There is no `{it.written(first, last)}` before an argument: the value of `{it.word(last + 1)}` moves into the call and back, '
                'so a method can change it.', 'Leave it out.', edits, f'Remove `{it.written(first, last)}`')


def of_call_parentheses(it: Place) -> Optional[Hint]:
    """A call without parentheses, or on what is no variable."""
    if it.inside in ('call', 'uncall', 'arguments') and it.expects('(', '::') and it.kind(-1) == 'name':
        return Hint(f'A call must have parentheses: `{it.inside if it.inside != "arguments" else "call"} {it.word(-1)}()`.', '',
                    (Edit(it.end(-1), it.end(-1), '()'),), 'Write `()`')
    if it.inside in ('call', 'uncall') and it.expected == {NAME}:
        return Hint('A call must name a method: `call m(..)`, or `call x::m(..)` of another object.')
    return None


def of_new(it: Place) -> Optional[Hint]:
    opened = it.opened('new', 'delete')
    if opened is None or it.opened('local', 'if', 'from') and it.opened('local', 'if', 'from').first > opened.first:
        return None
    word, made = it.tokens[opened.first].text, it.tokens[opened.first + 1].text if opened.first + 1 < len(it.tokens) else 'C'
    if it.word() == '(' and it.expects(NAME):
        return Hint(f'`{word}` must have no arguments: `{word} {made} x`, and then a call sets what the object begins with.')
    if it.inside == 'length' and it.expected == {'['}:
        return Hint(f'An `int` is not made by `{word}`: fields and locals are there by themselves.',
                    f'An array is `{word} int[5] a`.')
    is_element = it.expects(NAME) and it.inside in ('new', 'delete') and it.at > opened.first + 3 and it.declared(made).endswith('[]')
    if is_element and it.word(-1) == ']' and it.tokens[opened.first + 2].text == '[':
        first, kind = opened.first + 1 - it.at, it.declared(made)[:-2]
        return Hint(f'`{word}` must name the class and then the element: `{word} {kind} {it.written(first, -1)}`.', '',
                    (Edit(it.begin(first), it.begin(first), f'{kind} '),), f'Write `{kind}`')
    if it.expects(NAME) and it.inside in ('new', 'delete') and it.at > opened.first + 1:
        if it.word(-1) == ']' and (made == 'int' or it.has_class(made)):
            return Hint(f'`{word}` must name the array after its type: `{word} {it.written(opened.first + 1 - it.at, -1)} a`.')
        if word == 'delete':
            return of_delete(it, made)
        return Hint(f'`{word}` must name the variable that it fills: `{word} {made} x`.')
    return None


def of_delete(it: Place, name: str) -> Hint:
    """`delete x`."""
    kind = it.declared(name)
    if it.has_class(name):
        return Hint(f'`delete` must name the variable after the class: `delete {name} x`.')
    if kind.endswith('[]'):
        return Hint(f'`delete` must name the type and the length and then the array: `delete {kind[:-1]}5] {name}`.',
                    'The length is that of its `new`.')
    edits = it.changes(-1, -1, f'{kind} {name}') if kind and it.word(-1) == name else ()
    return Hint(f'`delete` must name the class and then the variable: `delete {kind or "C"} {name}`.', '', edits,
                f'Write `{kind} {name}`' if edits else '')


def of_new_with_arguments(it: Place) -> Optional[Hint]:
    if it.word() == '(' and 'new' in (it.word(-2), it.word(-3)):
        made = it.word(-2) if it.word(-3) == 'new' else it.word(-1)
        return Hint(f'`new` must have no arguments: `new {made} x`, and then a call sets what the object begins with.')
    return None


def of_copy(it: Place) -> Optional[Hint]:
    opened = it.opened('copy', 'uncopy')
    if opened is None or it.inside not in ('copy', 'uncopy') or not it.expects(NAME):
        return None
    word, first, second = it.tokens[opened.first].text, it.word(-2), it.word(-1)
    if it.at == opened.first + 3 and it.has_class(first):
        return Hint(f'`{word}` must name two variables after the class: `{word} {first} x {second}`.')
    if it.at == opened.first + 3:
        kind = it.declared(first)
        return Hint(f'`{word}` must name the class and then two variables: `{word} {kind or "C"} {first} {second}`.', '',
                    (Edit(it.begin(-2), it.begin(-2), f'{kind} '),) if kind else (), f'Write `{kind}`' if kind else '')
    return Hint(f'`{word}` must name the class and then two variables: `{word} C x y`.')


def of_local(it: Place) -> Optional[Hint]:
    opened = it.opened('local')
    if it.inside != 'local' or opened is None:
        return None
    word = 'local' if it.at <= opened.first + 5 and not it.is_statement() else 'delocal'
    if it.expects(NAME) and it.word() == '=' and it.kind(-1) == 'name':
        name = it.word(-1)
        return Hint(f'`{word}` must name the type: `{word} int {name} = ..`.', '', it.changes(-1, -1, f'int {name}'), 'Write the type')
    if it.expected <= {'=', '['} and it.kind(-1) == 'name':
        name, kind = it.word(-1), it.word(-2)
        value = began_with(it, opened.first, name) if word == 'delocal' else '0' if kind == 'int' else 'nil'
        if it.word() == '[':
            return Hint(f'`{name}` must have its brackets after the type: `{word} {kind}[] {name} = nil`.')
        if it.word() in ('+=', '<=>'):
            return Hint(f'A local begins and ends with `=`: `{word} {kind} {name} = ..`.', '', it.changes(0, 0, '='), 'Write `=`')
        return Hint(f'`{word}` must have a value: `{word} {kind} {name} = {value}`.', '', (Edit(it.end(-1), it.end(-1), f' = {value}'),),
                    f'Write `= {value}`')
    if it.expects(NAME, '[') and it.word(-2) == 'delocal' and it.tokens[opened.first + 2].text == it.word(-1):
        kind, value = it.tokens[opened.first + 1].text, began_with(it, opened.first, it.word(-1))
        return Hint(f'`delocal` must have a type, a name and a value: `delocal {kind} {it.word(-1)} = {value}`.')
    if it.expects(NAME, '[') and it.word(-2) in ('delocal', 'local'):
        return Hint(f'`{it.word(-2)}` must have a type, a name and a value: `{it.word(-2)} int {it.word(-1)} = 0`.')
    if it.expects('int') and it.word() and it.word(-1) in ('delocal', 'local'):
        return Hint(f'`{it.word(-1)}` must have a type, a name and a value: `{it.word(-1)} int x = 0`.')
    if it.expects('int') and not it.word():
        return Hint('`delocal` must have a type, a name and a value: `delocal int x = 0`.')
    return None


def began_with(it: Place, first: int, name: str) -> str:
    """The value with which the local that begins at a token begins, if it is one token; else what locals of its type often have."""
    words = [each.text for each in it.tokens[first:first + 8]]
    at = words.index('=') if '=' in words else 0
    is_one = at + 2 < len(words) and words[at - 1] == name and words[at + 2] not in OPERATORS and words[at + 2] != '[' and words[at + 1] != '('
    return words[at + 1] if at and is_one else '0' if words[1:2] == ['int'] and words[2:3] != ['['] else 'nil'


def of_word_in_copy(it: Place) -> Optional[Hint]:
    """`copy C x to y`."""
    first = -7 if it.word(-4) == ']' else -5
    if it.is_behind_place() and it.word(first) in ('copy', 'uncopy') and it.word(-2) in ('to', 'into', 'as', 'in', 'onto') and not it.declared(it.word(-2)):
        return Hint(f'There must be no `{it.word(-2)}` between the two variables of `{it.word(first)}`.', 'Leave it out.',
                    (Edit(it.begin(-2), it.begin(-1), ''),), f'Remove `{it.word(-2)}`')
    return None


def of_construct(it: Place) -> Optional[Hint]:
    opened = it.opened('construct')
    if it.inside == 'construct' and it.word(-1) == 'destruct' and it.expected == {NAME}:
        name = it.tokens[opened.first + 2].text
        return Hint(f'`destruct` must name its variable: `destruct {name}`.', '', (Edit(it.end(-1), it.end(-1), f' {name}'),), f'Write `{name}`')
    if it.inside == 'construct' and it.expects(NAME) and it.word(-1) not in ('destruct',):
        return Hint('`construct` must name a class and then a variable: `construct C x` .. `destruct x`.')
    before = it.tokens[it.at - 3].text if it.at > 2 else ''
    if it.is_behind_place() and before == 'destruct':
        return Hint(f'`destruct` must have the variable only: `destruct {it.word(-1)}`.', '', (Edit(it.begin(-2), it.begin(-1), ''),),
                    'Remove the class')
    return None
