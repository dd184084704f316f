"""Mistakes in expressions and conditions."""
from typing import Optional

from .grammar import NAME
from .spelling import FOREIGN_METHODS, LISTS, UNEQUAL, Edit, Hint, foreign_method
from .syntax_declarations import POINTERS
from .syntax_place import Place, of_comment
from .tokens import KEYWORDS, OPERATORS, UPDATES


def of_value(it: Place) -> Optional[Hint]:
    """What is no value where one is expected."""
    before = it.word(-1)
    if it.word() == 'new' and before == '<=>':
        return of_word_for_value(it, '<=>')
    if before == '<=>' and it.expects(NAME) and (it.kind() == 'number' or it.word() in ('nil', '-', '(')):
        return Hint(f'`<=>` exchanges two variables or elements, and `{it.word()}` is neither.', 'A variable is changed by `+=`, `-=` or `^=`.')
    if not it.is_value():
        return None
    if it.word() == '[':
        return LISTS
    if it.word() == 'int' and (it.word(1) == '(' or before == '(' and it.word(1) == ')'):
        edits = it.changes(-1, 1, '') if before == '(' else it.changes(0, 0, '')
        return Hint('There are no casts: every number is an `int`.', 'Leave it out.', edits, 'Remove the cast')
    if it.word() == '-' and before == '[' and it.kind(1) == 'number':
        return Hint('An index must be at least 0: no element is counted from the end.', f'Keep the length in a variable, as in `a[n - {it.word(1)}]`.')
    if it.word() == '-':
        change = {'+=': '-=', '-=': '+='}.get(before, '')
        if change:
            return Hint(f'There are no negative numbers: `{change} {it.word(1)}` for `{before} -{it.word(1)}`.', '',
                        (Edit(it.begin(-1), it.begin(1), f'{change} '),), f'Write `{change}`')
        return Hint('There are no negative numbers and no sign before a value: write `0 - x`.', '', it.changes(0, 0, '0 - '), 'Write `0 -`')
    if it.word() == '+':
        return Hint('There must be no sign before a value.', 'Leave the `+` out.', it.changes(0, 0, ''), 'Remove the `+`')
    if it.word() == before == '*':
        return Hint('There is no `**`: expressions have no powers.', 'A square is a product. docs/learn/from-janus.md has a method for one.')
    if it.word() in ('*', '/') and before in ('*', '/'):
        return of_fractional_product(it) or of_comment(it, -1)
    comparison = of_wrong_comparison(it, before)
    if comparison:
        return comparison
    if it.word() in ('*', '&') and it.kind(1) == 'name' and it.is_joined() and before not in ('*', '&'):
        return Hint(POINTERS, 'Leave it out.', it.changes(0, 0, ''), f'Remove the `{it.word()}`')
    if it.word() in ('&', '|') or it.word() in OPERATORS:
        return Hint(f'`{it.word()}` must have a value on both sides.')
    return of_word_for_value(it, before)


def of_fractional_product(it: Place) -> Optional[Hint]:
    """`y */ 3`, with values on both sides in one line: no end of a comment."""
    is_pair = it.word(-1) == '*' and it.word() == '/' and it.is_joined(-1)
    has_left = it.kind(-2) in ('name', 'number') or it.word(-2) in (')', ']')
    has_right = it.kind(1) in ('name', 'number') or it.word(1) == '('
    if is_pair and has_left and has_right and b'\n' not in it.text[it.end(-2):it.begin(1)]:
        return Hint("There is no `*/`, Janus' fractional product: expressions do not multiply.",
                    'A product is computed into another variable, by additions in a loop. docs/learn/from-janus.md has a method for one.')
    return None


def of_wrong_comparison(it: Place, before: str) -> Optional[Hint]:
    """`==`, `/=`, `=<`, `< =`, `<>`, and shifts."""
    if it.word() == '=' and before == '=':
        last = 1 if it.word(1) == '=' else 0
        return Hint('The comparison is one `=`.', '', it.changes(0, last, ''), 'Leave one `=`')
    if it.word() == '=' and before == '/' and it.is_joined(-1):
        return UNEQUAL._replace(edits=it.changes(-1, 0, '!='), title='Write `!=`')
    if it.word() in ('<', '>') and before == '=' and it.is_joined(-1):
        return Hint(f'The comparison is written `{it.word()}=`.', '', it.changes(-1, 0, f'{it.word()}='), f'Write `{it.word()}=`')
    if it.word() == '=' and before in ('!', '<', '>', '=='):
        return Hint(f'The comparison is written `{before}=`, without a space.')
    if it.word() in ('<', '>') and before == it.word():
        return Hint('There are no shifts.', 'A doubling is `y + y`; the remainder by a power of two is an `&`, as `x & 7`.')
    if it.word() == '>' and before == '<':
        return UNEQUAL._replace(edits=it.changes(-1, 0, '!='), title='Write `!=`')
    return None


def of_word_for_value(it: Place, before: str) -> Optional[Hint]:
    if it.word() in ('call', 'uncall', 'new') and it.is_new_line() and before not in ('fi', 'until'):
        return Hint(f'A value must follow `{before}`: there is none before this `{it.word()}`.')
    if it.word() == 'new':
        made = it.word(1) if it.kind(1) == 'name' else 'C'
        return Hint('`new` is a statement and has no value: a local of a class begins as `nil`.', f'Write `new {made} x` after it.')
    if it.word() in ('call', 'uncall'):
        return Hint(f'`{it.word()}` is a statement and has no value: let the method add its result to an argument.')
    if before in ('fi', 'until'):
        return of_missing_condition(before)
    if before in ('if', 'from'):
        return Hint(f'`{before}` must have a condition.')
    if it.word() in KEYWORDS and (it.is_new_line() or it.word() in ('class', 'method', 'then', 'do', 'else', 'fi', 'loop', 'until')):
        return Hint(f'A value must follow `{before}`: there is none before this `{it.word()}`.')
    if it.word() in KEYWORDS:
        return Hint(f'`{it.word()}` is a word of the language, so it must not be a value.')
    if it.word() == ')' and before == '(':
        return Hint('Parentheses must hold a value.')
    if it.word() == ']' and before == '[' and it.spot.open[-2].what == 'length':
        word, made = it.word(-3), it.word(-2)
        return Hint(f'`{word}` must name the length of the array: `{word} {made}[5] a`.')
    if it.word() == ']' and before == '[':
        return Hint('An element must have an index: `a[0]`.')
    return None


def of_missing_condition(word: str) -> Hint:
    if word == 'fi':
        return Hint('An `if` must end with an assertion after `fi`: a condition that holds after `then` and not after `else`.',
                    'Often it is the condition of the `if` itself.')
    return Hint('A `from` must end with a condition after `until`.')


def of_value_end(it: Place) -> Optional[Hint]:
    """What is after a value and goes on as none."""
    if not OPERATORS <= it.expected:
        return None
    if it.kind(-1) == 'number' and it.kind() == 'name' and it.begin() == it.end(-1):
        return Hint(f'A number must be decimal: `{it.word(-1)}{it.word()}` is none.', 'Write its decimal digits.')
    if it.kind(-1) == 'number' and it.kind() == 'number':
        return Hint('There must be an operator between two numbers.')
    if it.word() == '(' and it.word(-1) in FOREIGN_METHODS and not it.has_method(it.word(-1)):
        return foreign_method(it.word(-1))
    if it.word() == '(' and it.has_array(it.word(-1)):
        edits = it.changes(0, 0, '[') + it.changes(2, 2, ']') if it.word(2) == ')' else ()
        return Hint(f'An element must be written with brackets: `{it.word(-1)}[..]`.', '', edits, 'Write brackets' if edits else '')
    if it.word() in UPDATES | {'<=>'} and it.word(-2) in ('fi', 'until') and it.kind(-1) == 'name':
        return of_missing_condition(it.word(-2))
    if it.word() == '(' and it.kind(-1) == 'name':
        return Hint('A call is a statement and has no value: let the method add its result to an argument.',
                    f'Write `call {it.word(-1)}(..)` with one argument more.')
    if it.word() in UPDATES | {'<=>'} and not it.expects(']'):
        return Hint(f'A statement must change one place: there must be no second `{it.word()}` in it.', 'Write two statements.')
    if it.word() == '::':
        return Hint('A value must not be a call, and fields of other objects are not seen.',
                    'Let a method of the object add the value to a parameter: `call x::get(v)`.')
    if it.word() == '[' and it.word(-1) in (')', ']'):
        return Hint('Only a variable can be indexed: there are no arrays of arrays.')
    if it.word() == ',' and it.inside == 'expression':
        return Hint('There must be one value: there are no lists.')
    return None
