"""Mistakes in `if`, loops and parentheses: words that are missing, or too many; and what begins no statement."""
from typing import Optional

from .grammar import Open, spelled
from .spelling import LOOP, Edit, Hint, foreign_word
from .syntax_place import Place, of_comment
from .tokens import OPERATORS, UPDATES

CLOSERS = {'if': ('then', 'else', 'fi'), 'from': ('do', 'loop', 'until'), 'local': ('delocal',), 'construct': ('destruct',)}
TYPES_OF_OTHERS = ('var', 'let', 'const', 'auto', 'def', 'val', 'my', 'dim')
COUNTING = ('to', 'downto', 'upto', 'by', 'step')


def of_missing_word(it: Place) -> Optional[Hint]:
    """The next word of an `if` or a `from` is missing, and a later one, or the end of what is around, is there."""
    opened = it.opened('if', 'from', 'local', 'construct')
    if opened is None or it.inside in ('arguments', 'parentheses', 'index', 'length'):
        return None
    closers = CLOSERS[opened.what]
    if of_value_with_if(it, opened):
        return of_value_with_if(it, opened)
    missing = next((word for word in closers if it.expects(word)), '')
    line = it.line_of(opened.first)
    if it.word() in closers and missing and closers.index(missing) < closers.index(it.word()):
        text = {'else': 'else skip ', 'loop': 'loop skip ', 'then': 'then ', 'do': 'do skip '}.get(missing, '')
        if missing == 'do' and it.word() != 'loop':
            text = 'do '
        is_chain = missing == 'else' and it.tokens[opened.first - 1].text == 'else'
        fix = 'Each `if` has its own `else` and `fi`. ' if is_chain else ''
        return Hint(f'The `{opened.what}` of line {line} must have `{missing}` before this `{it.word()}`.',
                    f'{fix}An empty block is `{missing} skip`.' if 'skip' in text else '', it.puts(text), f'Write `{text.strip()}`')
    if missing in ('then', 'do') and it.word() == '(' and it.kind(-1) == 'name':
        return None
    if missing in ('then', 'do') and it.kind() == 'name' and it.kind(-1) == 'name' and foreign_word(it.word(-1)):
        return foreign_word(it.word(-1), it.word())
    if missing == 'do' and it.word() in COUNTING and it.kind() == 'name':
        return Hint(f'There is no `{it.word()}`: {LOOP[0]}', LOOP[1])
    if missing in ('then', 'do') and it.word() in UPDATES | {'<=>'}:
        return Hint(f'A condition must be a value, and `{it.word()}` makes it a change.', 'Write the change as a statement of its own, and a comparison here.')
    if missing in ('then', 'do'):
        edits = it.changes(0, 0, missing) if it.word() in ('then', 'do') else (Edit(it.end(-1), it.end(-1), f' {missing}'),)
        return Hint(f'The `{opened.what}` of line {line} must have `{missing}` after its condition.', '', edits, f'Write `{missing}`')
    if missing and it.word() in ('', 'method', 'class'):
        rest = {'else': '`else` .. `fi`', 'fi': '`fi` with its assertion', 'loop': '`loop` .. `until`', 'until': '`until` with its condition',
                'delocal': '`delocal`', 'destruct': '`destruct`'}[missing]
        where = f'before the next `{it.word()}`' if it.word() else 'before the source ends'
        words = [each.text for each in it.tokens[opened.first:it.at]]
        is_chain = missing == 'fi' and any(words[at:at + 2] == ['else', 'if'] for at in range(0, len(words)))
        return Hint(f'The `{opened.what}` of line {line} must end {where}: {rest} is missing.',
                    'Each `if` has its own `else` and `fi`, also one after `else`.' if is_chain else '')
    return None


def of_value_with_if(it: Place, opened: Open) -> Optional[Hint]:
    """`x += 1 if y > 0 else 2`."""
    before, first = it.tokens[opened.first - 1], it.tokens[opened.first]
    is_value = before.kind in ('name', 'number') or before.text in (')', ']')
    is_one_line = b'\n' not in it.text[before.end:first.at]
    if opened.what != 'if' or it.word() != 'else' or not it.expects('then') or not is_value or not is_one_line:
        return None
    if it.kind(1) not in ('name', 'number') or it.word(2) in UPDATES | {'<=>', '::', '['}:
        return None
    return Hint('An `if` is a statement and has no value.', 'Write the change in both of its blocks: `if a then x += 1 else x += 2 fi a`.')


def of_stray_word(it: Place) -> Optional[Hint]:
    """A word that ends what is not open, or not the innermost."""
    owner = next((what for what, words in CLOSERS.items() if it.word() in words), '')
    if not owner or not (it.is_statement() or it.expects('method')):
        return None
    opened = it.opened('if', 'from', 'local', 'construct')
    if it.opened(owner) is None and owner == 'from':
        return Hint(f'There must be an open `from` before this `{it.word()}`: a loop is `from a do s loop t until b`, where a holds only when '
                    'it begins.')
    if it.opened(owner) is None:
        return Hint(f'There must be an open `{owner}` before this `{it.word()}`.')
    if opened is not None and opened.what != owner:
        return Hint(f'The `{opened.what}` of line {it.line_of(opened.first)} must end before this `{it.word()}`: what begins last ends first.')
    if it.word(-1) in CLOSERS.get(opened.what, ()) or it.at == opened.first + 1:
        return Hint('A block must have at least one statement.', 'Write `skip`.', it.puts('skip '), 'Write `skip`')
    return Hint(f'The `{owner}` of line {it.line_of(opened.first)} already has its `{it.word()}`.')


def of_parentheses(it: Place) -> Optional[Hint]:
    closer = {'parentheses': ')', 'index': ']', 'length': ']', 'arguments': ')', 'parameters': ')'}.get(it.inside, '')
    inner = it.inside
    if it.inside == 'expression' and len(it.spot.open) > 1:
        inner = it.spot.open[-2].what
        closer = {'parentheses': ')', 'index': ']', 'length': ']'}.get(inner, '')
    opened = it.opened(inner) if closer and it.expects(closer) else None
    if opened is not None and inner == 'index' and it.word() == ',':
        return Hint('An element must have one index: there are no arrays of arrays.', 'Keep the rows one after the other in one array.')
    if opened is not None:
        first = it.tokens[opened.first].text
        return Hint(f'The `{first}` of line {it.line_of(opened.first)} must be closed by `{closer}` before `{it.word() or "the end"}`.', '',
                    (Edit(it.end(-1), it.end(-1), closer),), f'Write `{closer}`')
    if it.word() in (')', ']'):
        return Hint(f'There must be an open `{ {")": "(", "]": "["}[it.word()] }` before this `{it.word()}`.', 'Leave it out.',
                    it.changes(0, 0, ''), f'Remove `{it.word()}`')
    return None


def of_statement_begin(it: Place) -> Optional[Hint]:
    """What begins no statement."""
    if not it.is_statement():
        return None
    comment = of_comment(it)
    if comment:
        return comment
    if it.kind() == 'number':
        return Hint('A statement must not begin with a number.')
    if it.word() == 'int' and it.kind(1) == 'name' and it.word(2) == '(':
        return Hint(f'A method must begin with `method`, and has no type: `method {it.word(1)}(..)`.',
                    'Let it add what it computes to a parameter.', it.changes(0, 0, 'method'), 'Write `method`')
    if it.word() == 'int' or it.word() in TYPES_OF_OTHERS:
        name = it.word(1) if it.kind(1) == 'name' else 'x'
        return Hint(f'A variable of a method must be declared by `local int {name} = ..` .. `delocal int {name} = ..`.',
                    'Or declare it as a field, before the methods.')
    if it.word() in ('+', '-') and it.word(1) == it.word():
        return Hint(f'There is no `{it.word()}{it.word()}`: write `{it.word(2) or "x"} {it.word()}= 1`.')
    if it.word() in ('inherits', 'nil'):
        return Hint(f'`{it.word()}` must not begin a statement.')
    if it.word() == ',' and it.inside == 'local' and it.at <= it.opened('local').first + 5:
        return Hint('A statement must not begin with `,`: a `local` declares one variable, and a statement changes one.')
    if it.word() == ',':
        return Hint('There must be no `,` between statements, which follow one another.', 'Leave it out.', it.changes(0, 0, ''),
                    'Remove the `,`')
    if it.word() in OPERATORS and it.kind(-1) == 'name' and it.word(-2) == '<=>':
        return Hint(f'`<=>` exchanges two variables or elements, and not a value with `{it.word()}`.', 'A variable is changed by `+=`, `-=` or `^=`.')
    if it.word() in OPERATORS or it.word() in UPDATES or it.word() in ('<=>', '::', '(', '['):
        return Hint(f'A statement must not begin with `{it.word()}`: the variable that it changes comes first.')
    return None


def of_end(it: Place) -> Optional[Hint]:
    if it.word() or not it.at:
        return None
    if it.is_value():
        return Hint(f'The source must not end here: a value must follow `{it.word(-1)}`.')
    return Hint(f'The source must not end here: {spelled(it.expected)} must follow `{it.word(-1)}`.')
