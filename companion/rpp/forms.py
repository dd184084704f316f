"""The forms of statements: how each is written, what it does, its faults in their order, its rules of types, and its inverse."""
from typing import Dict, NamedTuple, Tuple


class Form(NamedTuple):
    """A form. `faults` are numbers of faults in the order in which they are looked for, and `when` says when the
    last of them is, if not at once."""
    shape: str
    inverse: str
    meaning: str
    faults: Tuple[int, ...] = ()
    rules: str = ''
    when: str = ''


PASSED = 'each argument has exactly the type of its parameter, and is passed only once'
CALLED = f'{PASSED}; none is the receiver'

FORMS: Dict[str, Form] = {
    'update': Form('y += e', 'y -= e', 'changes y by the value of e', (16,), 'both sides are `int`; y does not occur in e or in its own index'),
    'swap': Form('y <=> z', 'y <=> z', 'exchanges two variables or elements', (16,), 'both have one type; neither occurs in an index'),
    'if': Form('if a then s else t fi b', "if b then s' else t' fi a", 'runs s if a is true, else t; then b must be true after s and '
               'false after t', (1,), 'a and b are `int`', 'at the end'),
    'from': Form('from a do s loop t until b', "from b do s' loop t' until a", 'runs s, and ends if b is true; else runs t and begins again '
                 'with s. a must be true at first, and false at every later iteration', (2,), 'a and b are `int`', 'at each check of a'),
    'local': Form('local T x = a s delocal T x = b', "local T x = b s' delocal T x = a", 'x appears with the value of a, s runs, and x '
                  'must have the value of b before it goes', (3,), 'x has a name that no parameter or local in scope has, and occurs '
                  'neither in a nor in b; a and b are `int` for an `int`, else `nil`', 'at the end'),
    'construct': Form('construct c x s destruct x', "construct c x s' destruct x", 'is short for `local c x = nil new c x s delete c x '
                      'delocal c x = nil`', (), 'c is a class; x has a name that no parameter or local in scope has'),
    'new': Form('new c y', 'delete c y', 'makes an object in y, with fields 0 or nil and the count 1', (16, 4, 8), 'the type of y is c or '
                'an ancestor of it; y does not occur in its index'),
    'new[]': Form('new T[e] y', 'delete T[e] y', 'makes an array of e zeros or nils in y, with the count 1', (4, 13, 8), 'e is `int` and y '
                  'is `T[]`; y occurs neither in e nor in its index'),
    'delete': Form('delete c y', 'new c y', 'ends the object of y, whose fields are 0 or nil; y becomes nil', (16, 5, 11, 6, 7), 'the type of '
                   'y is c or an ancestor of it; y does not occur in its index'),
    'delete[]': Form('delete T[e] y', 'new T[e] y', 'ends the array of y, which has e elements that are 0 or nil; y becomes nil',
                     (5, 12, 6, 7), 'e is `int` and y is `T[]`; y occurs neither in e nor in its index'),
    'copy': Form('copy T y z', 'uncopy T y z', 'z, which is nil, refers to the object or array of y too; its count rises by 1', (16, 5, 4),
                 'T is a class or an array; y is of it, and z too or of an ancestor; they are different variables'),
    'uncopy': Form('uncopy T y z', 'copy T y z', 'z, which refers to what y does, becomes nil; the count falls by 1', (16, 5, 10),
                   'T is a class or an array; y is of it, and z too or of an ancestor; they are different variables'),
    'call': Form('call q(x, z)', 'uncall q(x, z)', 'runs the method q of the same object. The values of x and z move into its parameters, '
                 'and back at the end', (14, 15), f'no argument is a field; {PASSED}', 'at the end'),
    'call::': Form('call y::q(x, z)', 'uncall y::q(x, z)', 'runs the method q of the class that the object of y has. The values of x and z '
                   'move into its parameters, and back at the end', (5, 14, 15), CALLED, 'at the end'),
    'uncall': Form('uncall q(x, z)', 'call q(x, z)', 'as `call`, with the inverse of the body', (14, 15), f'no argument is a field; {PASSED}',
                   'at the end'),
    'uncall::': Form('uncall y::q(x, z)', 'call y::q(x, z)', 'as `call`, with the inverse of the body', (5, 14, 15), CALLED,
                     'at the end'),
    'skip': Form('skip', 'skip', 'does nothing'),
}
# Words of the grammar that belong to a form.
WORDS = {'then': 'if', 'else': 'if', 'fi': 'if', 'do': 'from', 'loop': 'from', 'until': 'from', 'delocal': 'local',
         'destruct': 'construct', '+=': 'update', '-=': 'update', '^=': 'update', '<=>': 'swap'}

SNIPPETS = {
    'if': 'if $1 then\n  ${2:skip}\nelse\n  ${3:skip}\nfi ${4:$1}',
    'from': 'from $1 do\n  ${2:skip}\nloop\n  ${3:skip}\nuntil $4',
    'local': 'local ${1:int} ${2:x} = ${3:0}\n  $0\ndelocal ${1:int} ${2:x} = ${4:0}',
    'construct': 'construct ${1:Class} ${2:x}\n  $0\ndestruct ${2:x}',
}


def form_of(word: str) -> Form:
    return FORMS[word]


def forms_of(word: str) -> Tuple[Form, ...]:
    """The forms that a word belongs to, for help."""
    word = WORDS.get(word, word)
    return tuple(form for name, form in FORMS.items() if name.rstrip('[]:') == word)
