"""What a word or a byte that the language does not have was to be.

    similar('cuont', ['count', 'n'])                # 'count'
    foreign_word('while', 'x')                      # the Hint for a word of other languages, or None
    byte_hint(text, at)                             # the Hint for the byte at which no token begins, or None"""
import difflib
import re
from typing import Callable, Dict, Iterable, List, NamedTuple, Optional, Tuple

NAME = r"[A-Za-z][A-Za-z0-9_']*"


class Edit(NamedTuple):
    """A text that takes the place of the bytes from `begin` to `end`."""
    begin: int
    end: int
    text: str


class Hint(NamedTuple):
    """A sentence of its own for a mistake, what to write, and the edits that write it."""
    sentence: str
    fix: str = ''
    edits: Tuple[Edit, ...] = ()
    title: str = ''
    expected: str = ''
    found: str = ''


def similar(word: str, known: Iterable[str]) -> str:
    """The name most like a word, or ''."""
    others = [each for each in known if each and each != word]
    by_case = [each for each in others if each.lower() == word.lower()]
    return next(iter(by_case or difflib.get_close_matches(word, others, 1, 0.6)), '')


# ---- words of other languages

LOOP = ('a loop is `from a do s loop t until b`, where a holds only when it begins.',
        'A counting loop is `local int i = 0 from i = 0 do .. loop i += 1 until i = 9 delocal int i = 9`.')
REPORTED = 'nothing is printed. The fields of the main object are reported when the run ends.'
LISTS = Hint('There are no lists of values: an array is made by `new int[3] a`, and each of its elements is set by itself.',
             'Write `a[0] += 1`, and so on.')
CONSTRUCTORS = Hint('There are no constructors: `new C x` makes an object whose fields are 0 or nil.',
                    'Write a method, as `method init(..)`, and call it after `new`.')
UNEQUAL = Hint('"Not equal" is `!=`.')
ALONE = 'There is no `{word}`: a program is one source, which has all its classes.'
LENGTH = 'the length of an array is not part of it.'
# Words, what follows `There is no ..: ` of each, and what to write. `{name}` is the name that follows the word.
ROWS: Tuple[Tuple[str, str, str], ...] = (
    ('elsif elseif elif elsf', 'write `else if .. then .. else .. fi ..`, each `if` with its own `fi`.', ''),
    ('while for foreach repeat iterate loop', *LOOP),
    ('end endif endwhile endfor endmethod endclass done od esac', 'an `if` ends with `fi` and a condition, a `from` with `until` and one, '
     'and a method where the next begins.', ''),
    ('print println printf write puts echo show cout System Console', REPORTED, ''),
    ('read input scanf gets getline readline cin', 'the input is given to the `int` fields of the main object before the run.',
     'Declare a field, and run `rpp run F NAME=NUMBER`.'),
    ('return yield result', 'a method has no result. Let it add what it computes to a parameter or a field.', ''),
    ('switch case match when', 'write `if`s one in another.', ''),
    ('assert require ensure', 'conditions that must hold come after `fi`, `from`, `until` and `delocal`.',
     'Comments `//?` say what a run should give, and `rpp test` checks them.'),
    ('var let const auto def val my dim', 'a variable is a field, or `local int {name} = 0` .. `delocal int {name} = 0`.', ''),
    ('break continue goto exit', 'a loop ends only at its `until`.', ''),
    ('pass nop', 'the empty statement is `skip`.', ''),
    ('swap exchange', 'two places are exchanged by `x <=> y`.', ''),
    ('free dispose destroy del', 'an object ends by `delete C x`.', ''),
    ('try throw throws raise except catch finally', 'a condition that does not hold stops the run with a fault.', ''),
    ('global nonlocal extern', 'a method names the fields of its object by themselves.', 'Leave it out.'),
    ('undo reverse invert inverse rollback rewind revert', '`uncall m(..)` runs a method backward.', 'Put the statements into a method, and uncall that.'),
    ('begin', 'a method goes on to the next `method` or `class`, and `then`, `do`, `fi` and so on mark blocks.', 'Leave it out.'),
    ('with', 'an object for the time of a block is `construct C x` .. `destruct x`.', ''),
    ('lambda', 'a method is declared by `method`, and is no value.', ''),
    ('typedef', 'a type is `int`, a class of the source, or an array of one.', ''),
    ('enum', 'write its numbers, or keep them in fields that nothing changes.', ''),
    ('struct record interface trait impl', 'a class holds its fields and the methods that use them.', 'Write `class`.'),
)
# These may be the names of methods.
METHOD_ROWS: Tuple[Tuple[str, str, str], ...] = (
    ('push pop top peek empty isEmpty enqueue dequeue', 'there are no stacks. An array, and a count of what is in it, serve in their place.', ''),
    ('len length size sizeof', LENGTH, 'Keep the length in a variable.'),
    ('max min abs', 'there are no functions, and a method has no result: let it add what it computes to a parameter.', ''),
)
STRUCTURES = ('struct', 'record', 'interface', 'trait', 'enum', 'union', 'object', 'module', 'impl')
IMPORTS = ('import', 'from', 'using', 'use', 'package', 'require', 'include', 'namespace')


def by_word(rows: Tuple[Tuple[str, str, str], ...]) -> Dict[str, Tuple[str, str]]:
    return {word: (said, fix) for words, said, fix in rows for word in words.split()}


FOREIGN = by_word(ROWS)
FOREIGN_METHODS = by_word(METHOD_ROWS)


def foreign_word(word: str, name: str = 'x', is_method: bool = False) -> Optional[Hint]:
    """A word of other languages, and what serves in its place; with `is_method` the text has a method of this name."""
    found = None if is_method else FOREIGN.get(word)
    if found is None:
        return None
    said, fix = found
    return Hint(f'There is no `{word}`: {said.replace("{name}", name)}', fix)


def foreign_method(word: str) -> Optional[Hint]:
    """A call of what other languages have, where the text has no such method."""
    found = FOREIGN_METHODS.get(word)
    return Hint(f'There is no `{word}`: {found[0]}', found[1]) if found else None


# ---- bytes

BYTES: Dict[str, Hint] = {
    ';': Hint('No statement ends with `;`.', 'Leave it out.'),
    '{': Hint('There are no braces: a method goes on to the next `method` or `class`, and `then`, `do`, `fi` and so on mark blocks.',
              'Leave it out.'),
    '}': Hint('There are no braces: a method goes on to the next `method` or `class`.', 'Leave it out.'),
    '.': Hint('There is no `.`: a call on an object is `call x::m(..)`, fields of other objects are not seen, and numbers are whole.',
              'Let a method of the object add the value to a parameter. The length of an array is kept in a variable.'),
    '!': Hint('There is no `!`: write the opposite comparison, as `x = 0` for `!x`, and `!=` without a space.'),
    "'": Hint('There are no characters: a character is its number, 104 for `h`.'),
    '"': Hint('There are no strings: keep the numbers of the characters in an `int[]`.', 'Nothing is printed; a comment begins with `//`.'),
    ':': Hint('There is no single `:`: a call on an object is `x::m(..)`, and a variable is changed by `+=`.',
              'Blocks are marked by `then`, `else`, `do`, `loop`, and locals are declared as `local int x = 0`.'),
    '#': Hint('A comment must begin with `//`.', '', (), 'Write `//`'),
    '~': Hint('There is no `~`: `0 - x - 1` inverts all bits.'),
    '@': Hint('There is no `@`.', 'Leave it out.'),
    '?': Hint('There is no `?`: write an `if`.'),
    '$': Hint('There is no `$`: a variable is its name.', 'Leave it out.'),
    '`': Hint('There is no such quote.', 'Leave it out.'),
    '\\': Hint('There is no `\\`: a statement may go over lines by itself.', 'Leave it out.'),
    '_': Hint('A name must begin with a letter, not with `_`.'),
    '\ufeff': Hint('The source must not begin with a byte order mark.', 'Save it as UTF-8 without one.', (), 'Remove the mark'),
    '\xa0': Hint('This is a no-break space, which must not be in a source though it looks like a space.', 'Write a space.', (),
                 'Write a space'),
    '\u200b': Hint('This is a space without width, which must not be in a source.', 'Remove it.', (), 'Remove it'),
    '\u2212': Hint('This is a minus sign that only looks like `-`.', 'Write `-`.', (), 'Write `-`'),
    '\u2013': Hint('This is a dash that only looks like `-`.', 'Write `-`.', (), 'Write `-`'),
    '\u2018': Hint('This is a quotation mark of a word processor.', 'Leave it out.'),
    '\u2019': Hint("This is a quotation mark of a word processor, which only looks like `'`.", "Write `'` in names."),
    '\u201c': Hint('This is a quotation mark of a word processor, and there are no strings.', 'Leave it out.'),
    '\u201d': Hint('This is a quotation mark of a word processor, and there are no strings.', 'Leave it out.'),
    '\u2264': Hint('This sign must be written `<=`.', '', (), 'Write `<=`'),
    '\u2265': Hint('This sign must be written `>=`.', '', (), 'Write `>=`'),
    '\u2260': Hint('This sign must be written `!=`.', '', (), 'Write `!=`'),
    '\u21d4': Hint('This sign must be written `<=>`.', '', (), 'Write `<=>`'),
    '\xd7': Hint('This sign is no token, and expressions do not multiply.',
                 'A product with a small number is a sum: `x + x + x`. docs/learn/from-janus.md has a method for products.'),
    '\x00': Hint('The source must not have a byte 0: it is no text, or UTF-16.', 'Save it as UTF-8.'),
    '\x0c': Hint('This is a form feed, which must not be in a source outside of comments.', 'Write a line feed.', (), 'Write a line feed'),
    '\x0b': Hint('This is a vertical tab, which must not be in a source outside of comments.', 'Write a space.', (), 'Write a space'),
}
WRITES = {'#': '//', '\ufeff': '', '\xa0': ' ', '\u200b': '', '\u2212': '-', '\u2013': '-', '\u2264': '<=', '\u2265': '>=',
          '\u2260': '!=', '\u21d4': '<=>', '\x0c': '\n', '\x0b': ' ', ';': ''}


class Spot(NamedTuple):
    """A byte with which no token begins, and its line: what is in front of the byte, and what from it on."""
    text: bytes
    at: int
    before: str
    after: str

    def changes(self, back: int, ahead: int, text: str) -> Tuple[Edit, ...]:
        """The edit that writes a text for so many bytes in front of the byte and from it on."""
        return (Edit(self.at - back, self.at + ahead, text),)


HEAD = re.compile(rf'\b(def|fn|func|function|proc|procedure|void|sub)\s+({NAME})\s*\([^()]*\)\s*$')
LOOPING = re.compile(r'^\s*(for|while|foreach)\b')
BRANCHING = re.compile(r'^\s*(if|elif)\b.*[^\s]\s*$')
TYPE_HEAD = re.compile(r'^\s*(?:pub\s+|public\s+|typedef\s+)*(struct|record|interface|trait|enum|impl)\b')
SLICE = re.compile(r'\[[^\]]*$')
LAMBDA = re.compile(r'\blambda\b[^:]*$')
CONDITION = re.compile(r'^\s*(if|elif|while|until|fi|from)\b')
# A condition that has begun, up to its left side; and its right side up to the next word of the statement.
CONDITION_OPEN = re.compile(r"\b(if|fi|from|until|&&|\|\|)\s+[\w'().+-]+\s*$")
UNEQUAL_TO = re.compile(r"#\s*([\w'()+-]+\s*(then|do|loop|&&|\|\|)|-?\d+\s*$)")
ELSE = re.compile(r'^\s*(else|do|loop|then)\s*$')
CLASS = re.compile(rf'\bclass\s+{NAME}\s*$')
DECLARING = re.compile(rf'\b(let|var|val|const|local|delocal)\s+(?:mut\s+)?({NAME})\s*$')
TYPED = re.compile(rf'(?:^|[(,])\s*({NAME})(\s*)$')
A_TYPE = re.compile(rf':\s*(int|i32|u32|i64|u64|usize|number|Int|Integer|[A-Z][A-Za-z0-9_]*)(\[\])?(?![A-Za-z0-9_])')
A_NAME = re.compile(rf':\s*({NAME})')
PLACE = re.compile(rf"^\s*({NAME})(?:\s*\[[^\]]*\])?\s*$")
CALL = re.compile(rf'\b(?:call|uncall)\s+{NAME}\s*$')


def of_colon(it: Spot) -> Optional[Hint]:
    """`def f():`, `while a:`, `if a:`, `class B : A`, `let x: int`, `x: int`, `x : y`, `call c:m()`."""
    name, kind = A_NAME.match(it.after), A_TYPE.match(it.after)
    if it.after[1:2] == '=' and CONDITION.match(it.before):
        return Hint('The comparison is one `=`.', '', it.changes(0, 2, '='), 'Write `=`')
    if it.after[1:2] == '=':
        return Hint('There is no `:=`, which would lose the old value: `+=` sets a variable that is 0.', 'Write `+=`.',
                    it.changes(0, 2, '+='), 'Write `+=`')
    if CLASS.search(it.before) and name:
        return Hint('A class names its parent by `inherits`.', f'Write `inherits {name[1]}`.', it.changes(0, 1, ' inherits'),
                    'Write `inherits`')
    if CALL.search(it.before) and name:
        return BYTES[':']._replace(edits=it.changes(0, 1, '::'), title='Write `::`')
    if CLASS.search(it.before):
        return Hint('No `:` must follow the name of a class.', 'Leave it out.', it.changes(0, 1, ''), 'Remove the `:`')
    if LAMBDA.search(it.before):
        return foreign_word('lambda')
    if SLICE.search(it.before):
        return Hint('There are no slices: an element has one index.', 'A loop goes over the elements.')
    return of_block_colon(it) or of_typed_name(it, kind) or of_old_swap(it, name)


def of_block_colon(it: Spot) -> Optional[Hint]:
    """A `:` that begins a block in Python."""
    head, looping, ending = HEAD.search(it.before), LOOPING.match(it.before), ELSE.match(it.before)
    if head:
        return Hint(f'A method must begin with `method`, not with `{head[1]}`, and no `:` ends its first line.',
                    f'Write `method {head[2]}(..)`, with a type in front of each parameter.')
    if looping:
        return foreign_word(looping[1])
    if ending:
        return Hint(f'No `:` must follow `{ending[1]}`.', 'Leave it out.', it.changes(0, 1, ''), 'Remove the `:`')
    if BRANCHING.match(it.before):
        return Hint('A condition must be followed by `then`, not by `:`.', 'An `if` is `if a then s else t fi b`.',
                    it.changes(0, 1, ' then'), 'Write `then`')
    return None


def of_typed_name(it: Spot, kind) -> Optional[Hint]:
    """A type that follows its name."""
    declaring, typed = DECLARING.search(it.before), TYPED.search(it.before)
    if declaring and declaring[1] in ('local', 'delocal'):
        return Hint(f'`{declaring[1]}` must name the type first: `{declaring[1]} int {declaring[2]} = ..`.')
    if declaring:
        return foreign_word(declaring[1], declaring[2])
    if typed and kind:
        known = kind[1] if kind[1][:1].isupper() and kind[1] not in ('Int', 'Integer') else 'int'
        written = f'{known}{kind[2] or ""} {typed[1]}'
        return Hint(f'A type must be in front of its name: `{written}`.', '',
                    it.changes(len(typed[1]) + len(typed[2]), kind.end(), written), f'Write `{written}`')
    return None


def of_old_swap(it: Spot, name) -> Optional[Hint]:
    if PLACE.match(it.before) and name:
        return Hint('The exchange is written `<=>`.', '', it.changes(0, 1, '<=>'), 'Write `<=>`')
    return None


OWN = re.compile(r'\b(self|this|me)\s*$')
PRINTING = re.compile(r'\b(System|Console|console|std|io|fmt)(\s*\.\s*[A-Za-z]+)*\s*$')
IMPORTING = re.compile(r'^\s*(import|package|using|from|use)\b')
LENGTHS = re.compile(r'\.\s*(length|len|size|count|Length)\b')
MEMBER = re.compile(rf'\.\s*({NAME})\s*(\(?)')
ON_ARRAY = re.compile(r'\.\s*(append|push|pop|add|remove|insert|extend|push_back|sort)\s*\(')
AT_BEGIN = re.compile(rf'^(\s*)({NAME})\s*$')
CHANGE = re.compile(r'\s*([-+^]?=|<=>)')
SAME = re.compile(r'\.\s*equals\b')
RECEIVER = re.compile(rf'({NAME})\s*$')
DIGITS = re.compile(r'[0-9]\s*$')


def of_dot(it: Spot) -> Optional[Hint]:
    """`self.x`, `System.out`, `import a.b`, `a.length`, `a.append(3)`, `c.m()`, `1.5`."""
    own, member, begin = OWN.search(it.before), MEMBER.match(it.after), AT_BEGIN.match(it.before)
    if IMPORTING.match(it.before):
        return Hint(ALONE.replace('{word}', IMPORTING.match(it.before)[1]), 'Leave the line out.')
    if LOOPING.match(it.before):
        return foreign_word(LOOPING.match(it.before)[1])
    if own and member:
        word, back = own[1], len(own[0])
        return Hint(f'There is no `{word}`: a field of the same object is named by itself, and `call m(..)` calls a method of it.', '',
                    it.changes(back, 1, 'call ' if member[2] and begin else ''), f'Remove `{word}.`')
    if PRINTING.search(it.before):
        return foreign_word('System')._replace(sentence=f'There is no `{PRINTING.search(it.before)[1]}`: {REPORTED}')
    if LENGTHS.match(it.after):
        return Hint(f'There is no `.{LENGTHS.match(it.after)[1]}`: {LENGTH}', 'Keep the length in a variable.')
    if ON_ARRAY.match(it.after):
        return Hint(f'There is no `.{ON_ARRAY.match(it.after)[1]}`: the length of an array does not change, and an array has no methods.',
                    'Keep a count of the elements that are in use.')
    if SAME.match(it.after):
        return Hint('There is no `.equals`: `=` compares references, and holds if both are of one object.', 'Let a method compare the fields.')
    if DIGITS.search(it.before):
        return Hint('There is no `.` in numbers, which are whole.', 'Count in smaller units.')
    if member and begin and CHANGE.match(it.after[member.end():]):
        return BYTES['.']._replace(fix='Let a method of the object change the field.')
    if member and member[2] and (begin or CALL.search(it.before)):
        return of_dot_call(it, RECEIVER.search(it.before)[1], member[1], bool(begin))
    return None


def of_dot_call(it: Spot, receiver: str, method: str, is_bare: bool) -> Hint:
    """`c.m()`, without `call` if it is bare."""
    back = len(RECEIVER.search(it.before)[0])
    return BYTES['.']._replace(fix=f'Write `call {receiver}::{method}(..)`.', title='Write `::`',
                               edits=(it.changes(back, -back, 'call ') if is_bare else ()) + it.changes(0, 1, '::'))


def of_hash(it: Spot) -> Optional[Hint]:
    """`#include`, `#define`, comments, and Janus' `x # 0`."""
    if CONDITION_OPEN.search(it.before) and UNEQUAL_TO.match(it.after):
        return Hint('"Not equal" is `!=`, not `#`.', '', it.changes(0, 1, '!='), 'Write `!=`')
    word = re.sub('[^A-Za-z].*', '', it.after[1:].strip())
    if word in ('include', 'import', 'pragma', 'use'):
        return Hint(ALONE.replace('{word}', f'#{word}'), 'Leave the line out.', it.changes(0, len(it.after), ''), 'Remove the line')
    if word in ('define', 'const'):
        return Hint(f'There is no `#{word}`: write the number itself, or keep it in a field that nothing changes.')
    return None


def of_brace(it: Spot) -> Optional[Hint]:
    """`int[] a = {1, 2}`, `enum E {`, `while a {`, `if a {`."""
    if it.before.strip()[-1:] == '=':
        return LISTS
    head, looping = TYPE_HEAD.match(it.before), LOOPING.match(it.before)
    if head or looping:
        return foreign_word((head or looping)[1])
    if BRANCHING.match(it.before) and 'then' not in it.before:
        return Hint('A condition must be followed by `then`, not by `{`.', 'An `if` is `if a then s else t fi b`.', it.changes(0, 1, 'then'),
                    'Write `then`')
    return None


MACRO = re.compile(r'\b(println|print|eprintln|format|write|writeln|dbg)$')
VECTOR = re.compile(r'\bvec$')
CHECKING = re.compile(r'\b(assert|assert_eq|debug_assert)$')


def of_bang(it: Spot) -> Optional[Hint]:
    macro = MACRO.search(it.before)
    if VECTOR.search(it.before):
        return LISTS
    if CHECKING.search(it.before):
        return foreign_word('assert')
    return Hint(f'There is no `{macro[1]}!`: {REPORTED}') if macro else None


CHOICE = re.compile(r'_\s*=>')
ANNOTATION = re.compile(rf'@({NAME})')


def of_underscore(it: Spot) -> Optional[Hint]:
    if it.after[:8] == '__init__':
        return CONSTRUCTORS
    if DIGITS.search(it.before) and it.after[1:2].isdigit():
        return Hint('A number must be only digits, without `_`.', '', it.changes(0, 1, ''), 'Remove the `_`')
    return foreign_word('match') if CHOICE.match(it.after) else None


def of_tilde(it: Spot) -> Optional[Hint]:
    return UNEQUAL._replace(edits=it.changes(0, 2, '!='), title='Write `!=`') if it.after[1:2] == '=' else None


PRINT = re.compile(r'\b(print|println|printf|puts|echo|write)\s*\(?\s*$')


def of_quote(it: Spot) -> Optional[Hint]:
    printing = PRINT.search(it.before)
    return foreign_word(printing[1]) if printing else None


def of_at(it: Spot) -> Optional[Hint]:
    word = ANNOTATION.match(it.after)
    if word is None:
        return None
    return Hint(f'There is no `@{word[1]}`: a method replaces the inherited one of its name, and nothing else marks it.', 'Leave it out.',
                it.changes(0, word.end(), ''), f'Remove `@{word[1]}`')


def of_semicolon(it: Spot) -> Optional[Hint]:
    """`for (..; ..; ..)`, `import a;`, and the end of a statement."""
    looping, importing = LOOPING.match(it.before), IMPORTING.match(it.before)
    if looping:
        return foreign_word(looping[1])
    if importing:
        return Hint(ALONE.replace('{word}', importing[1]), 'Leave the line out.')
    return BYTES[';']._replace(edits=it.changes(0, 1, ''), title='Remove the `;`')


OF_BYTE: Dict[str, Callable[[Spot], Optional[Hint]]] = {
    ':': of_colon, '.': of_dot, '#': of_hash, '{': of_brace, '!': of_bang, '_': of_underscore, '@': of_at, ';': of_semicolon,
    '~': of_tilde, '"': of_quote}


def byte_hint(text: bytes, at: int) -> Optional[Hint]:
    """What is said of the byte at which no token begins."""
    if text[at:at + 2] in (b'\xff\xfe', b'\xfe\xff'):
        return Hint('The source must not be UTF-16.', 'Save it as UTF-8.')
    character = text[at:at + 4].decode('utf-8', 'ignore')[:1]
    if text[at:at + len(character.encode())] != character.encode():
        character = ''
    if character.isalpha():
        return Hint(f'`{character}` must not be in a name: letters are those of ASCII.', 'Write the name with a to z.')
    lines: List[str] = [text[:at].decode('latin-1').split('\n')[-1], text[at:].decode('latin-1').split('\n')[0]]
    around = OF_BYTE[character](Spot(text, at, *lines)) if character in OF_BYTE else None
    if around is not None or character not in BYTES:
        return around
    hint = BYTES[character]
    if character not in WRITES:
        return hint
    return hint._replace(edits=(Edit(at, at + len(character.encode()), WRITES[character]),))
