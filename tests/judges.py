"""Plain checkers of texts and files, independent of the program: each finds the first refusal by the rules of a format.

A refusal is its number with its position, or with None. docs/reference/formats.md and docs/reference/messages.md have the
rules."""
import re

NAMES = dict(enumerate('''BadByte NumberTooLarge Syntax Limit DuplicateClass UnknownClass InheritanceCycle DuplicateField DuplicateMethod
OverrideDiffers NoMain TwoMains UnknownName Redeclared TypeDiffers SelfUpdate SameArgument FieldArgument WrongArity NotAnArray
RefusedOperator LocalInOwnExpression NotClassType BadLine UnknownMnemonic DuplicateLabel UnknownLabel NotOneToOne NoStart NoFinish
ImageTruncated ImageMagic ImageField ImageTrailing HeapOrder DeepRange UnknownField BadState BadCommand BadInputLine TooManyCells
- BadNote UnknownResult'''.split(), 1))

# The instructions in the order of their numbers, each with its operands: registers, a word, an amount, or an offset.
OPERANDS = {'ADD': 'rr', 'SUB': 'rr', 'XOR': 'rr', 'NEG': 'r', 'ADDI': 'rw', 'XORI': 'rw', 'RL': 'rn', 'RR': 'rn', 'RLV': 'rr',
            'RRV': 'rr', 'ANDX': 'rrr', 'ORX': 'rrr', 'NORX': 'rrr', 'SLTX': 'rrr', 'ANDIX': 'rrw', 'ORIX': 'rrw', 'SLLX': 'rrn',
            'SRLX': 'rrn', 'SRAX': 'rrn', 'SLLVX': 'rrr', 'SRLVX': 'rrr', 'SRAVX': 'rrr', 'EXCH': 'rr', 'SWAPBR': 'r', 'BRA': 'o',
            'RBRA': 'o', 'BEQ': 'rro', 'BNE': 'rro', 'BGEZ': 'ro', 'BGTZ': 'ro', 'BLEZ': 'ro', 'BLTZ': 'ro', 'START': '', 'FINISH': '',
            'DATA': 'w'}
ROWS = [None, *OPERANDS.values()]
START, FINISH = 33, 34
LONG_SIGNS = [b'<=>', b'+=', b'-=', b'^=', b'&&', b'||', b'<=', b'>=', b'!=', b'::']
WHITE = b' \t\n\r'


class Refused(Exception):
    """A refusal that was found."""


def line_of(refusal):
    """The line that reports a refusal."""
    number, place = refusal
    return f'refused {number} {NAMES[number]}' + ('' if place is None else f' at {place}') + '\n'


def found(judge, *given):
    """The refusal that a checker finds, or None."""
    try:
        judge(*given)
        return None
    except Refused as refusal:
        return refusal.args[0]


def refuse(number, place=None):
    raise Refused((number, place))


# ---- images and states

def field(data, at, width, low, high):
    """The number of so many bytes at a place, the lowest first, which is in a range."""
    piece = data[at:at + width]
    if len(piece) < width:
        refuse(31, len(data))
    number = int.from_bytes(piece, 'little')
    if not low <= number <= high:
        refuse(33, at)
    return number


def judge_image(data):
    """The bytes of an image."""
    if len(data) < 4:
        refuse(31, len(data))
    if data[:4] != b'RPPI':
        refuse(32, 0)
    version, cells, statics = field(data, 4, 4, 1, 2), field(data, 8, 4, 2, 8050000), field(data, 12, 4, 0, 262144)
    kinds = [judge_cell(data, 16 + 8 * number) for number in range(min(cells, len(data)))]
    end = 16 + 8 * cells + 4 * statics
    if len(data) < end:
        refuse(31, len(data))
    if version == 2:
        end = judge_names(data, judge_marks(data, end, cells), statics)
    if len(data) > end:
        refuse(34, end)
    if kinds.count(START) != 1:
        refuse(29)
    if kinds.count(FINISH) != 1:
        refuse(30)


def judge_cell(data, at):
    """The code cell at a place, whose number is the answer."""
    kind = field(data, at, 1, 1, 35)
    row = ROWS[kind]
    count = row.count('r')
    registers = [field(data, at + number, 1, 0, 31 if number <= count else 0) for number in (1, 2, 3)]
    field(data, at + 4, 4, 0, 31 if row.endswith('n') else 0 if row.endswith('r') or not row else 2 ** 32 - 1)
    if not row.endswith('o') and registers[0] in registers[1:count]:
        refuse(28, at)
    return kind


def judge_marks(data, at, cells):
    """The source-map entries at an offset, then the answer."""
    count = field(data, at, 4, 0, 20000)
    for mark in range(at + 4, at + 4 + 12 * count, 12):
        first = field(data, mark, 4, 0, cells)
        field(data, mark + 4, 4, first, cells)
        field(data, mark + 8, 4, 0, 1048575)
    return at + 4 + 12 * count


def judge_names(data, at, statics):
    """The names at an offset, then the answer."""
    count, at, left = field(data, at, 4, 0, 64), at + 4, 1048576
    for _ in range(count):
        field(data, at, 4, 40, statics + 39)
        length = field(data, at + 4, 4, 1, left)
        at += 8
        for place in range(at, at + length):
            if place >= len(data):
                refuse(31, len(data))
            if not re.match(rb"[A-Za-z]" if place == at else rb"[A-Za-z0-9_']", data[place:place + 1]):
                refuse(33, place)
        at, left = at + length, left - length
    return at


def judge_state(data, cells):
    """The bytes of a state with so many cells."""
    end = 140 + 4 * cells
    if len(data) >= 4 and data[:4] != b'RPPS':
        refuse(38, 0)
    if len(data) >= 8 and data[4:8] != b'\1\0\0\0':
        refuse(38, 4)
    if len(data) >= 140 and int.from_bytes(data[136:140], 'little') != cells:
        refuse(38, 136)
    if len(data) != end:
        refuse(38, min(len(data), end))


# ---- lines of scripts and inputs

def is_number(word, low, high):
    return bool(re.fullmatch(rb'[0-9]+', word)) and low <= int(word) <= high


def is_short(word):
    return bool(re.fullmatch(rb'[0-9]{1,18}', word))


def is_name(word):
    return bool(re.fullmatch(rb"[A-Za-z][A-Za-z0-9_']*", word))


def words_of(line):
    return [word for word in re.split(rb'[ \t]', line) if word]


def is_blank(line):
    return not line.strip(b' \t')


def without_return(line):
    return line[:-1] if line.endswith(b'\r') else line


def is_debugger_line(words):
    name, *rest = words
    if name == b'regs':
        return not rest
    if name in (b'step', b'back'):
        return len(rest) == 1 and is_short(rest[0])
    if name in (b'to', b'backto'):
        return len(rest) == 2 and is_short(rest[0]) and is_short(rest[1])
    return name == b'cells' and len(rest) == 2 and is_number(rest[0], 0, 2 ** 32 - 1) and is_number(rest[1], 1, 1000)


def is_cluster_line(words):
    """A line of a script of two processors."""
    name, *rest = words
    if name == b'rewind':
        return not rest
    if name == b'undo':
        return len(rest) == 1 and is_number(rest[0], 1, 2)
    return name == b'step' and len(rest) == 2 and is_number(rest[0], 1, 2) and is_number(rest[1], 1, 10000)


def judge_script(text, is_line):
    """The lines of a script. In front of a line feed a carriage return counts for nothing."""
    lines = text.split(b'\n')
    for number, line in enumerate(lines, 1):
        line = line if number == len(lines) else without_return(line)
        if not is_blank(line) and not is_line(line.split(b' ')):
            refuse(39, number)


def judge_input(text):
    """An input that may set the fields x and y."""
    left = {b'x', b'y'}
    for number, line in enumerate(text.split(b'\n'), 1):
        if is_blank(line):
            continue
        sides = [words_of(side) for side in line.split(b'=')]
        if [len(side) for side in sides] != [1, 1] or not is_name(sides[0][0]):
            refuse(40, number)
        word = sides[1][0]
        if not (is_number(word, 0, 2 ** 31 - 1) or word[:1] == b'-' and is_number(word[1:], 0, 2 ** 31)):
            refuse(40, number)
        if sides[0][0] not in left:
            refuse(37, number)
        left.remove(sides[0][0])


# ---- assembly texts

def is_label_name(word):
    return bool(re.fullmatch(rb'[A-Za-z_][A-Za-z0-9_]*', word))


def is_between(word, low, high):
    """A number from minus `low` to `high`, with or without a sign."""
    digits = word[1:] if word[:1] in (b'-', b'+') else word
    return is_number(digits, 0, low if word[:1] == b'-' else high)


def fits_operand(kind, word):
    if kind == 'r':
        return bool(re.fullmatch(rb'\$(0|[1-9][0-9]*)', word)) and int(word[1:]) <= 31
    if kind == 'w':
        return is_between(word, 2 ** 31, 2 ** 32 - 1)
    if kind == 'n':
        return is_between(word, 0, 31)
    return is_between(word, 2 ** 31, 2 ** 31 - 1) or is_label_name(word)


def judge_form(words, line):
    """The words after the labels of a line, by their form."""
    name, *rest = words or [b'']
    if not words:
        return
    if name == b'STATIC':
        fits = len(rest) == 1 and fits_operand('w', rest[0])
    elif name == b'MARK':
        fits = len(rest) == 3 and all(is_number(word, 0, 2 ** 32 - 1) for word in rest)
    elif name == b'NAME':
        fits = len(rest) == 2 and is_number(rest[0], 0, 2 ** 32 - 1) and is_name(rest[1])
    else:
        row = OPERANDS.get(name.decode('latin-1'))
        if row is None:
            refuse(25, line)
        fits = len(rest) == len(row) and all(map(fits_operand, row, rest))
    if not fits:
        refuse(24, line)


def judge_lines(text):
    """The lines in turn, up to the first that is refused by itself; the answer is what they contain."""
    labels, wanted, notes, code, statics = set(), [], [], [], 0
    for number, line in enumerate(text.split(b'\n'), 1):
        words = words_of(without_return(line).split(b';')[0])
        own = []
        while words and words[0].endswith(b':') and is_label_name(words[0][:-1]):
            own.append(words.pop(0)[:-1])
        judge_form(words, number)
        for label in own:
            if label in labels:
                refuse(26, number)
            labels.add(label)
        name = words[0] if words else b''
        row = OPERANDS.get(name.decode('latin-1'), '')
        if not row.endswith('o') and row.startswith('rr') and words[1] in words[2:1 + row.count('r')]:
            refuse(28, number)
        if name in (b'MARK', b'NAME'):
            notes.append((number, words))
        elif name == b'STATIC':
            statics += 1
        elif words:
            code.append(name)
            if row.endswith('o') and is_label_name(words[-1]):
                wanted.append((words[-1], number))
    return labels, wanted, notes, code, statics


def judge_assembly(text):
    """An assembly text of few notes."""
    labels, wanted, notes, code, statics = judge_lines(text)
    for label, number in wanted:
        if label not in labels:
            refuse(27, number)
    if code.count(b'START') != 1:
        refuse(29)
    if code.count(b'FINISH') != 1:
        refuse(30)
    for number, (name, *rest) in notes:
        first = int(rest[0])
        if name == b'MARK' and not (first <= int(rest[1]) <= len(code) and int(rest[2]) <= 1048575):
            refuse(43, number)
        if name == b'NAME' and not 40 <= first < 40 + statics:
            refuse(43, number)


# ---- tokens

def length_of_token(text):
    """The length of the token that a text begins with; 0 where it begins with none."""
    word = re.match(rb"[A-Za-z][A-Za-z0-9_']*|[0-9]+", text)
    if word:
        return word.end()
    for sign in LONG_SIGNS:
        if text.startswith(sign):
            return len(sign)
    return int(text[:1] in [bytes([byte]) for byte in b'+-^&|<>=*/%()[],'])


def cut_tokens(text):
    """The offsets where tokens begin, as far as they go, and the first refusal of the tokenization."""
    at, places = 0, []
    while True:
        at = re.compile(rb'(?:[ \t\n\r]|//[^\n]*)*').match(text, at).end()
        if at >= len(text):
            return places, None
        length = length_of_token(text[at:])
        token = text[at:at + length]
        if not token:
            return places, (1, at)
        if token.isdigit() and int(token) > 2 ** 31 - 1:
            return places, (2, at)
        places.append(at)
        at += length
