#!/usr/bin/env python3
"""Lowers a WebAssembly module whose memory and table have addresses of 64 bits to one whose addresses have 32 bits, so that
engines without large memories can run it:  lower.py IN OUT

Inside the program a pointer keeps its 64 bits, so layouts, imports and exports stay as they are. Only where an address meets
the memory or the table, its upper half is dropped. The two modules do the same as long as every address that the program uses
lies inside its memory of at most 4 GiB. Custom sections do not change what a module does, and are left out.

As a library: `lowered(module)` gives the bytes of the lowered module, or raises CannotLower, which says why it cannot."""
import sys

HEAD = b'\0asm\1\0\0\0'
I32, I64, F32, F64 = 0x7F, 0x7E, 0x7D, 0x7C
SET_LOCAL, GET_LOCAL = b'\x21', b'\x20'
WRAP, EXTEND_UNSIGNED, EXTEND_SIGNED = b'\xa7', b'\xad', b'\xac'
CONSTANT_32, CONSTANT_64, END = 0x41, 0x42, 0x0B

# Sections by their numbers.
CUSTOM, TYPES, IMPORTS, FUNCTIONS, TABLES, MEMORIES, ELEMENTS, CODE, DATA = 0, 1, 2, 3, 4, 5, 9, 10, 11
HAS_MOST, HAS_64_BITS = 1, 4
MOST_PAGES = 1 << 16
MOST_OFFSET = 1 << 32

# Instructions by what follows their first byte. Nothing follows ALONE.
ALONE = {0x00, 0x01, 0x05, END, 0x0F, 0x1A, 0x1B, *range(0x45, 0xC5)}
ONE_NUMBER = {0x02, 0x03, 0x04, 0x0C, 0x0D, 0x10, *range(0x20, 0x25), CONSTANT_32, CONSTANT_64, 0xD2}
FLOATS = {0x43: 4, 0x44: 8}
BRANCH_TABLE, CALL_INDIRECT, TYPED_SELECT, MEMORY_SIZE, MEMORY_GROW, MORE = 0x0E, 0x11, 0x1C, 0x3F, 0x40, 0xFC
LOADS = range(0x28, 0x36)
STORES = {0x36: I32, 0x37: I64, 0x38: F32, 0x39: F64, 0x3A: I32, 0x3B: I32, 0x3C: I64, 0x3D: I64, 0x3E: I64}
# After the byte 0xfc: the conversions that saturate have numbers below this one, and these two take addresses.
SATURATING, MEMORY_COPY, MEMORY_FILL = 8, 10, 11


class CannotLower(Exception):
    """The module has something that this tool does not know how to lower; the text says what."""


def needs(holds, what):
    if not holds:
        raise CannotLower(what)


def number_bytes(number):
    """A number as WebAssembly writes it without a sign: seven bits in a byte, the lowest first."""
    out = b''
    while True:
        out += bytes([number & 127 | (128 if number > 127 else 0)])
        number >>= 7
        if not number:
            return out


class Reader:
    """Reads a part of a module from its front."""

    def __init__(self, data):
        self.data, self.at = data, 0

    def has_more(self):
        return self.at < len(self.data)

    def byte(self):
        self.at += 1
        needs(self.at <= len(self.data), 'the module ends too early')
        return self.data[self.at - 1]

    def bytes(self, count):
        self.at += count
        needs(self.at <= len(self.data), 'the module ends too early')
        return self.data[self.at - count:self.at]

    def number(self):
        value = shift = 0
        while True:
            byte = self.byte()
            value |= (byte & 127) << shift
            shift += 7
            if byte < 128:
                return value

    def skip_number(self, count=1):
        """Passes over numbers, with or without a sign."""
        for _ in range(count):
            while self.byte() >= 128:
                pass

    def rest(self):
        return self.bytes(len(self.data) - self.at)


class Body:
    """The body of a function. The code that drops the upper half of an address below other operands keeps those in locals
    of its own, one for each type."""

    def __init__(self, data, parameters):
        self.reader = Reader(data)
        groups = [(self.reader.number(), self.reader.byte()) for _ in range(self.reader.number())]
        self.groups, self.locals, self.added = groups, parameters + sum(count for count, _ in groups), {}

    def lowered(self):
        parts = []
        while self.reader.has_more():
            parts.append(self.instruction())
        code = b''.join(parts)
        groups = [*self.groups, *((1, kind) for kind in self.added)]
        written = number_bytes(len(groups)) + b''.join(number_bytes(count) + bytes([kind]) for count, kind in groups)
        return number_bytes(len(written) + len(code)) + written + code

    def local(self, kind):
        return number_bytes(self.added.setdefault(kind, self.locals + len(self.added)))

    def below(self, *kinds):
        """Code that drops the upper half of the address below operands of these types, the topmost last."""
        keeps = b''.join(SET_LOCAL + self.local(kind) for kind in reversed(kinds))
        return keeps + WRAP + b''.join(GET_LOCAL + self.local(kind) for kind in kinds)

    def instruction(self):
        start, code = self.reader.at, self.reader.byte()
        if code in LOADS or code in STORES:
            return (self.below(STORES[code]) if code in STORES else WRAP) + bytes([code]) + self.place()
        before, after = self.operands(code), EXTEND_UNSIGNED if code == MEMORY_SIZE else EXTEND_SIGNED if code == MEMORY_GROW else b''
        return before + self.reader.data[start:self.reader.at] + after

    def place(self):
        """The alignment and the offset of a load or store, which stay."""
        alignment, offset = self.reader.number(), self.reader.number()
        needs(alignment < 64, 'the module has more than one memory')
        needs(offset < MOST_OFFSET, f'an offset of {offset} has more than 32 bits')
        return number_bytes(alignment) + number_bytes(offset)

    def operands(self, code):
        """Passes over what follows an instruction's first byte, and gives the code that lowers its addresses."""
        reader = self.reader
        if code in ONE_NUMBER or code == MEMORY_SIZE:
            reader.skip_number()
        elif code == BRANCH_TABLE:
            reader.skip_number(reader.number() + 1)
        elif code == CALL_INDIRECT:
            reader.skip_number(2)
            return WRAP
        elif code == MEMORY_GROW:
            reader.skip_number()
            return WRAP
        elif code == TYPED_SELECT:
            reader.bytes(reader.number())
        elif code in FLOATS:
            reader.bytes(FLOATS[code])
        elif code == MORE:
            return self.more(reader.number())
        else:
            needs(code in ALONE, f'the instruction {code:#x} is not known')
        return b''

    def more(self, code):
        """The same for the instructions whose first byte is 0xfc."""
        if code == MEMORY_COPY:
            self.reader.skip_number(2)
            # Both addresses and the length on top of them: the length keeps its 64 bits in a local.
            length, source = SET_LOCAL + self.local(I64), self.local(I32)
            return length + WRAP + SET_LOCAL + source + WRAP + GET_LOCAL + source + GET_LOCAL + self.local(I64) + WRAP
        if code == MEMORY_FILL:
            self.reader.skip_number()
            return self.below(I32, I64) + WRAP
        needs(code < SATURATING, f'the instruction 0xfc {code:#x} is not known')
        return b''


def limits(section, most):
    """The limits of a memory or table of 64 bits, as those of one of 32 bits."""
    flags, least = section.number(), section.number()
    needs(flags in (HAS_64_BITS, HAS_64_BITS | HAS_MOST), 'a memory or table is not one of 64 bits')
    needs(least <= most, 'a memory or table is larger than one of 32 bits can be')
    bound = number_bytes(min(section.number(), most)) if flags & HAS_MOST else b''
    return number_bytes(flags & HAS_MOST) + number_bytes(least) + bound


def start_of(section):
    """The constant place where a segment of data or elements begins."""
    needs(section.byte() == CONSTANT_64, 'a segment does not begin at a constant')
    first = section.at
    section.skip_number()
    number = section.data[first:section.at]
    needs(section.byte() == END and len(number) <= 4, 'a segment begins at too high an address')
    return bytes([CONSTANT_32]) + number + bytes([END])


def parameters_of(section):
    """How many parameters the functions of each type have."""
    counts = []
    for _ in range(section.number()):
        needs(section.byte() == 0x60, 'a type is not that of a function')
        counts.append(section.number())
        section.bytes(counts[-1])
        section.bytes(section.number())
    return counts


def check_imports(section):
    for _ in range(section.number()):
        section.bytes(section.number())
        section.bytes(section.number())
        needs(section.byte() == 0, 'the module imports something that is not a function')
        section.skip_number()


def only(section):
    needs(section.number() == 1, 'the module has more than one memory, table or segment of elements')
    return b'\x01'


def memories(section):
    return only(section) + limits(section, MOST_PAGES)


def tables(section):
    return only(section) + bytes([section.byte()]) + limits(section, MOST_OFFSET - 1)


def elements(section):
    needs(only(section) and section.number() == 0, 'the elements are not those of the only table')
    return b'\x01\x00' + start_of(section) + section.rest()


def data(section):
    count = section.number()
    out = number_bytes(count)
    for _ in range(count):
        needs(section.number() == 0, 'a segment of data is not one of the only memory')
        out += b'\x00' + start_of(section)
        size = section.number()
        out += number_bytes(size) + section.bytes(size)
    return out


def code_of(section, types, parameters):
    needs(section.number() == len(types), 'the module has not one body for each function')
    bodies = [Body(section.bytes(section.number()), parameters[kind]).lowered() for kind in types]
    return number_bytes(len(bodies)) + b''.join(bodies)


LOWERED = {TABLES: tables, MEMORIES: memories, ELEMENTS: elements, DATA: data}


def lowered(module):
    """The bytes of the lowered module."""
    needs(module[:len(HEAD)] == HEAD, 'the file is no WebAssembly module of version 1')
    reader, out, types, parameters = Reader(module[len(HEAD):]), [HEAD], [], []
    while reader.has_more():
        number, content = reader.byte(), reader.bytes(reader.number())
        if number == CUSTOM:
            continue
        if number == TYPES:
            parameters = parameters_of(Reader(content))
        elif number == IMPORTS:
            check_imports(Reader(content))
        elif number == FUNCTIONS:
            section = Reader(content)
            types = [section.number() for _ in range(section.number())]
        elif number == CODE:
            content = code_of(Reader(content), types, parameters)
        elif number in LOWERED:
            content = LOWERED[number](Reader(content))
        out.append(bytes([number]) + number_bytes(len(content)) + content)
    return b''.join(out)


def has_small_addresses(module):
    """Whether the module's memory has addresses of 32 bits already."""
    reader = Reader(module[len(HEAD):])
    while reader.has_more():
        number, content = reader.byte(), Reader(reader.bytes(reader.number()))
        if number == MEMORIES and content.number():
            return not content.number() & HAS_64_BITS
    return False


def main(words):
    if len(words) != 2:
        sys.exit(__doc__)
    try:
        with open(words[0], 'rb') as given:
            made = lowered(given.read())
    except (CannotLower, OSError) as why:
        sys.exit(f'lower.py: {why}')
    with open(words[1], 'wb') as out:
        out.write(made)
    print(f'{words[1]}: {len(made)} bytes')


if __name__ == '__main__':
    main(sys.argv[1:])
