"""The memory of an image that was compiled from a source: what its words are, by docs/reference/machine.md ("The loaded memory"), and
docs/reference/formats.md (state files and notes).

    layout = Layout(source, notes_of(listing))
    memory = layout.memory(state_bytes, pc)
    memory.blocks           # the heap's blocks in the order of addresses: free ones, objects, arrays
    memory.main             # the main object, a block too
    memory.frames           # the frames of the active calls, the outermost first
    memory.lists            # for each order the addresses of its free blocks, as their list has them

A value is a text: a number, `nil`, or `@A` for the object or array at the address A.
"""
import re
import struct
from typing import Dict, List, NamedTuple, Optional, Tuple

from .names import Names
from .source import Class, Method, Variable, parsed

MAIN = 40
HEADER_WORDS = 2
FRAME_WORDS = 512
FIRST_VARIABLE = 16
LINK, OBJECT, PLACE = 0, 1, 2
OBJECT_REGISTER, FRAME_REGISTER = 3, 4
MARK = re.compile(r'^MARK (\d+) (\d+) (\d+)$', re.M)
Cells = Tuple[Tuple[str, str], ...]


class Mark(NamedTuple):
    """The code cells of a statement, from the first to the one before the last, and its place in the source."""
    first: int
    last: int
    place: int


class Block(NamedTuple):
    """A block of the heap, or the main object: its address, its words, what it is (`free`, `object`, `array` or `taken`),
    its class or form, its count, and its cells."""
    address: int
    words: int
    kind: str
    head: str = ''
    count: int = 0
    cells: Cells = ()


class Frame(NamedTuple):
    """The frame of an active call: its address, the method, the address of the object on which it runs, the place in the
    source that it is at, and its variables."""
    address: int
    method: str
    on: int
    place: Optional[int]
    variables: Cells


class Memory(NamedTuple):
    """The memory of a moment."""
    order: int
    base: int
    stack: int
    main: Block
    blocks: List[Block]
    lists: Dict[int, List[int]]
    frames: List[Frame]


def taken_words(memory: Memory) -> int:
    return sum(block.words for block in memory.blocks if block.kind != 'free')


def block_words(block: Block) -> str:
    """A block in words: what it is, its count and its cells."""
    if block.kind == 'free':
        return f'free, order {order_for(block.words)}'
    if block.kind == 'taken':
        return 'taken'
    shown = ' '.join(value if block.kind == 'array' else f'{name}={value}' for name, value in block.cells)
    return f'{block.head}, count {block.count}: {shown}'


def frame_words(frame: Frame) -> str:
    if not frame.method:
        return 'a call that is being made'
    shown = ' '.join(f'{name}={value}' for name, value in frame.variables)
    return f'{frame.method} on @{frame.on}{": " if shown else ""}{shown}'


def notes_of(listing: str) -> List[Mark]:
    """The marks of a listing."""
    return [Mark(*map(int, found)) for found in MARK.findall(listing)]


def signed(word: int) -> int:
    return word - (1 << 32) if word >> 31 else word


def order_for(words: int) -> int:
    """The least order, from 1, whose blocks hold so many words."""
    return max(1, (words - 1).bit_length())


class Layout:
    """What the words of a program's memory are, by its source and the marks of its image."""

    def __init__(self, source: bytes, marks: List[Mark]):
        self.source = source
        self.marks = marks
        self.names = Names(parsed(source))
        self.classes = self.names.source.classes
        self.main_class = next(method.owner for method in self.names.source.methods()
                               if method.name == 'main' and not method.parameters)
        self.tables: Dict[int, Class] = {}
        address = MAIN + HEADER_WORDS + len(self.names.all_fields(self.main_class))
        for each in self.classes:
            self.tables[address] = each
            address += 1 + len(self.slots(each))

    def slots(self, owner: Class) -> List[str]:
        """The names of the method slots of a class: those of its parents first."""
        above = list(self.names.ancestors(owner))[::-1]
        return list(dict.fromkeys(method.name for each in above for method in each.methods))

    def place_at(self, cell: int) -> Optional[int]:
        """The place in the source of the innermost statement that has this code cell."""
        inside = [mark for mark in self.marks if mark.first <= cell < mark.last]
        return min(inside, key=lambda mark: mark.last - mark.first).place if inside else None

    def memory(self, state: bytes, pc: int) -> Memory:
        return Reading(self, state, pc).memory()


class Reading:
    """Reads the memory of one state."""

    def __init__(self, layout: Layout, state: bytes, pc: int):
        words = struct.unpack(f'<{len(state) // 4}I', state)
        self.layout = layout
        self.pc = pc
        self.registers, self.cells = words[2:34], words[35:]
        self.order, self.base, self.stack = self.cells[1:4]
        # (what is at an address, by the types of the references that lead there)
        self.types: Dict[int, str] = {}

    def memory(self) -> Memory:
        lists = {order: self.free_list(order) for order in range(1, self.order + 1)}
        frames = self.frames()
        main = self.object_at(MAIN, self.layout.main_class)
        self.walk()
        return Memory(self.order, self.base, self.stack, main, self.blocks(lists), lists, frames)

    def free_list(self, order: int) -> List[int]:
        found: List[int] = []
        address = self.cells[8 + order]
        while address and address not in found and self.in_heap(address):
            found.append(address)
            address = self.cells[address]
        return found

    def in_heap(self, address: int) -> bool:
        return self.base <= address < self.stack

    def value(self, word: int, kind: str) -> str:
        """A word of this type as a text; a reference is noted with its type."""
        if kind == 'int':
            return str(signed(word))
        if self.in_heap(word) or word == MAIN:
            self.types.setdefault(word, kind)
            return f'@{word}'
        return 'nil' if word == 0 else str(signed(word))

    # ---- the heap

    def object_at(self, address: int, owner: Class) -> Block:
        fields = self.layout.names.all_fields(owner)
        cells = tuple((each.name, self.value(self.cells[address + HEADER_WORDS + at], each.type)) for at, each in enumerate(fields))
        words = HEADER_WORDS + len(fields) if address == MAIN else 1 << order_for(HEADER_WORDS + len(fields))
        return Block(address, words, 'object', owner.name, self.cells[address + 1], cells)

    def array_at(self, address: int, kind: str) -> Block:
        length = self.cells[address]
        element = kind[:-2] if kind.endswith('[]') else 'int'
        cells = tuple((f'[{at}]', self.value(self.cells[address + HEADER_WORDS + at], element)) for at in range(length))
        head = f'{element}[{length}]' if kind else f'array[{length}]'
        return Block(address, 1 << order_for(HEADER_WORDS + length), 'array', head, self.cells[address + 1], cells)

    def block_at(self, address: int) -> Block:
        """The block that is taken here; what is not yet written in, or no longer, has no form."""
        first, kind = self.cells[address], self.types.get(address, '')
        if first in self.layout.tables and not kind.endswith('[]'):
            return self.object_at(address, self.layout.tables[first])
        if 0 < first <= self.stack - address - HEADER_WORDS:
            return self.array_at(address, kind)
        return Block(address, 2, 'taken')

    def walk(self) -> None:
        """Notes the types of all that references lead to, from the variables and the main object, which were read."""
        seen = {MAIN}
        waiting = set(self.types) - seen
        while waiting:
            for address in waiting:
                self.block_at(address)
            seen |= waiting
            waiting = set(self.types) - seen

    def blocks(self, lists: Dict[int, List[int]]) -> List[Block]:
        """All blocks of the heap, in the order of their addresses."""
        free = {address: 1 << order for order, addresses in lists.items() for address in addresses}
        found, address = [], self.base
        while address < self.stack:
            block = Block(address, free[address], 'free') if address in free else self.block_at(address)
            found.append(block)
            address += block.words
        return found

    # ---- the frames

    def frames(self) -> List[Frame]:
        """The frames of the active calls. A frame keeps the way back to the call and its method's first cell; where the call
        changed the current object, it keeps the one of before."""
        last = (self.registers[FRAME_REGISTER] - self.stack) // FRAME_WORDS if self.registers[FRAME_REGISTER] else -1
        found, on, cell = [], self.registers[OBJECT_REGISTER], self.pc
        for depth in range(last, -1, -1):
            address = self.stack + depth * FRAME_WORDS
            link, before, entry = (self.cells[address + word] for word in (LINK, OBJECT, PLACE))
            found.append(self.frame(address, on, self.layout.place_at(cell)))
            on, cell = before or on, entry + signed(link)
        return found[::-1]

    def frame(self, address: int, on: int, place: Optional[int]) -> Frame:
        names = self.layout.names
        method = names.method_at(place) if place is not None else None
        if method is None:
            return Frame(address, '', on, place, ())
        # (the last parameter has the first word)
        variables = method.parameters[::-1] + self.open_locals(method, place)
        cells = [(each.name, self.value(self.cells[address + FIRST_VARIABLE + at], each.type))
                 for at, each in enumerate(variables)]
        count = len(method.parameters)
        return Frame(address, f'{method.owner.name}::{method.name}', on, place, tuple(cells[:count][::-1] + cells[count:]))

    def open_locals(self, method: Method, place: int) -> List[Variable]:
        """The locals of a method that are open at a place, the outermost first."""
        inside = [each for each in method.locals if each.begins <= place < each.ends]
        return sorted(inside, key=lambda each: each.begins)
