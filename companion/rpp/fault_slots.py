"""The names and numbers that a sentence about a fault can show: its slots.

    filled(rule.forms, fault_slots(where, 6), rule.fix)

Values are those at the moment of the test that fails, or else those that `trace` printed before the last statement that began, which
count only if that is the statement that fails. A slot that is not known drops its sentence, so that no sentence says what is not so."""
from typing import Dict, List, NamedTuple, Optional

from .slots import Slots, end_of_place
from .trace import Moment, Thing


class Where(NamedTuple):
    """A fault: the text, and the byte of the statement that fails. `moment` is what was there before the last statement that began, and
    `failed` the moment of a test that fails at the end of the statement. `is_back` says whether the body runs backward. `index` and
    `length` are the index that fails and the length of its array, if a session says them."""
    text: bytes
    at: int
    moment: Optional[Moment]
    is_back: bool
    heap: int
    depth: int
    failed: Optional[Moment] = None
    index: str = ''
    length: str = ''


def fault_slots(where: Where, number: int) -> Dict[str, str]:
    """What is known about fault `number`."""
    found = _FaultSlots(where)
    known = {'heap': f'{1 << where.heap:,}', 'depth': str(where.depth)}
    if found.here is not None:
        known.update(form=found.here.form, **getattr(found, f'of_{number}', dict)())
    return {name: value for name, value in known.items() if value}


class _FaultSlots(Slots):
    def __init__(self, where: Where):
        super().__init__(where.text, where.at)
        self.is_back, self.index, self.length = where.is_back, where.index, where.length
        self.here = next((each for each in self.source.statements() if each.first == self.token), None)
        begins_here = where.moment is not None and where.moment.point.place == where.at
        self.moment = where.failed or (where.moment if begins_here else None)

    # ---- places and values

    def places(self) -> List[int]:
        """The variables of the statement that are in no index and no length; of a `construct` the local that it opens."""
        if self.here.form == 'construct':
            return [self.here.first + 2]
        depth, found, variables = 0, [], set(self.variables(self.here))
        for token in range(self.here.first, self.here.last + 1):
            depth += (self.word_at(token) == '[') - (self.word_at(token) == ']')
            if depth == 0 and token in variables:
                found.append(token)
        return found

    def shown(self, token: int) -> str:
        """A place as the text has it, with its index."""
        return self.spelled(token, end_of_place(self.source, token))

    def is_element(self, token: int) -> bool:
        return self.word_at(token + 1) == '['

    def value(self, token: int) -> str:
        """The value of a variable, or of an element whose index is a number or a variable."""
        if self.moment is None:
            return ''
        value = self.moment.value(self.word_at(token)) or ''
        if not self.is_element(token):
            return value
        array, index = self.thing_of(value), self.simple(token + 2, end_of_place(self.source, token) - 1)
        return dict(array.cells).get(f'[{index}]', '') if array else ''

    def thing_of(self, value: str) -> Optional[Thing]:
        return self.moment.objects.get(int(value[1:])) if self.moment and value.startswith('#') else None

    def thing(self, token: int) -> Optional[Thing]:
        """The object or array of a place."""
        return self.thing_of(self.value(token))

    def simple(self, first: int, last: int) -> str:
        """The value of an expression that is a number or a variable."""
        if first != last:
            return ''
        return self.word_at(first) if self.source.tokens[first].kind == 'number' else self.value(first)

    def length_tokens(self):
        """The first and the last token of the length that `new` and `delete` name."""
        first = self.here.first + 2
        return (first + 1, end_of_place(self.source, first - 1) - 1) if self.word_at(first) == '[' else None

    # ---- a function for each fault

    def of_1(self):
        if self.here.form != 'if' or len(self.here.closers) < 3:
            return {}
        return {'condition': self.spelled(self.here.first + 1, self.here.closers[0] - 1),
                'assertion': self.spelled(self.here.closers[-1] + 1, self.here.last)}

    def of_2(self):
        if self.here.form != 'from' or len(self.here.closers) < 3:
            return {}
        return {'assertion': self.spelled(self.here.first + 1, self.here.closers[0] - 1),
                'condition': self.spelled(self.here.closers[-1] + 1, self.here.last)}

    def of_3(self):
        if self.here.form != 'local' or self.here.closing_at is None:
            return {}
        name = self.here.variable.name
        found = {'name': name, 'given': (self.moment and self.moment.value(name)) or ''}
        if not self.is_back:
            return {**found, 'value': self.spelled(self.here.closing_at + 2, self.here.last)}
        last = max(number for number, each in enumerate(self.source.tokens) if each.end <= self.here.variable.begins)
        return {**found, 'value': self.spelled(self.here.variable.name_at + 2, last)}

    def of_4(self):
        target = self.places()[-1]
        return {'place': self.shown(target), 'reference': self.value(target)}

    def of_5(self):
        empty = {self.word_at(each): each for each in self.variables(self.here)
                 if self.moment and (self.moment.value(self.word_at(each)) == 'nil' or self.value(each) == 'nil')}
        if len(empty) != 1:
            return {}
        name, token = next(iter(empty.items()))
        # (an update and a swap have no word of their own, and are their own inverse or run with another sign)
        undone = self.here.form if self.here.form not in ('update', 'swap') else ''
        return {'place': name if self.moment.value(name) == 'nil' else self.shown(token), 'undone': undone}

    def of_6(self):
        target = self.places()[-1]
        thing = self.thing(target)
        return {'place': self.shown(target), **({'reference': f'#{thing.number}', 'count': str(thing.count)} if thing else {})}

    def of_7(self):
        thing = self.thing(self.places()[-1])
        full = [(label, value) for label, value in thing.cells if value not in ('0', 'nil')] if thing else []
        return {'field': full[0][0], 'value': full[0][1], 'reference': f'#{thing.number}'} if full else {}

    def of_8(self):
        made, length = self.word_at(self.here.first + 1), self.length_tokens()
        if self.here.form == 'construct' or self.here.form in ('new', 'delete') and not length:
            owner = self.names.classes.get(made)
            return {'words': f'{len(self.names.all_fields(owner)) + 2:,}'} if owner else {}
        count = self.simple(*length) if length else ''
        return {'words': f'{int(count) + 2:,}' if count.isdigit() else ''}

    def of_9(self):
        elements = [each for each in self.variables(self.here) if self.is_element(each)]
        if self.index:
            return {'array': self.word_at(elements[0]) if len(elements) == 1 else '', 'length': self.length, 'index': self.index}
        if len(elements) != 1 or self.moment is None:
            return {}
        array = self.thing_of(self.moment.value(self.word_at(elements[0])) or '')
        return {'array': self.word_at(elements[0]), 'length': str(len(array.cells)) if array else '',
                'index': self.simple(elements[0] + 2, end_of_place(self.source, elements[0]) - 1)}

    def of_10(self):
        first, second = self.places()[-2:]
        return {'first': self.shown(first), 'second': self.shown(second), 'first_reference': self.value(first),
                'second_reference': self.value(second)}

    def of_11(self):
        thing = self.thing(self.places()[-1])
        return {'wanted': thing.head, 'reference': f'#{thing.number}', 'given': self.word_at(self.here.first + 1)} if thing else {}

    def of_12(self):
        thing = self.thing(self.places()[-1])
        return {'length': str(len(thing.cells)), 'reference': f'#{thing.number}'} if thing else {}

    def of_13(self):
        length = self.length_tokens()
        return {'expression': self.spelled(*length), 'value': self.simple(*length)} if length else {}

    def of_15(self):
        moved = {self.word_at(each): '0' if self.type_at(each) == 'int' else 'nil' for each in self.arguments(self.here)}
        moved.update({self.word_at(use.receiver.at): 'nil' for use in self.here.uses if use.kind == 'method' and use.receiver})
        if len(moved) == 1:
            return {'name': list(moved)[0], 'empty': list(moved.values())[0]}
        names = [f'`{each}`' for each in moved]
        return {'names': f'{", ".join(names[:-1])} and {names[-1]}'} if names else {}

    def of_16(self):
        elements = [self.word_at(each) for each in self.variables(self.here) if self.is_element(each)]
        return {'changed': elements[0], 'read': elements[1]} if len(elements) == 2 else {}
