"""Values by path, and what is different between two moments of a run: all from what `regs` and `cells` printed.

    value_of(moment, 'list.head.data')     # '3'; None where the path leads nowhere
    thing_of(moment, '#2')                 # the object of a reference
    no_value(moment, 'lsit.head')          # 'there is no lsit.head here; did you mean `list.head`?'
    changes(before, after)                 # ['sum: 0 -> 5', '#3.next: nil -> #4', '#4 Node is new']
"""
import re
from typing import List, Optional

from .formulas import BadFormula, Formula, NoValue, Value
from .spelling import similar
from .tokens import NAME
from .trace import Moment, Thing

MOST_THINGS = 6
PATH = re.compile(rf'(#\d+|{NAME})((?:\.{NAME}|\[\d+\])*)$')
PART = re.compile(rf'\.({NAME})|(\[\d+\])')


def value_of(moment: Moment, path: str) -> Optional[str]:
    """The value of NAME, #K, and of fields and elements reached from them: `list.head.data`, `#4.next`, `row[2]`."""
    found = PATH.match(path.replace(' ', ''))
    if not found:
        return None
    value = found[1] if found[1].startswith('#') else moment.value(found[1])
    for part in PART.finditer(found[2]):
        thing = thing_of(moment, value)
        value = dict(thing.cells).get(part[1] or part[2]) if thing else None
    return value


def computed(moment: Moment, formula: Formula) -> Value:
    """What a formula gives of the values of a moment; raises BadFormula where one of them is not there."""
    try:
        return formula.value(lambda path: value_of(moment, path))
    except NoValue as wrong:
        raise BadFormula(no_value(moment, wrong.path)) from None


def no_value(moment: Moment, path: str) -> str:
    """What is said of a path that leads nowhere: what may be meant, or at which part it ends."""
    near = path_near(moment, path)
    return f'there is no {path} here' + (f'; did you mean `{near}`?' if near else end_of_path(moment, path))


def path_near(moment: Moment, path: str) -> str:
    """The path with the names that are most like its own; '' if that leads nowhere either."""
    found = PATH.match(path.replace(' ', ''))
    if not found:
        return ''
    is_begun = value_of(moment, found[1]) is not None
    head = found[1] if is_begun else similar(found[1], [name for name, _ in moment.variables])
    for part in PART.finditer(found[2]):
        thing = thing_of(moment, value_of(moment, head))
        labels = [label for label, _ in thing.cells] if thing else []
        label = part[1] or part[2]
        near = label if label in labels else similar(label, labels) if part[1] else ''
        if not near:
            return ''
        head += joined(near)
    return head


def end_of_path(moment: Moment, path: str) -> str:
    """At which part of a path it leads no further, and why."""
    found = PATH.match(path.replace(' ', ''))
    head = found[1] if found else ''
    for part in PART.finditer(found[2] if found else ''):
        value = value_of(moment, head)
        thing = thing_of(moment, value)
        if value is None:
            return ''
        if thing is None:
            return f': {head} is {"nil" if value == "nil" else "a number" if value[0] != "#" else "no live object"}'
        if part[2] and part[2] not in dict(thing.cells) and thing.head.endswith(']'):
            return f': the length of {head} is {len(thing.cells)}'
        head += part[0]
    return ''


def thing_of(moment: Moment, value: Optional[str]) -> Optional[Thing]:
    """The object or array of a reference; None where it is nil, a number, or not live."""
    return moment.objects.get(int(value[1:])) if value and value.startswith('#') else None


def changes(before: Moment, after: Moment, number: Optional[int] = None) -> List[str]:
    """What differs, a line each: variables if both are in the same body, and objects. The fields of the current object, if
    its number is given, are listed once, as variables."""
    same_body = before.point.depth == after.point.depth and before.point.depth is not None
    lines = changed_variables(before, after) if same_body else []
    told = number if same_body else None
    for each in sorted(set(before.objects) | set(after.objects)):
        old, new = before.objects.get(each), after.objects.get(each)
        if old is None or new is None:
            continue
        if each != told:
            lines += changed_cells(old, new)
        if old.count != new.count:
            lines.append(f'#{each} {new.head}, its count: {old.count} -> {new.count}')
    lines += each_or_all([thing for thing in after.objects.values() if thing.number not in before.objects], 'new')
    return lines + each_or_all([thing for thing in before.objects.values() if thing.number not in after.objects], 'deleted')


def each_or_all(things: List[Thing], what: str) -> List[str]:
    """A line for each object, or one for many."""
    if len(things) <= MOST_THINGS:
        return [f'#{thing.number} {thing.head} is {what}' for thing in things]
    numbers = sorted(thing.number for thing in things)
    return [f'{len(things)} objects are {what}, from #{numbers[0]} to #{numbers[-1]}']


def changed_variables(before: Moment, after: Moment) -> List[str]:
    """The variables that came, went or changed; the innermost of a name counts."""
    old, new = dict(before.variables), dict(after.variables)
    lines = [f'{name}: {old[name]} -> {value}' for name, value in new.items() if name in old and old[name] != value]
    lines += [f'{name} = {value} begins' for name, value in new.items() if name not in old]
    return lines + [f'{name} = {value} ended' for name, value in old.items() if name not in new]


def changed_cells(old: Thing, new: Thing) -> List[str]:
    """The cells of an object that changed."""
    pairs = zip(old.cells, new.cells)
    return [f'#{old.number}{joined(label)}: {was} -> {now}' for (label, was), (_, now) in pairs if was != now]


def joined(label: str) -> str:
    return label if label.startswith('[') else f'.{label}'
