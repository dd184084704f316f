"""Words of objects: in blocks of the heap, and of a result what is garbage."""
from typing import Dict, List, Optional, Set

from .memory import HEADER_WORDS, order_for
from .options import Unfit
from .results import Result
from .spelling import similar
from .trace import Thing


def own_words(thing: Thing) -> int:
    """The words of an object or array: two in front, and its cells."""
    return HEADER_WORDS + len(thing.cells)


def block_words(things: List[Thing]) -> int:
    """The words of the blocks that these objects have in the heap."""
    return sum(1 << order_for(own_words(thing)) for thing in things)


def reached(result: Result, values: List[str]) -> Set[int]:
    """The numbers of the objects to which references lead from these values."""
    found: Set[int] = set()
    waiting = list(values)
    while waiting:
        value = waiting.pop()
        if value.startswith('#') and int(value[1:]) not in found and int(value[1:]) in result.objects:
            found.add(int(value[1:]))
            waiting += [each for _, each in result.objects[int(value[1:])].cells]
    return found


def garbage_words(result: Result, inputs: Dict[str, int], results: Optional[List[str]]) -> int:
    """The words of the store at the end that are neither result nor as at the start.

    They are the fields of the main object that are no results and have another value than at the start, and the words of
    objects to which no result leads."""
    results = results or []
    for name in results:
        if name not in result.fields:
            near = similar(name, result.fields)
            raise Unfit(f'there is no field {name}; ' + (f'did you mean `{near}`?' if near else f'the fields are {", ".join(result.fields)}'))
    kept = reached(result, [result.fields[name] for name in results])
    start = {name: str(inputs.get(name, 'nil' if value == 'nil' or value.startswith('#') else 0)) for name, value in result.fields.items()}
    fields = [name for name, value in result.fields.items() if name not in results and value != start[name]]
    return len(fields) + sum(own_words(thing) for number, thing in result.objects.items() if number not in kept)
