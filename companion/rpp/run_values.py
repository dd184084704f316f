"""What `rpp run --json` prints of a run."""
from typing import Any, Dict, List

from .advice import of_refusal
from .explain import of_fault
from .fault_slots import Where
from .faults import find_fault
from .json_values import JSON_VERSION, message_value, place_value
from .messages import Told
from .places import Text
from .program import Program
from .reading import shown
from .results import Result
from .trace import Moment

OUTCOMES = {'done': 'finished', 'refused': 'refused', 'fault': 'fault', 'bound': 'bound'}


def run_value(program: Program, wanted, told: Told) -> Dict[str, Any]:
    """The answer of a run; `wanted` has source, heap, depth, steps, inputs and back."""
    value: Dict[str, Any] = {'version': JSON_VERSION, 'command': 'run', 'file': shown(wanted.source), 'status': told.status,
                             'outcome': OUTCOMES.get(told.kind, 'failed')}
    if told.kind == 'done':
        found = Result.both(told.output) if wanted.back else [Result.read(told.output)]
        value.update(report_value(found[0]))
        if wanted.back:
            value['back'] = report_value(found[1])
    elif told.kind == 'refused':
        value.update(refusal_value(wanted, told))
    elif told.kind == 'fault':
        value.update(fault_value(program, wanted, told))
    elif told.kind == 'bound':
        value['steps'] = wanted.steps
    else:
        value['why'] = told.first_line
    return value


def report_value(report: Result) -> Dict[str, Any]:
    """The fields and objects that are left, as they were printed, and the numbers after them."""
    as_value = lambda text: int(text) if text.lstrip('-').isdigit() else None if text == 'nil' else text
    objects = [{'number': each.number, 'head': each.head, 'count': each.count,
                'cells': {label: as_value(text) for label, text in each.cells}} for each in report.objects.values()]
    return {'fields': {name: as_value(text) for name, text in report.fields.items()}, 'objects': objects, **report.numbers}


def refusal_value(wanted, told: Told) -> Dict[str, Any]:
    value: Dict[str, Any] = {'number': told.number, 'name': told.name}
    if told.status != 3:
        return value
    text = Text.read(wanted.source)
    return {**value, **place_value(text, told.at), **message_value(of_refusal(text.content, told.number, told.at))}


def variables_value(moment: Moment) -> List[Dict[str, str]]:
    return [{'name': name, 'value': shown_value} for name, shown_value in moment.variables]


def fault_value(program: Program, wanted, told: Told) -> Dict[str, Any]:
    """The fault, the statement that fails, and the last one that began with the variables before it."""
    text = Text.read(wanted.source)
    found = find_fault(program, wanted, text)
    where = None
    value: Dict[str, Any] = {'number': told.number, 'name': told.name, 'steps': told.number_behind('steps')}
    if found.statement is not None:
        where = Where(text.content, found.statement, found.moment, found.is_back, wanted.heap, wanted.depth, found.test and found.test.moment,
                      *found.index)
        value.update(place_value(text, found.statement))
    value.update(message_value(of_fault(told.number, where)))
    if found.test is not None:
        value['test'] = {**place_value(text, found.test.at), 'found': found.test.title, 'variables': variables_value(found.test.moment)}
    if found.point is not None:
        value['last'] = {'position': found.point.position, **place_value(text, found.point.place),
                         'variables': variables_value(found.moment)}
    return value
