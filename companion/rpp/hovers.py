"""What a pointer shows: of a name its declaration, of a statement's word its form, checks, rules and inverse."""
from typing import List

from .editing import Analysis, parameters
from .forms import Form
from .messages import fault
from .names import Declaration
from .source import Class, Method, Variable


def hover_text(text: Analysis, at: int) -> str:
    """The text for a token, in Markdown, or nothing."""
    if at in text.names.meaning:
        return _of_declaration(text, text.names.meaning[at])
    statement = text.statement_of(at)
    if statement is not None:
        return _of_form(text.form_of(statement))
    return ''


def _block(line: str) -> str:
    return f'```rpp\n{line}\n```'


def _of_declaration(text: Analysis, declaration: Declaration) -> str:
    parts = [_block(text.heading(declaration))]
    if isinstance(declaration, Class):
        parts += _of_class(text, declaration)
    elif isinstance(declaration, Method):
        parts += _of_method(text, declaration)
    else:
        owner = text.owner_of(declaration)
        where = f' of class `{owner.name}`' if declaration.kind == 'field' and owner else ''
        parts.append(f'{declaration.kind}{where}')
    if (remark := text.remark(declaration)):
        parts.append(remark)
    return '\n\n'.join(parts)


def _of_class(text: Analysis, owner: Class) -> List[str]:
    fields: List[Variable] = text.names.all_fields(owner)
    methods: List[Method] = text.names.all_methods(owner)
    told = []
    if fields:
        told.append('fields: ' + ', '.join(f'`{each.type} {each.name}`' for each in fields))
    if methods:
        told.append('methods: ' + ', '.join(f'`{each.name}({parameters(each)})`' for each in methods))
    return told


def _of_method(text: Analysis, method: Method) -> List[str]:
    names, told = text.names, [f'method of class `{method.owner.name}`; `uncall` runs its inverse']
    slot = names.slot(method)
    others = [each for each in text.source.methods() if each is not method and names.slot(each) is slot]
    if others:
        told.append('one slot with that of ' + ', '.join(f'`{each.owner.name}`' for each in others))
    return told


def _of_form(form: Form) -> str:
    parts = [_block(form.shape), form.meaning]
    if form.faults:
        when = f' {form.when}' if form.when else ''
        parts.append('faults in order: ' + ', '.join(map(_named_fault, form.faults)) + when)
    if form.rules:
        parts.append(f'rules: {form.rules}')
    parts.append(f'inverse: `{form.inverse}`')
    return '\n\n'.join(each for each in parts if each)


def _named_fault(number: int) -> str:
    rule = fault(number)
    return f'{number} {rule.name}' if rule else str(number)
