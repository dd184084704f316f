"""`rpp help [COMMAND | NUMBER | NAME | WORD]`: what a command, a refusal, a fault or a word of the language is."""
import importlib
from typing import List

from .forms import FORMS, WORDS, Form, forms_of
from .messages import fault, rules_of
from .report import rule_lines
from .rules import FAULTS, REFUSALS
from .screen import complain, say, wrapped
from .spelling import similar


def main(words: List[str]) -> int:
    from .__main__ import COMMANDS, usage
    if not words or words[0] in ('--help', '-h'):
        print(usage(), end='')
        return 0
    word = words[0]
    if word in COMMANDS and word != 'help':
        return importlib.import_module(f'rpp.{COMMANDS[word].module}').main(['--help']) or 0
    told = [[rule.title, *rule_lines(rule)] for rule in rules_of(word)] + [form_lines(form) for form in forms_of(word)]
    if not told:
        near = similar(word, [*COMMANDS, *WORDS, *(name.rstrip('[]:') for name in FORMS), *(rule.name for rule in REFUSALS + FAULTS)])
        meant = f'; did you mean `{near}`?' if near else ''
        complain(f'rpp: {word} is no command, no word of a statement, and no number or name of a refusal or fault{meant}')
        return 1
    say('\n\n'.join('\n'.join(lines) for lines in told).split('\n'))
    return 0


def form_lines(form: Form) -> List[str]:
    """A form of statement: how it is written, what it does, its rules, its faults and its inverse."""
    lines = [form.shape, *wrapped(f'Meaning: {form.meaning}.')]
    if form.rules:
        lines += wrapped(f'Rules: {form.rules}.')
    if form.faults:
        when = f' {form.when}' if form.when else ''
        lines += wrapped('Faults, in this order: ' + ', '.join(f'{number} {fault(number).name}' for number in form.faults) + f'{when}.')
    return lines + [f'Inverse: {form.inverse}']
