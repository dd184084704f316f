"""`rpp complete WORD ..`: what the last word of a command line can be, a line each. The completion of shells asks it."""
import argparse
import importlib
import os
from typing import Iterable, List, Optional, Tuple

from .forms import FORMS, WORDS
from .names import Names
from .names import input_fields as fields_of
from .options import Parser
from .rules import FAULTS, REFUSALS
from .screen import WHEN
from .source import parsed

# Arguments that are sources, and those that give numbers to fields.
SOURCES, INPUTS = ('source', 'sources'), ('assignments', 'ranges')
# What the names of files end with; some commands also take an image for their source.
# Options that take names joined by commas.
LISTS = ('results', 'measures')
TEXTS, OF_IMAGES, WITH_IMAGES = ('.rpp',), ('.rpp', '.img'), ('debug', 'list')


def parser() -> Parser:
    return Parser(prog='rpp complete', description=__doc__.split(':', 1)[1].strip())


def main(words: List[str]) -> int:
    last = words[-1] if words else ''
    for each in candidates(words[:-1], last):
        print(each)
    return 0


def candidates(before: List[str], last: str) -> List[str]:
    from .__main__ import COLOUR, COMMANDS
    if before[-1:] == [COLOUR]:
        return matching(last, WHEN)
    if COLOUR in before:
        at = before.index(COLOUR)
        return candidates(before[:at] + before[at + 2:], last)
    if not before:
        return matching(last, [*COMMANDS, '--help', COLOUR])
    if before[0] == 'help':
        known = {str(rule.number) for rule in REFUSALS + FAULTS} | {rule.name for rule in REFUSALS + FAULTS}
        return matching(last, sorted(known | set(COMMANDS) | {name.rstrip('[]:') for name in FORMS} | set(WORDS)))
    command = COMMANDS.get(before[0])
    if command is None:
        return []
    words = parser_of(command.module)
    asked = option_named(words, before[-1])
    if asked is not None and asked.nargs != 0:
        if asked.dest in LISTS:
            return joined(last, list_of(asked.dest, before))
        return matching(last, asked.choices) if asked.choices else files(last, ('',))
    if last.startswith('-'):
        return matching(last, [name for each in words._actions for name in each.option_strings if name.startswith('--')] + [COLOUR])
    positional = [each.dest for each in words._actions if not each.option_strings]
    fields = input_fields(before) if set(positional) & set(INPUTS) else []
    named = matching(last, [f'{name}=' for name in fields])
    if named or 'source' in positional and source_among(before):
        return named
    endings = OF_IMAGES if before[0] in WITH_IMAGES else TEXTS
    return files(last, endings if set(positional) & set(SOURCES) else ('',))


def parser_of(module: str) -> argparse.ArgumentParser:
    """The parser of a command; one without words where its module has none."""
    found = importlib.import_module(f'rpp.{module}')
    return found.parser() if hasattr(found, 'parser') else Parser()


def option_named(words: argparse.ArgumentParser, name: str) -> Optional[argparse.Action]:
    return next((each for each in words._actions if name in each.option_strings), None)


def matching(last: str, words: Iterable[str]) -> List[str]:
    return [str(each) for each in words if str(each).startswith(last)]


def joined(last: str, names: List[str]) -> List[str]:
    """What the last of names that are joined by commas can be, with those in front; no name comes twice."""
    front, comma, begin = last.rpartition(',')
    return [front + comma + each for each in matching(begin, [name for name in names if name not in front.split(',')])]


def list_of(option: str, before: List[str]) -> List[str]:
    """The names of which an option takes some: measures, or the fields of the main object."""
    if option == 'measures':
        return list(importlib.import_module('rpp.measuring').MEASURES)
    source = source_among(before)
    if source is None:
        return []
    with open(source, 'rb') as file:
        names = Names(parsed(file.read()))
    main = next((each for each in names.source.methods() if each.name == 'main' and not each.parameters), None)
    return [each.name for each in names.all_fields(main.owner)] if main else []


def files(last: str, endings: Tuple[str, ...]) -> List[str]:
    """The files with one of these endings, and the folders, whose names begin so."""
    folder, begin = os.path.split(last)
    try:
        names = sorted(os.listdir(os.path.expanduser(folder) or '.'))
    except OSError:
        return []
    found = []
    for name in names:
        path = os.path.join(folder, name)
        if not name.startswith(begin) or name.startswith('.') and not begin:
            continue
        if os.path.isdir(os.path.expanduser(path)):
            found.append(f'{path}/')
        elif name.endswith(endings):
            found.append(path)
    return found


def source_among(before: List[str]) -> Optional[str]:
    paths = [os.path.expanduser(word) for word in before[1:]]
    return next((path for path in paths if os.path.isfile(path)), None)


def input_fields(before: List[str]) -> List[str]:
    """The int fields of the main object of the source among these words, less those that have a number."""
    source = source_among(before)
    if source is None:
        return []
    given = {word.split('=')[0] for word in before if '=' in word}
    with open(source, 'rb') as file:
        return [each for each in fields_of(file.read()) if each not in given]
