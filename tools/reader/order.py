"""The order in which one reads the definitions below a clause: by parts, and in each part what is used before what uses it."""
import os

HERE = os.path.dirname(os.path.realpath(__file__))


def table(name):
    """The lines of a table of this folder, as lists of cells."""
    with open(f'{HERE}/{name}', encoding='utf-8') as file:
        return [line.rstrip('\n').split('\t') for line in file if line.strip()]


class Part:
    """A part: its name, what it is about, and which crates or modules are in it."""

    def __init__(self, name, about, places):
        self.name, self.about, self.places = name, about, places.split()
        self.definitions = []


def parts():
    return [Part(*cells) for cells in table('parts.tsv')]


def place_of(definition, places):
    """The module or crate of a definition that is among these, the module first, or None."""
    module = f'{definition.crate}.{definition.module}'
    return next((it for it in (module, definition.crate) if it in places), None)


def in_order(below, chosen, places):
    """These definitions, file by file: a file follows those that it uses, and a file keeps its order."""
    files, seen, ordered = {}, set(), []
    for it in sorted(chosen, key=lambda it: (places.index(place_of(it, places)), it.path, it.line)):
        files.setdefault(it.path, []).append(it)

    def visit(path):
        if path in files and path not in seen:
            seen.add(path)
            for used in sorted({to.path for it in files[path] for to in below.uses[it]}):
                visit(used)
            ordered.extend(sorted(files[path], key=lambda it: it.line))

    for path in files:
        visit(path)
    return ordered


def reading(below):
    """The parts with their definitions in order. LookupError names the crates that are in no part."""
    found = parts()
    part_of = {place: part for part in found for place in part.places}
    chosen = {part: [] for part in found}
    missing = set()
    for it in below.lines:
        place = place_of(it, part_of)
        if place:
            chosen[part_of[place]].append(it)
        else:
            missing.add(it.crate)
    if missing:
        raise LookupError(f'tools/reader/parts.tsv has no part for {", ".join(sorted(missing))}')
    for part in found:
        part.definitions = in_order(below, chosen[part], part.places)
    return [part for part in found if part.definitions]
