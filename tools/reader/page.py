"""The generated parts of docs/proof/READING.md."""
import re

import order

UP = '../../'


def first_sentence(comment):
    """The first sentence of a comment."""
    text = ' '.join(' '.join(line.lstrip('-/! ') for line in comment).split())
    found = re.match(r'.*?\.(?=\s|$)', text)
    return (found.group(0) if found else text).rstrip('.:')


def cell(text):
    return text.replace('|', '&#124;')


def own_lines(below, definition):
    """How many lines a definition has, without those that open blocks around it."""
    return len(below.lines[definition] - set(definition.opening))


def numbers(go, everything):
    """How much there is to read."""
    rows = ['| command | definitions | lines | without comments | files | crates |', '|---|---|---|---|---|---|']
    for name, below in (('`go`', go), ('all sixteen', everything)):
        lines, code = below.count()
        files, crates = len({it.path for it in below.lines}), len({it.crate for it in below.lines})
        rows.append(f'| {name} | {len(below.lines):,} | {lines:,} | {code:,} | {files} | {crates} |')
    return '\n'.join([*rows, ''])


def sizes(below, parts):
    """What each part costs."""
    rows = ['| part | what it says | definitions | lines |', '|---|---|---|---|']
    for part in parts:
        lines, _ = below.count(part.definitions)
        rows.append(f'| [{part.name}](#{part.name.lower()}) | {part.about} | {len(part.definitions)} | {lines:,} |')
    return '\n'.join([*rows, f'| all | | {len(below.lines)} | {below.count()[0]:,} |', ''])


def listed(below, parts):
    """The definitions of each part in order, file by file."""
    rows = []
    for part in parts:
        rows += [f'### {part.name}', '']
        for path in dict.fromkeys(it.path for it in part.definitions):
            inside = [it for it in part.definitions if it.path == path]
            about = first_sentence(below.names.about(inside[0]))
            rows += [f'[{path[len("crates/"):]}]({UP}{path}), {below.count(inside)[0]} lines{": " + about if about else ""}.', '',
                     '| definition | lines | what it says |', '|---|---|---|']
            rows += [f'| [{cell(it.name)}]({UP}{path}#L{it.line}) | {own_lines(below, it)} | {cell(first_sentence(it.comment))} |'
                     for it in inside]
            rows.append('')
    return '\n'.join(rows)


def kit_words(below):
    """The names of the kit that the definitions use, in the order of the table of their meanings."""
    used = {word.rsplit('.', 1)[1] for word in below.kit}
    meanings = dict(order.table('kit.tsv'))
    missing = sorted(used - set(meanings))
    if missing:
        raise LookupError(f'tools/reader/kit.tsv does not say what {", ".join(missing)} means')
    return [(name, meaning) for name, meaning in meanings.items() if name in used]


def kit(below):
    rows = kit_words(below)
    lines = [f'{len(rows)} names:', '', '| name | what it means |', '|---|---|']
    return '\n'.join([*lines, *(f'| `{cell(shown(name))}` | {meaning} |' for name, meaning in rows), ''])


def shown(name):
    """A name as one writes it: an operator between dots."""
    return name.replace('◌', ' ‥ ').strip() if '◌' in name else name


def filled(text, go, everything):
    """The page with its generated parts as they are to be."""
    parts = order.reading(go)
    made = {'numbers': numbers(go, everything), 'parts': sizes(go, parts), 'definitions': listed(go, parts), 'kit': kit(go)}
    for mark, part in made.items():
        text, count = re.subn(rf'(<!-- {mark} -->\n).*?(<!-- end -->)', lambda it, part=part: it.group(1) + part + it.group(2), text, flags=re.S)
        if count != 1:
            raise LookupError(f'docs/proof/READING.md has {count} parts {mark}, and not one')
    return text
