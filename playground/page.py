"""Puts the page together: one file with the modules, the program's side of its calls, the editor and the layout, the examples
and lessons, the project's highlighting, and the companion's messages for refusals and faults."""
import base64
import glob
import gzip
import hashlib
import html
import importlib
import json
import lzma
import os
import re
import shutil
import subprocess
import sys

import suspend
import translate

HERE = os.path.dirname(os.path.realpath(__file__))
TOP = os.path.dirname(HERE)
# Debian's packages libjs-codemirror and node-dagre-layout put these here, and say here who may use them.
EDITOR = '/usr/share/javascript/codemirror'
EDITOR_SCRIPTS = ('lib/codemirror.js', 'addon/mode/simple.js', 'addon/edit/matchbrackets.js', 'addon/comment/comment.js')
LAYOUT = '/usr/share/nodejs/dagre/dist/dagre.min.js'
RIGHTS = ('libjs-codemirror', 'node-dagre-layout', 'node-graphlibrary', 'node-lodash')
# Debian's package uglifyjs.
MINIFIER = 'uglifyjs'
# How what the page carries is packed. Both modules are packed as one: much is in both.
PACKED = {'id': lzma.FILTER_LZMA1, 'preset': 9 | lzma.PRESET_EXTREME, 'dict_size': 1 << 22, 'lc': 4, 'lp': 0, 'pb': 0, 'nice_len': 273}
# In the order in which they use each other: what the page begins with, and what it unpacks then.
FIRST_SCRIPTS = ('common.js', 'unpack.js', 'sharing.js', 'lessons.js', 'start.js')
SCRIPTS = ('source.js', 'texts.js', 'messages.js', 'caller.js', 'session.js', 'expressions.js', 'run.js', 'failure.js', 'faults.js', 'places.js', 'arrows.js', 'store.js',
           'editor.js', 'inverse.js', 'listing.js', 'inputs.js', 'problems.js', 'output.js', 'transport.js', 'figure.js', 'page.js')
# The scripts of the worker that makes calls and holds sessions, and of the one that unpacks the modules.
WORKER_SCRIPTS, ASIDE_SCRIPTS = ('program.js', 'live.js', 'worker.js'), ('unpack.js', 'aside.js')
PAIRS = f'{TOP}/companion/rpp/pages/side.js'
# What the companion says of refusals and faults, in the order in which these modules use each other.
RULES = ('tokens', 'source', 'names', 'expressions', 'spelling', 'slots', 'grammar', 'syntax_place', 'syntax_fields', 'syntax_declarations',
         'syntax_changes', 'syntax_values', 'syntax_calls', 'syntax_blocks', 'syntax', 'rules', 'fault_slots', 'explain')
# It names commands and their words; the page has views and fields in their place.
AS_ON_PAGE = (('H must be from 1 to 20: the heap has 2^H words.', 'The heap must have 2 to the power of 1 to 20 words.'),
              ('D must be from 1 to 8192: the most calls that may be active.', 'The open calls at once must be from 1 to 8192.'),
              ('not have more than D active calls', 'not have more active calls than the limit of the run'),
              ('Run with a larger D, up to 8192.', 'Allow more open calls at once in the limits of the run, up to 8192.'),
              ('and D allows no more', 'and the limit of the run allows no more'),
              ('with these H and D', 'with this heap and these open calls'),
              ('`rpp debug` shows both', 'Going back from the stop shows both'),
              ('`objects` of `rpp debug` shows them', 'The picture of the store shows them'),
              ('which `rpp help` names after the word: `rpp help if`', 'which the help of this page shows'))
EXERCISES = f'{TOP}/docs/learn/exercises'
# What the page can check of a run.
CASES = ('compare', 'back')
# The faults of the language, and the refusals of texts, have numbers without a gap from 1 on.
FAULTS, TEXT_REFUSALS = 16, 23
MOST_BYTES = 700_000


class CannotBuild(Exception):
    """Something that the page is made of is missing, or cannot be part of a page."""


def read(file):
    with open(file, encoding='utf-8') as it:
        return it.read()


def version():
    """The newest version of CHANGELOG.md."""
    found = re.search(r'^## (\d+\.\d+\.\d+)', read(f'{TOP}/CHANGELOG.md'), re.M)
    if not found:
        raise CannotBuild('CHANGELOG.md names no version')
    return found[1]


def example(file):
    """A program of examples/ with the limits and the input that its words name."""
    setting = {'text': read(file)}
    words = read(f'{file[:-4]}.args').split()
    numbers = [it for it in words if it.isdigit()]
    if len(numbers) == 3:
        setting.update(zip(('heap', 'depth', 'steps'), numbers))
    inputs = f'{file[:-4]}.input'
    if os.path.isfile(inputs):
        lines = [line.split('=') for line in read(inputs).splitlines() if '=' in line]
        setting['input'] = {name.strip(): number.strip() for name, number in lines}
    return setting


def examples():
    return {os.path.basename(it)[:-4]: example(it) for it in sorted(glob.glob(f'{TOP}/examples/*.rpp'))}


def lessons(programs):
    """The steps of examples, each of which comes once, and exercises of the course."""
    data = json.loads(read(f'{HERE}/lessons.json'))
    names = [name for _, rows in data['ladder'] for name, title, sentence in rows if title and sentence]
    if sorted(names) != sorted(programs):
        raise CannotBuild(f'lessons.json and examples/ differ in {sorted(set(names) ^ set(programs))}')
    return {'ladder': data['ladder'], 'exercises': [exercise(*row) for row in data['exercises']]}


def exercise(name, title, sentence):
    """An exercise of the course: its text, its task, and what its comments expect, as the companion reads them."""
    chapter, number = name.split('.')
    text = read(f'{EXERCISES}/{int(chapter):02}-{number}.rpp')
    expected = of_companion('expectations').Expectations.read(text.encode())
    head = ' '.join(line[2:].strip() for line in text.split('//?')[0].splitlines())
    task = head.partition(': ')[2]
    if not task or not expected.cases or expected.invariants:
        raise CannotBuild(f'exercise {name} has no task or no cases, or what the page cannot check')
    return {'name': name, 'title': title, 'sentence': sentence, 'task': task[0].upper() + task[1:], 'text': text,
            'rules': [{'kind': it.kind, 'parts': it.parts, 'method': it.method} for it in expected.rules],
            'cases': [case(name, it) for it in expected.cases]}


def case(name, expected):
    """A run of an exercise: its input, the fields that it must leave, and whether it must lead back."""
    for it in expected.wanted:
        if it.kind not in CASES or expected.inverse or expected.bounds or (it.kind == 'compare' and it.parts[1] != '='):
            raise CannotBuild(f'exercise {name} expects `{it.text}`, which the page cannot check')
    fields = {it.parts[0]: it.parts[2] for it in expected.wanted if it.kind == 'compare'}
    return {'input': expected.inputs, 'fields': fields, 'back': any(it.kind == 'back' for it in expected.wanted)}


def of_companion(module):
    if f'{TOP}/companion' not in sys.path:
        sys.path.insert(0, f'{TOP}/companion')
    return importlib.import_module(f'rpp.{module}')


def messages():
    """The companion's rules of refusals and faults, as a script."""
    tables = of_companion('rules')
    complete({'refusals': tables.REFUSAL_OF, 'faults': tables.FAULT_OF})
    return f'const {{ companion, Bytes }} = (() => {{\n{read(f"{HERE}/python.js")}\nreturn {{ companion: {on_page(translate.script(RULES))}, Bytes }};\n}})();\n'


def on_page(text):
    """A text of the companion, with views and fields of the page in the place of commands and their words."""
    for of_command, of_page in AS_ON_PAGE:
        text = text.replace(of_command, of_page)
    return text


def complete(tables):
    """Fails where the companion has no sentence for a refusal or a fault, or does not say how to fix it."""
    for kind, last in (('refusals', TEXT_REFUSALS), ('faults', FAULTS)):
        rules = tables[kind]
        missing = [number for number in range(1, last + 1) if number not in rules or not rules[number].sentence]
        if missing:
            raise CannotBuild(f'the companion has no sentences for the {kind} {missing}')
        lacking = [number for number in range(1, last + 1) if not rules[number].fix]
        if lacking:
            raise CannotBuild(f'the companion does not say how to fix the {kind} {lacking}')


def grammar():
    patterns = json.loads(read(f'{TOP}/editors/vscode/rpp.tmLanguage.json'))['patterns']
    if not patterns:
        raise CannotBuild('the grammar of the editors has no patterns')
    return patterns


def packed(data):
    """Bytes as the base64 text of an LZMA file."""
    return base64.b64encode(lzma.compress(data, format=lzma.FORMAT_ALONE, filters=[PACKED])).decode()


def unpacked(text):
    return lzma.decompress(base64.b64decode(text))


def modules_of(data):
    """The modules of what a page carries: that of the program, and that of the live program, which pages up to 0.9.7 do not have."""
    if 'module' in data:
        return gzip.decompress(base64.b64decode(data['module'])), None
    both, (first, _) = unpacked(data['modules']), data['sizes']
    return both[:first], both[first:]


def minified(*files):
    return shortened('\n'.join(map(read, files)), ' '.join(files))


def shortened(text, what):
    """A script without what is there for readers; its own names at the top stay."""
    done = subprocess.run([MINIFIER, '--mangle'], input=text.encode(), stdout=subprocess.PIPE, check=False)
    if done.returncode or not done.stdout:
        raise CannotBuild(f'{MINIFIER} did not do {what}')
    return done.stdout.decode()


def missing_packages():
    """Debian's packages that the page is made with and that are not here."""
    files = {'libjs-codemirror': os.path.isdir(EDITOR), 'node-dagre-layout': os.path.isfile(LAYOUT)}
    programs = {'uglifyjs': MINIFIER, 'binaryen': suspend.PROGRAM}
    lacking = [name for name, is_here in files.items() if not is_here]
    return lacking + [name for name, program in programs.items() if not shutil.which(program)]


def packed_scripts():
    """The editor, the layout, the companion's rules and the page's own scripts, as one script that begins with the words of who may
    use the first two."""
    own = minified(PAIRS, *(f'{HERE}/{it}' for it in SCRIPTS))
    parts = [minified(*(f'{EDITOR}/{it}' for it in EDITOR_SCRIPTS)), read(LAYOUT), shortened(messages(), 'the rules of the companion'), own]
    return '\n'.join([rights(), *parts])


def rights():
    """Who may use the libraries, as a comment."""
    texts = [read(f'/usr/share/doc/{it}/copyright') for it in RIGHTS if os.path.isfile(f'/usr/share/doc/{it}/copyright')]
    return '/*\n' + '\n'.join(texts).replace('*/', '* /') + '*/'


def carried(module, live, made):
    """What the page carries as plain data. `made` says of what the modules were made."""
    programs, scripts = examples(), packed_scripts().encode()
    return {
        **made,
        'version': version(),
        'modules': packed(module + live),
        'sizes': [len(module), len(live)],
        'scripts': packed(scripts),
        'length': len(scripts),
        'worker': minified(*(f'{HERE}/{it}' for it in WORKER_SCRIPTS)),
        'aside': minified(*(f'{HERE}/{it}' for it in ASIDE_SCRIPTS)),
        'examples': programs,
        **lessons(programs),
        'grammar': grammar(),
        'figure': style(f'{HERE}/store.css'),
    }


def style(*files):
    """The texts of style sheets without comments and without spaces at the ends of lines."""
    text = re.sub(r'/\*.*?\*/', '', '\n'.join(map(read, files)), flags=re.S)
    text = re.sub(r'\s+', ' ', text)
    return re.sub(r' ?([{};,]) ?', r'\1', text).replace(';}', '}').replace('}', '}\n')


def help_text(module, live, made):
    text = read(f'{HERE}/help.html')
    tables = of_companion('rules')
    lists = {'faults': rule_list(tables.FAULTS), 'refusals': rule_list(tables.REFUSALS)}
    sums = {'size': len(module), 'sum': hashlib.sha256(module).hexdigest(), 'liveSize': len(live), 'liveSum': hashlib.sha256(live).hexdigest()}
    for name, value in {**made, **lists, **sums, 'version': version()}.items():
        text = text.replace(f'{{{name}}}', str(value))
    return text


def rule_list(rules):
    """Refusals or faults for the help, each with its sentence, and how to fix it below."""
    row = lambda it: f'<details><summary><code>{it.number} {it.name}</code> {marked_up(it.sentence)}</summary>{fixes(it)}</details>'
    fixes = lambda it: f'<p><b>How to fix it:</b> {marked_up(it.fix)}</p>' if it.fix else ''
    return '\n'.join(map(row, rules))


def marked_up(sentence):
    """A sentence as HTML, its parts in backquotes as code."""
    return re.sub('`(.*?)`', r'<code>\1</code>', html.escape(on_page(sentence), quote=False))


def page(module, live, made):
    """The page over the WebAssembly modules of the program and of the live program, of 32-bit addresses. The second can be suspended."""
    lacking = missing_packages()
    if lacking:
        raise CannotBuild(f'the page is made with Debian\'s packages {" ".join(lacking)}, which are not here')
    scripts = minified(*(f'{HERE}/{it}' for it in FIRST_SCRIPTS))
    if '</script' in scripts:
        raise CannotBuild('a script would end the element of which it is a part')
    data = json.dumps(carried(module, live, made), separators=(',', ': ')).replace('</', '<\\/')
    parts = {
        '/*{styles}*/': style(f'{EDITOR}/lib/codemirror.css', f'{HERE}/page.css', f'{HERE}/store.css'),
        '<!--{help}-->': help_text(module, live, made),
        '/*{carried}*/': data,
        '/*{scripts}*/': scripts,
    }
    text = read(f'{HERE}/page.html').replace('{version}', version())
    for place, part in parts.items():
        before, found, behind = text.partition(place)
        if not found:
            raise CannotBuild(f'page.html has no {place}')
        text = before + part + behind
    if len(text.encode()) > MOST_BYTES:
        raise CannotBuild(f'the page has {len(text.encode())} bytes, and {MOST_BYTES} are the most')
    return text


def data_of(text):
    """What a built page carries."""
    found = re.search(r'id="carried">\n(.*?)\n</script>', text, re.S)
    if not found:
        raise CannotBuild('this is no built page')
    return json.loads(found[1].replace('<\\/', '</'))
