"""PROVED.txt: the checksums and the gate of a release, the tests that were run, and what each file holds."""
from .record import PROGRAMS, file_of, lines_of, said_by_suite
from .repository import sum_of, version

# What the suite says, by the name that PROVED.txt has for it.
RUNS = (
    ('wrong bodies', 'wrong bodies'), ('rows in memory', 'rows in memory'), ('rows on files', 'test-cases'), ('sessions', 'test-sessions'),
    ('live sessions', 'test-live'), ('random programs compared', 'agree'), ('package for node', 'test-node'), ('playground', 'test-playground'),
)
NOT_RUN = 'not run'
# The lines with the checksums of a program, of its module, and of its lowered module.
NAMES = {'rooplpp': ('program', 'module', 'lowered'), 'rooplpp-live': ('live', 'live-module', 'live-lowered')}

TEXT = '''rooplpp {version}
{head}
`program` is the SHA-256 of rooplpp for Linux on x86-64. `module` is that of the WebAssembly module from the same build.
`lowered` is that of the same module with addresses of 32 bits (tools/lower.py), which node runs. The lines that begin with
`live` are the same of rooplpp-live, which the same run of the gate built.

docs/proof/theorems.md of the commit says what is proved about the programs, and what is not.

Tests of the programs, as tests/run counted them:
{runs}
What each file holds:
{files}
To build the programs again, with the kit: git checkout {commit} && .ci/run && sha256sum {built}
The same kit gives the same checksums. If you do not build it again, you trust whoever made this file.
'''


def rows(named):
    """Names and what is said of them, in two columns."""
    width = max(map(len, dict(named)), default=0)
    return ''.join(f'  {name:<{width}}  {said}\n' for name, said in named)


def text(commit, day, programs, modules, files):
    """The text of PROVED.txt. The programs, and the checksums of the module and of the lowered module of each, are given by their
    commands; `files` says what each file holds."""
    record, said = lines_of('record'), said_by_suite(programs['rooplpp'])
    head = {'commit': commit, 'sources': f'{record["sources"]}   (tools/made_of)', 'kit': record['kit']}
    for command, names in NAMES.items():
        head.update(zip(names, (sum_of(programs[command]), *modules[command])))
    head.update({'gate': record.get('gate', NOT_RUN), 'date': record.get('date', ''),
                 'epoch': f'{day}   (the second that every file of the release bears)'})
    return TEXT.format(
        version=version(), commit=commit, head=''.join(f'{name:<12} {value}\n' for name, value in head.items()),
        runs=rows([(name, said.get(part, NOT_RUN)) for name, part in RUNS]), files=rows(files), built=' '.join(map(file_of, PROGRAMS)),
    )


def lines_of_text(text_of_release):
    """The lines of a PROVED.txt that have a name and a value, up to the first that is empty."""
    words = (line.split(None, 1) for line in text_of_release.partition('\n\n')[0].split('\n'))
    return {it[0]: it[1].split('   ')[0] for it in words if len(it) == 2}
