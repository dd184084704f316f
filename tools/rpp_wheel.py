"""What builds the package of pyproject.toml with only the standard library, so that `pip install .` needs no network.

It is the form that pip asks for (PEP 517). A wheel has the modules of companion/rpp without their tests, the pages of docs/
that messages name, and the command `rpp`."""
import base64
import hashlib
import os
import re
import zipfile

TOP = os.path.dirname(os.path.dirname(os.path.realpath(__file__)))
NAME = 'rooplpp_companion'
NOT_TAKEN = {'__pycache__', 'tests'}
PAGE_OF_IDIOMS = 'docs/learn/from-janus.md'


def section(name):
    """What a section of pyproject.toml says: its lines NAME = "VALUE"."""
    with open(os.path.join(TOP, 'pyproject.toml'), encoding='utf-8') as file:
        part = file.read().split(f'\n[{name}]\n', 1)[1].split('\n[', 1)[0]
    return dict(re.findall(r'^([\w-]+) = "(.*)"$', part, re.M))


def version():
    """The newest version of CHANGELOG.md."""
    with open(os.path.join(TOP, 'CHANGELOG.md'), encoding='utf-8') as file:
        return re.search(r'^## (\d[\w.]*)', file.read(), re.M)[1]


def files_below(folder, inside):
    """The files of a folder, each with the path that it has in the wheel."""
    for above, folders, names in os.walk(os.path.join(TOP, folder)):
        folders[:] = sorted(set(folders) - NOT_TAKEN)
        for name in sorted(names):
            path = os.path.join(above, name)
            yield path, os.path.join(inside, os.path.relpath(path, os.path.join(TOP, folder)))


def metadata():
    told = section('project')
    return (f'Metadata-Version: 2.1\nName: {told["name"]}\nVersion: {version()}\nSummary: {told["description"]}\n'
            f'Requires-Python: {told["requires-python"]}\n')


def entries(group, name):
    """The names of a section as pip reads them."""
    return f'[{group}]\n' + ''.join(f'{word} = {place}\n' for word, place in section(name).items()) + '\n'


def contents():
    """All files of the wheel but its record, by their paths in it."""
    found = {}
    for path, inside in [*files_below('companion/rpp', 'rpp'), *files_below('docs/reference', 'rpp/docs/reference'),
                         (os.path.join(TOP, PAGE_OF_IDIOMS), f'rpp/{PAGE_OF_IDIOMS}')]:
        with open(path, 'rb') as file:
            found[inside] = file.read()
    info = f'{NAME}-{version()}.dist-info'
    found[f'{info}/METADATA'] = metadata().encode()
    found[f'{info}/WHEEL'] = b'Wheel-Version: 1.0\nGenerator: rpp_wheel\nRoot-Is-Purelib: true\nTag: py3-none-any\n'
    found[f'{info}/entry_points.txt'] = (entries('console_scripts', 'project.scripts') +
                                         entries('pygments.lexers', 'project.entry-points."pygments.lexers"')).encode()
    return found, f'{info}/RECORD'


def record_line(path, content):
    digest = base64.urlsafe_b64encode(hashlib.sha256(content).digest()).rstrip(b'=').decode()
    return f'{path},sha256={digest},{len(content)}\n'


def build_wheel(wheel_directory, _config_settings=None, _metadata_directory=None):
    """Writes the wheel into the folder, and gives its name."""
    found, record = contents()
    found[record] = (''.join(record_line(path, content) for path, content in found.items()) + f'{record},,\n').encode()
    name = f'{NAME}-{version()}-py3-none-any.whl'
    with zipfile.ZipFile(os.path.join(wheel_directory, name), 'w', zipfile.ZIP_DEFLATED) as wheel:
        for path, content in found.items():
            wheel.writestr(zipfile.ZipInfo(path, (1980, 1, 1, 0, 0, 0)), content, zipfile.ZIP_DEFLATED)
    return name


def get_requires_for_build_wheel(_config_settings=None):
    return []
