"""The package for node, in the form of npm."""
from .archives import FILE, tar_gz
from .layout import PROGRAM, companion
from .repository import read_bytes, read_text, version

PACKAGING = 'packaging/node'
COMMANDS = ('rooplpp.mjs', 'rooplpp-live.mjs', 'rpp.mjs')
FOLDER = 'package'


def name():
    return f'rooplpp-{version()}-node.tgz'


def contents(modules, proved):
    """The files of the package. The modules, with addresses of 32 bits, are given by the commands of their programs."""
    files = {it: (PROGRAM, read_bytes(f'{PACKAGING}/{it}')) for it in COMMANDS}
    for it in ('package.json', 'README.md'):
        files[it] = (FILE, read_text(f'{PACKAGING}/{it}').replace('{version}', version()).encode())
    files.update({f'{command}.wasm': (FILE, module) for command, module in modules.items()})
    files['PROVED.txt'] = (FILE, proved.encode())
    files['companion/rpp.py'] = (FILE, read_bytes(f'{PACKAGING}/rpp.py'))
    return {**files, **companion('companion/rpp', proved)}


def package(modules, proved, day):
    """The bytes of the package."""
    return tar_gz({f'{FOLDER}/{path}': it for path, it in contents(modules, proved).items()}, '', day)
