"""The files of an installation, by their paths below its prefix, each with its mode and its bytes."""
import os
import shutil

from .archives import FILE, FOLDER, zipped
from .repository import CannotRelease, names_below, path_of, read_bytes, read_text

PROGRAM = 0o755
COMPANION = 'share/rooplpp/rpp'
# The pages that the companion names are in its own folder, because a system may leave out documents.
PAGES_OF_COMPANION = 'docs/reference'
PAGE_OF_IDIOMS = 'docs/learn/from-janus.md'
MANUALS = 'docs/man'
ZSH = 'share/zsh/site-functions'
# Where completions go, by the shell that they are for.
COMPLETIONS = {'editors/bash': 'share/bash-completion/completions', 'editors/zsh': ZSH,
               'editors/fish': 'share/fish/vendor_completions.d'}
# Where whole folders go. Neovim does not look where Vim does.
FOLDERS = (('docs', 'share/doc/rooplpp/docs'), ('examples', 'share/doc/rooplpp/examples'), ('editors/vim', 'share/vim/vimfiles'),
           ('editors/vim', 'share/nvim/site'), ('editors/emacs', 'share/emacs/site-lisp/rooplpp'), ('editors/vscode', 'share/rooplpp/vscode'),
           ('editors/tree-sitter', 'share/rooplpp/tree-sitter'), ('editors/latex', 'share/texmf/tex/latex/rooplpp'))
LEFT_OUT = ('.png',)
# The files that were installed, one in a line.
LIST = 'share/rooplpp/installed'
# Folders that stay, also where nothing is in them any more, except those that the installation made: the list names these with a slash
# at the end. The first is the prefix.
SHARED = ('.', 'bin', 'share', 'share/doc', 'share/man', 'share/man/man1')
# The companion's package in a clone, and where an installation has it, as the command `rpp` finds it.
BESIDE_CLONE = "os.path.dirname(os.path.realpath(__file__)), 'companion'"
BESIDE_INSTALLED = "os.path.dirname(os.path.realpath(__file__)), '..', 'share', 'rooplpp'"


def companion(target, proved):
    """The companion's package below the folder `target`, with what it reads."""
    found = {f'{target}/docs/PROVED.txt': (FILE, proved.encode())}
    for name in names_below('companion/rpp'):
        found[target + name[len('companion/rpp'):]] = (FILE, read_bytes(name))
    for name in [*names_below(PAGES_OF_COMPANION), PAGE_OF_IDIOMS]:
        found[f'{target}/{name}'] = (FILE, read_bytes(name))
    return found


def command_rpp():
    text = read_text('rpp')
    if BESIDE_CLONE not in text:
        raise CannotRelease(f'the file rpp does not name its package by {BESIDE_CLONE}')
    return text.replace(BESIDE_CLONE, BESIDE_INSTALLED).encode()


def completions():
    """The completions, each under the name by which its shell finds it."""
    for folder, target in COMPLETIONS.items():
        for name in names_below(folder) if os.path.isdir(path_of(folder)) else ():
            base = os.path.basename(name)
            if base != 'README.md':
                yield f'{target}/{base[:-len(".bash")] if base.endswith(".bash") else base}', (FILE, read_bytes(name))


def tree(programs, proved):
    """All files of an installation. The programs are given by their commands; `proved` is the text of PROVED.txt."""
    commands = {**programs, 'rpp': command_rpp()}
    found = {**{f'bin/{command}': (PROGRAM, data) for command, data in commands.items()}, **companion(COMPANION, proved), **dict(completions())}
    for name in names_below(MANUALS):
        found[f'share/man/man1/{os.path.basename(name)}.gz'] = (FILE, zipped(read_bytes(name)))
    for folder, target in FOLDERS:
        for name in names_below(folder):
            if not name.endswith(LEFT_OUT) and not name.startswith(MANUALS):
                found[target + name[len(folder):]] = (FILE, read_bytes(name))
    for name in ('README.md', 'CHANGELOG.md'):
        found[f'share/doc/rooplpp/{name}'] = (FILE, read_bytes(name))
    found['share/doc/rooplpp/PROVED.txt'] = (FILE, proved.encode())
    return found


def put(files, prefix):
    """Puts the files below a prefix, with a list of them. An earlier installation there is removed first."""
    if os.path.isfile(os.path.join(prefix, LIST)):
        take_away(prefix)
    made = [f'{folder}/' for folder in SHARED if not os.path.isdir(os.path.join(prefix, folder))]
    listed = ''.join(f'{path}\n' for path in sorted([*files, LIST, *made])).encode()
    for path, (mode, data) in {**files, LIST: (FILE, listed)}.items():
        target = os.path.join(prefix, path)
        os.makedirs(os.path.dirname(target), FOLDER, exist_ok=True)
        if os.path.lexists(target):
            os.remove(target)
        with open(target, 'wb') as out:
            out.write(data)
        os.chmod(target, mode)


def take_away(prefix):
    """Takes away what the list below the prefix names, what Python compiled of it, and the folders that are then empty,
    except those that other programs use too. Returns the number of files."""
    try:
        with open(os.path.join(prefix, LIST), encoding='utf-8') as it:
            listed = it.read().split()
    except OSError:
        raise CannotRelease(f'there is no {os.path.join(prefix, LIST)}, which --install writes') from None
    files = [path for path in listed if not path.endswith('/')]
    for path in files:
        if os.path.lexists(os.path.join(prefix, path)):
            os.remove(os.path.join(prefix, path))
    folders = {os.path.dirname(path) for path in files}
    for folder in (it for it in folders if it.startswith(COMPANION)):
        shutil.rmtree(os.path.join(prefix, folder, '__pycache__'), ignore_errors=True)
    for folder in sorted(folders, reverse=True):
        remove_empty(prefix, folder, {it for it in SHARED if f'{it}/' not in listed})
    return len(files)


def remove_empty(prefix, folder, stays):
    """Removes an empty folder below the prefix, and those above it that are empty then, up to one that stays."""
    while (folder or '.') not in stays:
        path = os.path.join(prefix, folder)
        if os.path.isdir(path):
            if os.listdir(path):
                return
            os.rmdir(path)
        if not folder:
            return
        folder = os.path.dirname(folder)
