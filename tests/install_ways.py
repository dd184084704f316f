"""The ways to install what a release has, as README.md and packaging/README.md name them: their commands for the shell."""
import os
import re
from typing import NamedTuple, Tuple

from empty_root import HOME

TOP = os.path.dirname(os.path.dirname(os.path.realpath(__file__)))
CLONE, COURSE, APP = f'{HOME}/clone', f'{HOME}/course', f'{HOME}/app'
PACKAGES = 'python3 tools/release --packages'
ARCHIVE = f'mkdir -p {APP} && tar -xzf release/rooplpp-*-x86_64-linux.tar.gz -C {APP} --strip-components 1'
# What Python compiles of the archive's companion while a package of an editor, or pip's, is tried with the archive's program.
COMPILED = rf'{APP}/share/rooplpp/rpp(/\w+)*/__pycache__(/.*)?'
# What apt and dpkg note of each installation, and what npm keeps of each call.
NOTES_OF_APT = r'/var/(lib/dpkg|log|log/apt|cache/(apt|ldconfig)|lib/apt)/[\w.-]+|/etc/ld\.so\.cache'
NOTES_OF_NPM = r'/\.npm(/.*)?'
# The folder that npm makes for its first package, and keeps when the last one is gone, as it keeps `.bin` in a project's.
FOLDER_OF_NPM = r'/usr/local/lib/node_modules'
# What fish writes of the manuals of a system when it is first started.
NOTES_OF_FISH = rf'{HOME}/\.local(/share(/fish(/generated_completions(/.*)?)?)?)?'
# What Neovim and Emacs keep in a home.
NOTES_OF_EDITORS = rf'{HOME}/\.(local|cache|config|emacs\.d)(/.*)?'
PACKED = rf'{CLONE}/release/[\w.-]+\.(tgz|vsix|tar|tar\.gz)'


class Way(NamedTuple):
    """Packages of Debian that are there before, commands in the clone, what calls a program, and what others leave. More packages are
    there before, if apt has loaded them."""
    name: str
    needs: str
    install: str
    remove: str
    call: str = '{}'
    path: str = ''
    is_root: bool = False
    before: Tuple[str, ...] = ()
    course: str = f'mkdir {COURSE} && cd {COURSE}'
    stays: str = 'nothing'
    use: str = 'chapter'
    more: Tuple[str, ...] = ()


def commands(page, name):
    """The commands of the line of a page's table that begins with a name."""
    with open(f'{TOP}/{page}', encoding='utf-8') as it:
        line = re.search(rf'^\| {re.escape(name)} \|(.*)\|$', it.read(), re.M)[1]
    return re.findall(r'`([^`]*)`', line)


def of_readme(name):
    return commands('README.md', name)


def of_editor(name):
    """The command that installs the package of an editor, for any version."""
    return commands('packaging/README.md', name)[0].replace('VERSION', '*')


def chapter_in_clone():
    """The command of the course that makes a folder for it."""
    with open(f'{TOP}/docs/learn/tutorial.md', encoding='utf-8') as it:
        return re.search(r'`(mkdir course [^`]*)`', it.read())[1]


def emacs(form):
    return f"emacs --batch --eval '(progn (package-initialize) {form})'"


def ways_of_programs():
    (run_in_clone,) = of_readme('x86-64 Linux, in the clone')
    yield Way('the clone', 'python3', run_in_clone, f'rm -r {CLONE}', './{}', course=chapter_in_clone(), stays=CLONE)
    install, remove = (it.replace('sudo apt', 'apt -y') for it in of_readme('Debian, Ubuntu'))
    yield Way('the Debian package', '', install, remove, is_root=True, before=(install, remove), stays=NOTES_OF_APT)
    install, remove = of_readme('other x86-64 Linux')
    yield Way('--install', 'python3', install, remove, path=f'{HOME}/.local/bin')
    yield Way('the archive', 'python3', ARCHIVE, f'rm -r {APP}', path=f'{APP}/bin')


def ways_of_node():
    install, remove = of_readme('macOS, other Linux, with node 18 or later')
    yield Way('npm install -g', 'python3 nodejs npm', install, remove, is_root=True,
              stays=f'/root{NOTES_OF_NPM}|{PACKED}|{FOLDER_OF_NPM}')
    folder = f'{HOME}/project'
    yield Way('npm install', 'python3 nodejs npm', f'cd {folder} && npm install {CLONE}/release/rooplpp-*-node.tgz',
              f'cd {folder} && npm uninstall rooplpp', path=f'{folder}/node_modules/.bin', before=(PACKAGES, f'mkdir {folder}'),
              stays=rf'{HOME}{NOTES_OF_NPM}|{folder}/(package\.json|package-lock\.json|node_modules(/\.(package-lock\.json|bin))?)')
    yield Way('node without npm', 'python3 nodejs', f'tar -xzf release/rooplpp-*-node.tgz -C {HOME}', f'rm -r {HOME}/package',
              f'node {HOME}/package/{{}}.mjs', before=(PACKAGES,))


def ways_of_others():
    venv = f'{HOME}/venv/bin'
    yield Way('pip', 'python3-venv', f'{venv}/pip install .', f'{venv}/pip uninstall -y rooplpp-companion', path=f'{venv}:{APP}/bin',
              before=(ARCHIVE, f'python3 -m venv {HOME}/venv'), stays=rf'{CLONE}/tools/__pycache__(/.*)?|{COMPILED}')
    made = (ARCHIVE, PACKAGES)
    path = f'{APP}/bin'
    yield Way('the Vim package', 'python3 vim', of_editor('Vim'), f'rm -r {HOME}/.vim/pack/rooplpp', path=path, before=made,
              stays=rf'{HOME}/\.vim(/pack)?|{COMPILED}', use='vim')
    place = f'{HOME}/.local/share/nvim/site/pack'
    yield Way('the Vim package in Neovim', 'python3 neovim', of_editor('Vim').replace('~/.vim/pack', place), f'rm -r {place}/rooplpp', path=path,
              before=made, stays=rf'{HOME}/\.(local|cache)(/(?!.*pack/rooplpp).*)?|{COMPILED}', use='nvim')
    yield Way('the Emacs package', 'python3 emacs-nox',
              emacs('(package-install-file (car (file-expand-wildcards "release/rpp-mode-*.tar")))'),
              emacs('(package-delete (cadr (assq (quote rpp-mode) package-alist)))'), path=path, before=made,
              stays=rf'{HOME}/\.emacs(\.d(/(?!elpa/rpp-mode).*)?)?|{COMPILED}', use='emacs')
    debian = tuple(it.replace('sudo apt', 'apt -y') for it in of_readme('Debian, Ubuntu'))
    shells = 'python3 bash-completion zsh fish'
    yield Way('completion, by the Debian package', shells, *debian, is_root=True, before=debian,
              stays=f'{NOTES_OF_APT}|{NOTES_OF_FISH}', use='shells')
    yield Way('editors, by the Debian package', 'python3 vim-nox neovim emacs-nox elpa-eglot', *debian, is_root=True, before=debian,
              stays=f'{NOTES_OF_APT}|{NOTES_OF_EDITORS}', use='editors', more=('vim-ale', 'elpa-dap-mode'))
    install, remove = of_readme('other x86-64 Linux')
    yield Way('completion, by --install', shells, install, remove, path=f'{HOME}/.local/bin', stays=NOTES_OF_FISH, use='shells')


WAYS = [*ways_of_programs(), *ways_of_node(), *ways_of_others()]
