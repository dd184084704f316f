"""The packages for editors: an extension of Visual Studio Code, a package folder of Vim, and a package of Emacs."""
import json
import re

from .archives import FILE, tar, tar_gz, zip_archive
from .repository import CannotRelease, names_below, read_bytes, read_text, version

VSCODE, VIM, EMACS = 'editors/vscode', 'editors/vim', 'editors/emacs'
MANIFEST = 'packaging/vscode/extension.vsixmanifest'
TYPES = 'packaging/vscode/content-types.xml'
KINDS = {'.json': 'application/json', '.js': 'application/javascript', '.md': 'text/markdown', '.vsixmanifest': 'text/xml'}


def files_of(folder, target):
    return {target + name[len(folder):]: (FILE, read_bytes(name)) for name in names_below(folder)}


def escaped(text):
    for sign, name in (('&', 'amp'), ('<', 'lt'), ('>', 'gt'), ('"', 'quot')):
        text = text.replace(sign, f'&{name};')
    return text


def vscode(day):
    """The extension: a zip archive with its own manifest, which says what the manifest of the folder says."""
    about = {**json.loads(read_text(f'{VSCODE}/package.json')), 'version': version()}
    files = files_of(VSCODE, 'extension')
    files['extension/package.json'] = (FILE, (json.dumps(about, indent=2) + '\n').encode())
    named = {'id': about['name'], 'version': version(), 'publisher': about['publisher'], 'title': about['displayName'],
             'about': about['description'], 'engine': about['engines']['vscode'], 'categories': ','.join(about['categories'])}
    manifest = re.sub(r'\{(\w+)\}', lambda it: escaped(named[it[1]]), read_text(MANIFEST))
    files['extension.vsixmanifest'] = (FILE, manifest.encode())
    lacking = sorted({name for name in files if not name.endswith(tuple(KINDS))})
    if lacking:
        raise CannotRelease(f'packing/editors.py knows no content type of {lacking[0]}')
    kinds = ''.join(f'  <Default Extension="{kind}" ContentType="{what}"/>\n' for kind, what in sorted(KINDS.items()))
    files['[Content_Types].xml'] = (FILE, read_text(TYPES).replace('{kinds}', kinds).encode())
    return zip_archive(files, day)


def vim(day):
    """A package folder: unpacked below ~/.vim/pack, or below site/pack of Neovim, it is there at the next start."""
    return tar_gz(files_of(VIM, 'rooplpp/start/rpp'), '', day)


def emacs(day):
    """A package for package-install-file: a tar archive with a file that describes it."""
    text = read_text(f'{EMACS}/rpp-mode.el')
    about = re.search(r'^;;; rpp-mode\.el --- (.*?)\s+-\*-', text, re.M)
    wanted = re.search(r'^;; Package-Requires: \(\((\w+) "([\d.]+)"\)\)$', text, re.M)
    if about is None or wanted is None:
        raise CannotRelease(f'{EMACS}/rpp-mode.el does not say what it is, or what it needs')
    folder = f'rpp-mode-{version()}'
    described = f'(define-package "rpp-mode" "{version()}" "{about[1]}" \'(({wanted[1]} "{wanted[2]}")))\n'
    files = {**files_of(EMACS, folder), f'{folder}/rpp-mode-pkg.el': (FILE, described.encode())}
    text = re.sub(r'^;; Version: .*$', f';; Version: {version()}', text, flags=re.M)
    return tar({**files, f'{folder}/rpp-mode.el': (FILE, text.encode())}, '', day)


def makers():
    """What makes each package, by its name."""
    return {f'rooplpp-{version()}.vsix': vscode, f'rooplpp-{version()}-vim.tar.gz': vim, f'rpp-mode-{version()}.tar': emacs}


def packages(day):
    """The packages by their names."""
    return {name: make(day) for name, make in makers().items()}
