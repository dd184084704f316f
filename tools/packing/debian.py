"""The Debian package."""
import email.utils
import hashlib
import io
import lzma
import os
import tarfile

from .archives import FILE, ar, part_of_ar, tar_xz, zipped
from .layout import COMPANION, ZSH
from .repository import read_bytes, read_text, version

SCRIPT = 0o755
PACKAGING = 'packaging/debian'
SCRIPTS = ('postinst', 'prerm')
DOCUMENTS = 'usr/share/doc/rooplpp'
# The folder in which Debian's Python finds the companion's package, so that `import rpp` works.
PATH_OF_PYTHON = 'usr/lib/python3/dist-packages/rooplpp.pth'


def name():
    return f'rooplpp_{version()}-1_amd64.deb'


def contents(tree, day):
    """The files of the package: those of an installation, below /usr, and those that Debian requires."""
    places = {path: path.replace(f'{ZSH}/', 'share/zsh/vendor-completions/') for path in tree if not path.endswith('/CHANGELOG.md')}
    files = {f'usr/{place}': tree[path] for path, place in places.items()}
    changes = read_text(f'{PACKAGING}/changelog').format(version=version(), day=rfc_day(day))
    files[f'{DOCUMENTS}/changelog.Debian.gz'] = (FILE, zipped(changes.encode()))
    files[f'{DOCUMENTS}/changelog.gz'] = (FILE, zipped(read_bytes('CHANGELOG.md')))
    files[f'{DOCUMENTS}/copyright'] = (FILE, read_bytes(f'{PACKAGING}/copyright'))
    files[PATH_OF_PYTHON] = (FILE, f'/usr/{os.path.dirname(COMPANION)}\n'.encode())
    files['usr/share/lintian/overrides/rooplpp'] = (FILE, read_bytes(f'{PACKAGING}/lintian-overrides'))
    return files


def rfc_day(day):
    """A moment as a Debian changelog writes it."""
    return email.utils.formatdate(day)


def control(files):
    """The files that describe the package to dpkg."""
    size = sum(-(-len(data) // 1024) for _, data in files.values())
    about = read_text(f'{PACKAGING}/control').format(version=version(), size=size)
    sums = ''.join(f'{hashlib.md5(data).hexdigest()}  {path}\n' for path, (_, data) in sorted(files.items()))
    scripts = {it: (SCRIPT, read_bytes(f'{PACKAGING}/{it}')) for it in SCRIPTS}
    return {'control': (FILE, about.encode()), 'md5sums': (FILE, sums.encode()), **scripts}


def package(tree, day):
    """The bytes of the package."""
    files = contents(tree, day)
    return ar([('debian-binary', b'2.0\n'), ('control.tar.xz', tar_xz(control(files), './', day)),
               ('data.tar.xz', tar_xz(files, './', day))], day)


def program_in(data, command='rooplpp'):
    """A program in the bytes of a package, which needs no tool to unpack."""
    with tarfile.open(fileobj=io.BytesIO(lzma.decompress(part_of_ar(data, 'data.tar.xz')))) as archive:
        return archive.extractfile(f'./usr/bin/{command}').read()
