"""An empty Debian without a network, in which tests install and remove things. Its folder never changes: what a test writes goes into
a layer over it. The system's `mount` and `bwrap` do this, and only for root."""
import filecmp
import os
import shutil

from release_copy import run

USER, NUMBER = 'you', '1000'
HOME = f'/home/{USER}'
NEEDED = ('unshare', 'mount', 'umount', 'bwrap')
PATH = '/usr/local/sbin:/usr/local/bin:/usr/sbin:/usr/bin:/sbin:/bin'


def why_not(root):
    """Why this machine cannot use the root; nothing if it can."""
    if not root:
        return 'the environment variable EMPTY_ROOT names no folder with a Debian'
    if not os.path.isfile(f'{root}/usr/bin/dpkg'):
        return f'there is no Debian in {root}'
    if os.geteuid() != 0:
        return 'only root can mount'
    return next((f'there is no {name}' for name in NEEDED if not shutil.which(name)), '')


def mounted(place, options):
    os.makedirs(place)
    done = run('mount', '-t', 'overlay', 'overlay', '-o', options, place)
    if done.returncode:
        raise OSError(f'mount: {done.stderr}')


def names_in(folder):
    return set(os.listdir(folder)) if os.path.isdir(folder) else set()


class Layer:
    """A system: the files of the folders below it, and over them a folder in which it writes."""

    def __init__(self, folder, below):
        self.below, self.upper, self.top, self.under = list(below), f'{folder}/upper', f'{folder}/top', f'{folder}/under'
        os.makedirs(self.upper)
        os.makedirs(f'{folder}/work')
        lower = f'lowerdir={":".join(self.below)}'
        mounted(self.top, f'{lower},upperdir={self.upper},workdir={folder}/work')
        if len(self.below) == 1:
            self.under = self.below[0]
        else:
            mounted(self.under, lower)

    def __enter__(self):
        return self

    def __exit__(self, *_):
        for place in (self.top, self.under):
            if place not in self.below:
                run('umount', place)

    def folders(self):
        """The folders for a layer over this one, which has ended."""
        return [self.upper, *self.below]

    def words(self, command, path='', is_root=False, folder=HOME):
        """The words that run a command of the shell in the system."""
        home = '/root' if is_root else HOME
        # (everyone writes to /tmp)
        inside = ['--bind', self.top, '/', '--proc', '/proc', '--dev', '/dev', '--perms', '1777', '--tmpfs', '/tmp', '--unshare-net', '--unshare-pid',
                  '--die-with-parent', '--clearenv', '--setenv', 'HOME', home, '--setenv', 'PATH', f'{path}:{PATH}' if path else PATH,
                  '--setenv', 'LC_ALL', 'C.UTF-8', '--setenv', 'DEBIAN_FRONTEND', 'noninteractive', '--setenv', 'TERM', 'xterm', '--chdir', folder]
        person = [] if is_root else ['setpriv', '--reuid', NUMBER, '--regid', NUMBER, '--clear-groups']
        return ['bwrap', *inside, *person, 'bash', '-c', command]

    def run(self, command, **how):
        return run(*self.words(command, **how))

    def changes(self):
        """The paths, each with a slash first, of what is here and not below, below and not here, or different."""
        found = []
        for at, _, names in os.walk(self.upper):
            inside = os.path.relpath(at, self.upper)
            here, there = (names_in(f'{top}/{inside}') for top in (self.top, self.under))
            different = {it for it in names if it in here & there and self.differs(f'{inside}/{it}')}
            found += [os.path.normpath(f'/{inside}/{it}') for it in sorted(here ^ there | different)]
        return found

    def differs(self, path):
        here, there = f'{self.top}/{path}', f'{self.under}/{path}'
        if os.path.islink(here) or os.path.islink(there):
            return not (os.path.islink(here) and os.path.islink(there) and os.readlink(here) == os.readlink(there))
        return not filecmp.cmp(here, there, shallow=False)
