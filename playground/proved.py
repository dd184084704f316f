"""Keeps the LLVM module of the proved program: rattle builds the program once more over the libraries that the gate
proved, with a toolchain whose clang keeps what it is given. It rests on how this kit's rt calls rattle.

The kept module is the program's only if what was built from it is, byte for byte, the program that the gate left."""
import contextlib
import filecmp
import importlib.machinery
import importlib.util
import os
import shutil
import subprocess
import sys
import tempfile

KEEPING = '''#!/bin/bash
# Keeps the module of the program, and then does what clang does.
for word in "$@"; do
  case $word in *.bc) [ "$(stat -c %s "$word")" -lt {least} ] || cp "$word" {kept}/$$.bc ;; esac
done
exec -a "$0" {clang} "$@"
'''
# Before it compiles a program rattle tries the compiler on a module of few bytes.
LEAST = 100_000


class NotProved(Exception):
    """The libraries or the program that the gate leaves are missing, or were made of other sources."""


def rt_library(kit):
    """The module rtlib of the kit, which knows how rt calls rattle."""
    loader = importlib.machinery.SourceFileLoader('rtlib', f'{kit}/bin/rtlib.py')
    library = importlib.util.module_from_spec(importlib.util.spec_from_loader('rtlib', loader))
    sys.modules['rtlib'] = library
    loader.exec_module(library)
    return library


def keeping_toolchain(kit, folder, kept):
    """Makes a toolchain in the folder that is the kit's except for its clang, which keeps modules in the folder `kept`."""
    os.makedirs(f'{folder}/bin')
    os.makedirs(kept)
    os.symlink(f'{kit}/toolchain/lib', f'{folder}/lib')
    for name in os.listdir(f'{kit}/toolchain/bin'):
        if name != 'clang':
            os.symlink(f'{kit}/toolchain/bin/{name}', f'{folder}/bin/{name}')
    with open(f'{folder}/bin/clang', 'w', encoding='ascii') as it:
        it.write(KEEPING.format(least=LEAST, kept=kept, clang=f'{kit}/toolchain/bin/clang'))
    os.chmod(f'{folder}/bin/clang', 0o755)


def build(library, crate, toolchain, to):
    """Builds and links the program as rt run does, with another toolchain; its checks take what the gate kept."""
    kit = library.KIT
    words = [library.RATTLE, 'build', *crate.words(['--jobs', '1']), '--toolchain', toolchain, '--backend', 'llvm']
    subprocess.run([*words, *library.KEPT, '-o', f'{to}.o'], cwd=crate.folder, check=True, stdout=sys.stderr)
    words = [f'{kit}/bin/rattle-link', '--target', 'x86_64-unknown-linux-gnu', '--toolchain', f'{kit}/toolchain', '-o', to, f'{to}.o']
    subprocess.run([*words, f'{kit}/c/libos_c.a', f'{kit}/c/liblibc_c.a'], cwd=crate.folder, check=True, stdout=sys.stderr)


def keep_module(kit, top, name, module):
    """Writes the LLVM module of the program of crates/NAME into the file `module`."""
    library = rt_library(kit)
    folder = f'{top}/crates/{name}'
    proved = f'{folder}/out/{name}'
    with contextlib.redirect_stdout(sys.stderr):
        crate = library.Crate(folder, top, {}, ())
        held = library.lock([*crate.below(), crate])
    missing = [it.name for it in crate.below() if not os.path.isfile(f'{it.rlib}/format')]
    if missing or not os.path.isfile(proved):
        which = f'{len(missing)} libraries, {missing[0]} the first, are missing' if missing else f'{proved} is missing'
        raise NotProved(f'.ci/run has not proved and built these sources: {which}')
    with tempfile.TemporaryDirectory() as at:
        keeping_toolchain(kit, f'{at}/toolchain', f'{at}/kept')
        build(library, crate, f'{at}/toolchain', f'{at}/{name}')
        if not filecmp.cmp(f'{at}/{name}', proved, shallow=False):
            raise NotProved(f'what was built with the kept module is not {proved}')
        kept = os.listdir(f'{at}/kept')
        if len(kept) != 1:
            raise NotProved(f'rattle handed {len(kept)} modules to clang, and not one')
        shutil.copyfile(f'{at}/kept/{kept[0]}', module)
    for it in held:
        os.close(it)
