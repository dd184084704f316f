"""Makes a lowered module such that it can be suspended where it reads, so that a page can hold it open between two lines: Debian's
binaryen rewrites the functions on the way from main to the import `read`, and no other (its pass asyncify)."""
import os
import subprocess
import tempfile

PROGRAM = 'wasm-opt'
# What these modules use besides WebAssembly's first version.
FEATURES = ('bulk-memory', 'nontrapping-float-to-int', 'sign-ext', 'mutable-globals')
# The functions that can be suspended have one operation a local. The passes after asyncify join these again.
PASSES = ('--asyncify', '--pass-arg=asyncify-imports@page.read', '--pass-arg=asyncify-ignore-indirect',
          '--simplify-locals', '--coalesce-locals', '--vacuum', '--reorder-locals')


class CannotSuspend(Exception):
    """binaryen did not make the module."""


def suspendable(module):
    """The bytes of the module that can be suspended."""
    with tempfile.TemporaryDirectory() as folder:
        given, made = f'{folder}/given.wasm', f'{folder}/made.wasm'
        with open(given, 'wb') as out:
            out.write(module)
        words = [PROGRAM, *(f'--enable-{it}' for it in FEATURES), *PASSES, given, '-o', made]
        done = subprocess.run(words, stdout=subprocess.PIPE, stderr=subprocess.STDOUT, text=True, check=False)
        if done.returncode or not os.path.isfile(made):
            raise CannotSuspend(f'{PROGRAM} did not make the module: {done.stdout}')
        with open(made, 'rb') as it:
            return it.read()
