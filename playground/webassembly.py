"""Compiles the LLVM module of a program, as rattle hands it to clang, to WebAssembly with memory of 64 bits.

Nothing of the module changes but its target, the name of main, and what it says of the processor and of stack probes."""
import os
import re
import subprocess
import tempfile

HERE = os.path.dirname(os.path.realpath(__file__))
TARGET = 'wasm64-unknown-unknown'
LAYOUTS = (
    'e-m:e-p270:32:32-p271:32:32-p272:64:64-i64:64-i128:128-f80:128-n8:16:32:64-S128',
    'e-m:e-p:64:64-p10:8:8-p20:8:8-i64:64-i128:128-n32:64-S128-ni:1:10:20',
)
# What the text of the module has once, and what replaces it.
CHANGES = (
    (f'target datalayout = "{LAYOUTS[0]}"', f'target datalayout = "{LAYOUTS[1]}"'),
    ('target triple = "x86_64-unknown-linux-gnu"', f'target triple = "{TARGET}"'),
    ('define i32 @main()', 'define i32 @program_main()'),
)
OF_THE_PROCESSOR = re.compile(
    r' (sanitize_address|"(frame-pointer|probe-stack|stack-probe-size|target-cpu|target-features|tune-cpu)"="[^"]*")'
)
STACK = 1 << 20


class NotForWebAssembly(Exception):
    """The module has something that only the processor which it was made for does."""


def without_processor(line):
    """A line of attributes with none that speaks of the processor; a group must not be empty."""
    return OF_THE_PROCESSOR.sub('', line[0]).replace('{ }', '{ "none" }')


def retargeted(text):
    """The text of the module for the other target."""
    for old, new in CHANGES:
        if text.count(f'\n{old}') != 1:
            raise NotForWebAssembly(f'the module has not exactly one line that begins {old}')
        text = text.replace(f'\n{old}', f'\n{new}')
    code = re.sub(r'"[^"\n]*"', '', text)
    if 'llvm.x86.' in code or ' asm ' in code:
        raise NotForWebAssembly('the module has code only for x86-64')
    return re.sub(r'^attributes #\d+ = \{.*\}$', without_processor, text, flags=re.M)


def compile_module(kit, module, out, level='-O2'):
    """Writes the WebAssembly module of the LLVM module in the file `module` into the file `out`."""
    clang = f'{kit}/toolchain/bin/clang'
    flags = [clang, '--no-default-config', f'--target={TARGET}', '-mcpu=lime1', '-ffunction-sections', '-fdata-sections']
    with tempfile.TemporaryDirectory() as folder:
        text, program, library = (f'{folder}/{it}' for it in ('program.ll', 'program.o', 'library.o'))
        reads = [clang, '--no-default-config', '-S', '-emit-llvm', '-Xclang', '-disable-llvm-passes', '-x', 'ir']
        subprocess.run([*reads, module, '-o', text], check=True)
        with open(text, encoding='latin-1') as it:
            changed = retargeted(it.read())
        with open(text, 'w', encoding='latin-1') as it:
            it.write(changed)
        subprocess.run([*flags, level, '-c', '-x', 'ir', text, '-o', program], check=True)
        subprocess.run([*flags, '-O2', '-ffreestanding', '-fno-builtin', '-c', f'{HERE}/library.c', '-o', library], check=True)
        link(clang, [program, library], out)


def link(clang, objects, out):
    """Links the objects to a module that exports program_main; the kit's clang is also its linker, by its name."""
    words = ['wasm-ld', '-mwasm64', '--no-entry', '--gc-sections', '--export=program_main', '--stack-first']
    subprocess.run([*words, '-z', f'stack-size={STACK}', '-O2', '-o', out, *objects], executable=clang, check=True)
