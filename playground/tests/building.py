"""What the build takes, and what it refuses: nothing of this needs a browser."""
import ast
import contextlib
import re

import page as pages
import suspend
import translate
from drawn import equal, holds

MODULE_HEAD, MEMORIES, HAS_64_BITS = b'\0asm\1\0\0\0', 5, 4
SUSPENDING = tuple(f'asyncify_{it}'.encode() for it in ('start_unwind', 'stop_unwind', 'start_rewind', 'stop_rewind', 'get_state'))


def refuses(what, work):
    with contextlib.suppress(pages.CannotBuild, translate.CannotTranslate, suspend.CannotSuspend):
        work()
        raise AssertionError(f'the build takes {what}')


def empty_tables_fail():
    """A build whose tables are empty, or without a rule, fails."""
    rules = pages.of_companion('rules')
    tables = {'refusals': rules.REFUSAL_OF, 'faults': rules.FAULT_OF}
    pages.complete(tables)
    refuses('no faults', lambda: pages.complete({**tables, 'faults': {}}))
    refuses('no refusals', lambda: pages.complete({**tables, 'refusals': {}}))
    without = {number: rule for number, rule in tables['refusals'].items() if number != 16}
    refuses('tables without refusal 16', lambda: pages.complete({**tables, 'refusals': without}))
    silent = {**tables['faults'], 3: tables['faults'][3]._replace(sentence='')}
    refuses('a fault without its sentence', lambda: pages.complete({**tables, 'faults': silent}))
    refuses('steps without an example', lambda: pages.lessons({**pages.examples(), 'new': {}}))


def missing_packages_are_named():
    """A build without a package that the page is made with says which one is missing."""
    for holder, name, package in ((pages, 'MINIFIER', 'uglifyjs'), (suspend, 'PROGRAM', 'binaryen')):
        kept = getattr(holder, name)
        setattr(holder, name, 'a program that no machine has')
        try:
            pages.page(b'', b'', {})
        except pages.CannotBuild as error:
            holds(package in str(error), str(error))
        else:
            raise AssertionError(f'the build takes no {package}')
        finally:
            setattr(holder, name, kept)


def what_is_packed_stays():
    """What is packed for the page is the same when it is unpacked."""
    for data in (b'', b'class', bytes(range(256)) * 40, pages.read(f'{pages.TOP}/README.md').encode()):
        equal(pages.unpacked(pages.packed(data)), data)


def no_module_is_not_suspended():
    """What is no module, or has none of the functions by which it would be suspended, is refused."""
    refuses('no module', lambda: suspend.suspendable(b'class P int x'))
    refuses('half a module', lambda: suspend.suspendable(MODULE_HEAD + b'\x01\x05'))


def what_is_not_translated_fails():
    """A module of the companion that uses more of Python than what is translated is no part of a page."""
    for text in ('with open(a) as b:\n    pass', 'def f(*, a):\n    return a', 'a = 2 ** 3', 'from os import path\nb = path', 'a = [b for b in b]'):
        refuses(repr(text), lambda text=text: translate.Module('module', ['module'], ast.parse(text)).script())


def the_page_is_small(text):
    holds(len(text.encode()) <= 700_000, f'the page has {len(text.encode())} bytes')


def memory_flags(module):
    """The flags of the memory of a module."""
    at = 8
    while module[at] != MEMORIES:
        size = shift = 0
        at += 1
        while True:
            size |= (module[at] & 127) << shift
            shift += 7
            at += 1
            if module[at - 1] < 128:
                break
        at += size
    return module[at + 3] if module[at + 1] < 128 else module[at + 4]


def the_modules_are_of_32_bits(text):
    """The page's modules have memories of 32-bit addresses, which browsers without larger memories run too."""
    for module in pages.modules_of(pages.data_of(text)):
        equal(module[:8], MODULE_HEAD)
        equal(memory_flags(module) & HAS_64_BITS, 0, 'the flags of the memory')


def the_live_module_can_be_suspended(text):
    """Only the module of the live program has functions to suspend it, and each of its exports is known."""
    for module, can_be in zip(pages.modules_of(pages.data_of(text)), (False, True)):
        equal([it in module for it in SUSPENDING], [can_be] * len(SUSPENDING), str(can_be))
        holds(b'program_main' in module, 'a module has no program_main')


def nothing_is_fetched(text):
    """The page names no address from which a browser would fetch something, and its policy allows none."""
    policy = re.search(r'Content-Security-Policy" content="([^"]*)"', text)[1]
    holds(policy.startswith("default-src 'none';") and 'connect-src' not in policy and 'http' not in policy, policy)
    equal(re.findall(r'<(?:script|link|img)[^>]*(?:src|href)=[^>]*>', text), [])


TESTS = (empty_tables_fail, missing_packages_are_named, what_is_packed_stays, no_module_is_not_suspended, what_is_not_translated_fails)
OF_PAGE = (the_page_is_small, the_modules_are_of_32_bits, the_live_module_can_be_suspended, nothing_is_fetched)
