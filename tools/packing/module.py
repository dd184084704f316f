"""The WebAssembly modules of the programs, lowered to addresses of 32 bits. The page carries that of rooplpp. That of rooplpp-live
is a file, which says in a custom section what it is made of; the page carries it only as one that can be suspended."""
import base64
import gzip
import importlib.util
import json
import lzma
import os
import re

from .repository import TOP, CannotRelease, path_of, read_bytes, read_text, sources, sum_of

PAGE = 'release/playground.html'
LIVE = 'release/rooplpp-live.wasm'
SECTION = b'made'
OF_SOURCES = re.compile(r'"sources": "([0-9a-f]+)"')
MODULES = re.compile(r'"modules": "([A-Za-z0-9+/=]+)","sizes": \[(\d+),')
# How pages up to 0.9.7 carry the module.
MODULE = re.compile(r'"module": "([A-Za-z0-9+/=]+)"')
LINKED = re.compile(r'"linked": "([0-9a-f]+)"')
LIVE_LINKED = re.compile(r'"liveLinked": "([0-9a-f]+)"')
FOR_TRIALS = 'nothing is claimed of them'


def lower():
    """The tool tools/lower.py as a library."""
    place = importlib.util.spec_from_file_location('lower', os.path.join(TOP, 'tools', 'lower.py'))
    tool = importlib.util.module_from_spec(place)
    place.loader.exec_module(tool)
    return tool


def page():
    """The text of the page. It must be made from the current sources and from the proved program."""
    if not os.path.isfile(path_of(PAGE)):
        raise CannotRelease(f'there is no {PAGE}: playground/build makes it')
    text = read_text(PAGE)
    found = OF_SOURCES.search(text)
    if found is None or found.group(1) != sources():
        raise CannotRelease(f'{PAGE} is made of other sources than the current ones: run playground/build')
    if FOR_TRIALS in text:
        raise CannotRelease(f'{PAGE} is made for trials')
    return text


def carried(text):
    """The module of rooplpp in a page."""
    found, before = MODULES.search(text), MODULE.search(text)
    if found:
        return lzma.decompress(base64.b64decode(found.group(1)))[:int(found.group(2))]
    if before is None:
        raise CannotRelease(f'{PAGE} carries no module')
    return gzip.decompress(base64.b64decode(before.group(1)))


def linked_sum(text, module):
    """The SHA-256 of the module as it was linked, with addresses of 64 bits."""
    found = LINKED.search(text)
    return found.group(1) if found else sum_of(module)


def check_live_of_page(text, linked):
    """Fails if the module of rooplpp-live in a page is of another build than the linked one with this sum."""
    found = LIVE_LINKED.search(text)
    if found and found.group(1) != linked:
        raise CannotRelease(f'{PAGE} has a module of rooplpp-live of another build: run playground/build')


def lowered(module):
    """The module with addresses of 32 bits; one that has such addresses already stays as it is."""
    tool = lower()
    return module if tool.has_small_addresses(module) else tool.lowered(module)


def with_origin(module, origin):
    """The module with a last section, which no engine looks at: what it is made of, as JSON."""
    tool = lower()
    content = tool.number_bytes(len(SECTION)) + SECTION + json.dumps(origin).encode()
    return module + bytes([tool.CUSTOM]) + tool.number_bytes(len(content)) + content


def parted(module):
    """A module without its section of `with_origin`, and what that says; nothing if there is none."""
    tool = lower()
    reader, at = tool.Reader(module), len(tool.HEAD)
    if module[:at] != tool.HEAD:
        raise CannotRelease(f'{LIVE} is no module')
    reader.bytes(at)
    while reader.has_more():
        at, number, content = reader.at, reader.byte(), tool.Reader(reader.bytes(reader.number()))
        if number == tool.CUSTOM and not reader.has_more() and content.bytes(content.number()) == SECTION:
            return module[:at], json.loads(content.rest())
    return module, {}


def origin_of(module):
    return parted(module)[1]


def without_origin(module):
    return parted(module)[0]


def live(program):
    """The module of rooplpp-live, which must be of the current sources and of the program of these bytes."""
    if not os.path.isfile(path_of(LIVE)):
        raise CannotRelease(f'there is no {LIVE}: tools/live_module makes it')
    module = read_bytes(LIVE)
    origin = origin_of(module)
    if origin.get('sources') != sources():
        raise CannotRelease(f'{LIVE} is made of other sources than the current ones: run tools/live_module')
    if origin.get('program') != sum_of(program):
        raise CannotRelease(f'{LIVE} is not of the build that gave the proved program: run tools/live_module')
    return module
