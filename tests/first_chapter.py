"""What a person does with a new installation: the first chapter of the course, and a live session."""
import os
import re

TOP = os.path.dirname(os.path.dirname(os.path.realpath(__file__)))


def page(name):
    with open(f'{TOP}/docs/{name}', encoding='utf-8') as it:
        return it.read()


def chapter_one():
    """The blocks of the first chapter of the course: a file with its name, or a command, which calls ./rpp, with what it prints."""
    chapter = page('learn/tutorial.md').split('\n## ')[1]
    for block in re.findall(r'^```\n(.*?)^```', chapter, re.S | re.M):
        if block.startswith('// '):
            yield block.split()[1], block, None
        for part in re.split(r'^\$ ', block, flags=re.M)[1:] if block.startswith('$ ') else ():
            command, _, wanted = part.partition('\n')
            yield None, command, wanted


def session_of_page():
    """The session at the beginning of the page of live sessions, and what it prints."""
    block = re.search(r'^```\n\$ ([^\n]*\| rooplpp-live [^\n]*)\n(.*?)^```', page('reference/live.md'), re.S | re.M)
    return block.groups()
