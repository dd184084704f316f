"""Pages that need no network: one HTML file with the files of pages/ that it uses and its data written into it."""
import html
import json
import os
import sys
from typing import Any, List, Sequence

from .messages import refusal
from .places import Text
from .program import PACKAGE, keep_apart
from .reading import shown
from .report import failure_lines, input_refused, rule_lines, source_refused
from .screen import say
from .trace import Refused

PAGES = os.path.join(PACKAGE, 'pages')
# (the browser itself refuses whatever would be fetched)
POLICY = "default-src 'none'; style-src 'unsafe-inline'; script-src 'unsafe-inline'"
FRAME = '''<!doctype html>
<html lang="en">
<head>
<meta charset="utf-8">
<meta http-equiv="Content-Security-Policy" content="{policy}">
<meta name="viewport" content="width=device-width, initial-scale=1">
<title>{title}</title>
<style>
{styles}</style>
</head>
<body>
<header><h1>{title}</h1><p>{words}</p></header>
<main>{body}</main>
{scripts}</body>
</html>
'''


def page_file(name: str) -> str:
    """The text of a file of pages/."""
    with open(os.path.join(PAGES, name), encoding='utf-8') as file:
        return file.read()


def page(title: str, words: str, files: List[str], body: str = '', script: str = '') -> str:
    """A page with a title, a sentence in words, the styles and scripts of these files, and a body or a script that makes it."""
    styles = ''.join(page_file(name) for name in ['page.css'] + files if name.endswith('.css'))
    scripts = [page_file(name) for name in files if name.endswith('.js')] + ([script] if script else [])
    return FRAME.format(policy=POLICY, title=html.escape(title), words=html.escape(words), styles=styles, body=body,
                        scripts=''.join(f'<script>\n{each}</script>\n' for each in scripts))


def as_script(value: Any) -> str:
    """Plain data as it is written in a script of a page."""
    return json.dumps(value, separators=(',', ':'), ensure_ascii=False).replace('<', '\\u003c')


def write_page(out: str, text: str, *read: str) -> None:
    """Writes a page into a file that is none of those that were read."""
    keep_apart(out, *read)
    with open(out, 'w', encoding='utf-8') as file:
        file.write(text)


def tell_refused(refused: Refused, source: str, rows: Sequence[str] = ()) -> int:
    """Says why the program refused a source, or what goes with it, as the lines of its input; the status of the program."""
    told = refused.told
    if told.status == 3:
        lines = source_refused(shown(source), Text.read(source), told)
    elif told.kind == 'refused' and told.name in ('UnknownField', 'BadInputLine'):
        lines = [f'rpp: {line}' if at == 0 else line for at, line in enumerate(input_refused(source, told, list(rows)))]
    elif told.kind == 'refused':
        lines = [f'rpp: {told.first_line}'] + rule_lines(refusal(told.number))
    else:
        lines = failure_lines(told, shown(source))
    say(lines, sys.stderr)
    return told.status
