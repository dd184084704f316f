"""The browser of the proof: what each definition and function names, who names it, and its HTML."""
import html
import re
from urllib.parse import quote

import order
from below import Below
from colours import Colours, language_of
from contracts import CodeScope, functions_of
from page import first_sentence, shown

MOST_USERS = 60
ROOTS = (('rpp_command', 'Answers', 'Answers'), ('command_line', 'Lines', 'line_of'))
TOP_CALL = ('rpp_command', 'rooplpp')


def said(comment):
    """A whole comment as a text."""
    return ' '.join(' '.join(line.lstrip('-/! ') for line in comment if not line.startswith('-- ----')).split())


def prose(text):
    """A text of a comment as HTML: what is in backticks is code."""
    parts = re.split(r'`([^`]*)`', text)
    return ''.join(f'<code>{html.escape(it)}</code>' if number % 2 else html.escape(it, quote=False) for number, it in enumerate(parts))


def page_of(path):
    """The page of a file of definitions or code."""
    return f'{path}.html'


def address_of(definition):
    return f'{quote(page_of(definition.path))}#{quote(definition.name)}'


class Proof:
    """All definitions and functions, with the links between them."""

    def __init__(self, sources, names):
        self.sources, self.names = sources, names
        self.meanings = dict(order.table('kit.tsv'))
        self.functions, self.links, self.users, self.kit = {}, {}, {}, {}
        for path in sources.lines:
            if path.endswith('.rt'):
                crate = path.split('/')[1]
                self.functions[path] = list(functions_of(crate, path, sources.lines[path]))
        for it in self.definitions():
            self.take(it.path, it.label, address_of(it), names.names(it), it)
        for path, functions in self.functions.items():
            scope = CodeScope(sources, path.split('/')[1], path)
            for it in functions:
                self.take(path, f'{it.crate}::{it.label}', self.address_of_function(it), scope.names(it))

    def definitions(self):
        for module in self.sources.modules.values():
            yield from module.definitions.values()
        yield from self.sources.declared.values()

    def address_of_function(self, it):
        return f'{quote(page_of(it.path))}#{quote(it.anchor)}'

    def take(self, path, label, address, found, user=None):
        """Takes in the names of a definition or function: its links, and that it uses them."""
        for number, column, name, (kind, meaning) in found:
            if kind == 'kit':
                word = meaning.rsplit('.', 1)[1]
                self.kit.setdefault(word, meaning)
                link = (f'proof/kit.html#{quote(word)}', self.meanings.get(word, meaning))
            else:
                link = (address_of(meaning), first_sentence(meaning.comment))
                if meaning is not user:
                    self.users.setdefault(meaning, {})[label] = address
            self.links.setdefault((path, number), set()).add((column, column + len(name), *link))

    def go(self):
        """What is below the main theorem, for `go`."""
        roots = [self.sources.modules[crate, module].definitions[name] for crate, module, name in ROOTS]
        return Below(self.names, roots, 'Go')

    def code(self, path, numbers, up, anchors=True):
        """Lines of a file as HTML, with their names as links."""
        colours = Colours(language_of(path))
        rows = []
        for number in numbers:
            links = [(start, end, up + address, title) for start, end, address, title in self.links.get((path, number), ())]
            anchor = f' id="L{number}"' if anchors else ''
            rows.append(f'<span class="row"{anchor}>{colours.line(self.sources.lines[path][number - 1], links)}</span>')
        return f'<pre><code>{"".join(rows)}</code></pre>'

    def used_by(self, definition, up):
        """Who names a definition, as HTML."""
        users = self.users.get(definition, {})
        if not users:
            return '<p class="soft">Nothing names it.</p>'
        links = [f'<a href="{up}{html.escape(address)}">{html.escape(label)}</a>' for label, address in list(users.items())[:MOST_USERS]]
        more = f' and {len(users) - MOST_USERS} more' if len(users) > MOST_USERS else ''
        return f'<details class="used"><summary>Used by {len(users)}</summary><p>{", ".join(links)}{more}</p></details>'

    def article(self, definition, up, numbers, anchors=True):
        """A definition as HTML."""
        name = html.escape(definition.name)
        about = said(definition.comment)
        about = f'<p>{prose(about[:1].upper() + about[1:] + "." * (not about.endswith(".")))}</p>' if about else ''
        return (f'<article id="{name}"><h3><a href="#{quote(definition.name)}">{html.escape(shown(definition.name))}</a> '
                f'<small>{definition.kind}</small></h3>{about}{self.code(definition.path, numbers, up, anchors)}'
                f'{self.used_by(definition, up)}</article>')

    def module_page(self, module, up):
        """The page of a file of definitions: its definitions in order, and what is between them."""
        parts, inside, imports = [], {}, []
        for it in module.definitions.values():
            numbers = [number for number in it.numbers if not self.is_comment_above(module, it, number)]
            inside.update({number: it for number in it.numbers})
            inside[it.numbers[0]] = (it, numbers)
        for number, line in enumerate(module.lines, 1):
            found = inside.get(number)
            if isinstance(found, tuple):
                parts.append(self.article(found[0], up, found[1]))
            elif not found and line.startswith(('use ', 'pub use ')):
                imports.append(number)
            elif not found and line.strip() and line.strip() not in module.about:
                parts.append(self.code(module.path, [number], up))
        head = f'<p>{prose(said(module.about))}</p>' if module.about else ''
        head += f'<details><summary>Imports</summary>{self.code(module.path, imports, up)}</details>' if imports else ''
        return head + '\n'.join(parts)

    @staticmethod
    def is_comment_above(module, definition, number):
        """Whether a line is of the comment above a definition, which the page shows as a sentence."""
        return number < definition.line and module.lines[number - 1].strip().startswith('--')

    def function(self, it, up, numbers=None):
        """A function with its contract as HTML."""
        about = prose(said(it.comment))
        lines = self.code(it.path, numbers or it.numbers, up, anchors=False)
        return (f'<article id="{html.escape(it.anchor)}"><h3><a href="#{quote(it.anchor)}">{html.escape(it.label)}</a> '
                f'<small>function</small> <small><a href="#L{it.line}">source</a></small></h3>'
                f'{f"<p>{about}</p>" if about else ""}{lines}</article>')

    def code_page(self, path, up):
        """The page of a file of code: its types and constants, its functions with their contracts, and the whole file."""
        declared = [it for it in self.sources.declared.values() if it.path == path]
        functions, parts = self.functions[path], []
        if declared:
            parts += ['<h2 id="types">Types and constants</h2>', *(self.article(it, up, it.numbers, False) for it in declared)]
        if functions:
            parts += ['<h2 id="functions">Functions</h2>', *(self.function(it, up) for it in functions)]
        return '\n'.join([*parts, '<h2 id="source">Source</h2>', self.code(path, range(1, len(self.sources.lines[path]) + 1), up)])
