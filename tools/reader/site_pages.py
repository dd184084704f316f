"""Builds the reader's site: the pages of the repository, its sources in colours, and the browser of the proof."""
import html
import json
import os
import re
import shutil
import subprocess
from urllib.parse import quote

import markdown
import order
from colours import Colours, language_of
from names import Names
from page import first_sentence, shown
from proofs import TOP_CALL, Proof, address_of, page_of, prose
from sources import Sources, read_lines

HERE = os.path.dirname(os.path.realpath(__file__))
PLAYGROUND = 'release/playground.html'
# What is built is no part of the site, and this page says what release/ has.
BUILT, RELEASE, RELEASE_PAGE = {'.git', 'out', '__pycache__'}, 'release', 'packaging/README.md'
PICTURES = ('.png', '.svg', '.jpg', '.gif')
NAVIGATION = (('Start', 'index.html'), ('Tutorial', 'docs/learn/tutorial.html'), ('Reference', 'docs/reference/language.html'),
              ('Theorem', 'proof/theorem.html'), ('Proof', 'proof/index.html'), ('Order of reading', 'docs/proof/READING.html'))
FRAME = '''<!DOCTYPE html>
<html lang="en" data-root="{up}">
<head><meta charset="utf-8"><meta name="viewport" content="width=device-width, initial-scale=1">
<title>{title} · rooplpp</title><link rel="stylesheet" href="{up}site.css"></head>
<body><a class="skip" href="#site-content">To the content</a>
<header><nav aria-label="Site">{navigation}</nav>
<div class="search"><input type="search" role="combobox" aria-label="Search the names" aria-expanded="false" aria-controls="site-found"
placeholder="Search the names ( / )" autocomplete="off"><ul id="site-found" role="listbox" aria-label="Names" hidden></ul></div></header>
<main id="site-content">
{body}
</main><script src="{up}site.js"></script></body></html>
'''


def files_of(top):
    """The files of the repository, without those of release/ but the playground: those that git knows, or all if there is no git."""
    listed = subprocess.run(['git', '-C', top, 'ls-files', '-z'], stdout=subprocess.PIPE, stderr=subprocess.DEVNULL, check=False)
    if listed.returncode == 0:
        found = listed.stdout.decode().split('\0')
    else:
        paths = (os.path.join(at, name) for at, _, names in os.walk(top) for name in names)
        found = sorted(os.path.relpath(it, top) for it in paths)
    found = [it for it in found if os.path.isfile(f'{top}/{it}') and not BUILT & set(it.split('/'))]
    return [it for it in found if it == PLAYGROUND or not it.startswith(f'{RELEASE}/')]


def up_from(page):
    """The way from a page to the root of the site."""
    return '../' * page.count('/')


class Site:
    """The site while it is built. A page is asked for before it is made, and what it links to is asked for then."""

    def __init__(self, top, folder):
        self.top, self.folder = top, folder
        self.sources = Sources(top)
        self.proof = Proof(self.sources, Names(self.sources))
        self.files = files_of(top)
        self.folders = {os.path.dirname(it) for it in self.files}
        self.folders |= {part for it in self.folders for part in self.parents(it)}
        self.has_playground = os.path.isfile(f'{top}/{PLAYGROUND}')
        self.wanted, self.made, self.entries = [], set(), []

    @staticmethod
    def parents(path):
        while path:
            yield path
            path = os.path.dirname(path)

    # ---- addresses

    def page_for(self, path):
        """The page or file of the site for a file or folder of the repository; None if it is neither."""
        if path in ('', '.', 'README.md'):
            return 'index.html'
        if path == PLAYGROUND and self.has_playground:
            return 'playground.html'
        if path in self.folders:
            crate = re.fullmatch(r'crates/(\w+)(?:/(?:specs|src))?', path)
            if crate and crate.group(1) in self.sources.crates:
                return f'proof/{crate.group(1)}.html'
            return self.page_for(f'{path}/README.md') if f'{path}/README.md' in self.files else f'{path}/folder.html'
        if path not in self.files:
            return None
        return path if path.endswith(PICTURES) else f'{path[:-3]}.html' if path.endswith('.md') else page_of(path)

    def link(self, page, source, target):
        """The address, on a page made from a file, of a target as the file writes it."""
        if re.match(r'\w+:', target) or target.startswith('#'):
            return target
        plain, _, anchor = target.partition('#')
        path = os.path.normpath(os.path.join(os.path.dirname(source), plain))
        path = RELEASE_PAGE if path == RELEASE else path
        found = self.page_for(path)
        if found is None:
            return target
        self.want(path)
        return up_from(page) + quote(found) + (f'#{anchor}' if anchor else '')

    def want(self, path):
        if path not in self.made:
            self.made.add(path)
            self.wanted.append(path)

    # ---- writing

    def put(self, page, title, body):
        """Writes a page."""
        up = up_from(page)
        navigation = [*NAVIGATION, *((('Playground', 'playground.html'),) if self.has_playground else ())]
        links = ''.join(f'<a href="{up}{to}"{" aria-current=page" if to == page else ""}>{name}</a>' for name, to in navigation)
        path = f'{self.folder}/{page}'
        os.makedirs(os.path.dirname(path), exist_ok=True)
        with open(path, 'w', encoding='utf-8') as file:
            file.write(FRAME.format(up=up, title=html.escape(title), navigation=links, body=body))

    def add(self, name, place, address, about):
        """Adds an entry of the search."""
        self.entries.append([name, place, address, about])

    def copy(self, path, to):
        os.makedirs(os.path.dirname(f'{self.folder}/{to}') or self.folder, exist_ok=True)
        shutil.copyfile(path, f'{self.folder}/{to}')

    def write(self):
        """Writes the whole site, and says what it has."""
        for name in ('site.css', 'site.js'):
            self.copy(f'{HERE}/{name}', name)
        if self.has_playground:
            self.copy(f'{self.top}/{PLAYGROUND}', 'playground.html')
        for path in ('README.md', *(it for it in self.files if it.endswith('.md')), *self.sources.lines):
            self.want(path)
        for crate in self.sources.crates:
            self.put_crate(crate)
        self.put_theorem()
        self.put_index()
        self.put_kit()
        while self.wanted:
            self.put_path(self.wanted.pop())
        self.put_names()
        return f'{len(self.made)} files, {sum(1 for _ in self.proof.definitions())} definitions and types, {len(self.entries)} names'

    def put_path(self, path):
        """Writes the page of a file or folder of the repository."""
        page = self.page_for(path)
        if path in self.folders:
            if page.endswith('folder.html'):
                self.put_folder(path, page)
            elif not page.startswith('proof/'):
                self.want(f'{path}/README.md')
        elif path.endswith(PICTURES):
            self.copy(f'{self.top}/{path}', path)
        elif path.endswith('.md'):
            self.put_markdown(path, page)
        elif path in self.sources.lines:
            self.put_source(path, page)
        elif path != PLAYGROUND:
            self.put_text(path, page)

    def put_folder(self, path, page):
        inside = [it for it in self.files if it.startswith(f'{path}/')]
        links = ''.join(f'<li><a href="{html.escape(self.link(page, "x", it))}">{html.escape(it)}</a></li>' for it in inside)
        self.put(page, path, f'<h1>{html.escape(path)}</h1><ul>{links}</ul>')

    def put_markdown(self, path, page):
        def code(text, language):
            colours = Colours('sh' if text.startswith('$ ') else 'rpp' if not language and re.search(r'^\s*class \w', text, re.M) else language)
            return f'<pre><code>{chr(10).join(colours.line(line) for line in text.split(chr(10)))}</code></pre>'

        made = markdown.Page(lambda target: self.link(page, path, target), code)
        with open(f'{self.top}/{path}', encoding='utf-8') as file:
            body = made.html(file.read())
        self.put(page, made.title or path, body)
        self.add(made.title or path, path, quote(page), '')

    def put_text(self, path, page):
        """A file that is no page, in colours; one that is no text is only named."""
        try:
            lines = read_lines(f'{self.top}/{path}')
        except UnicodeDecodeError:
            return self.put(page, path, f'<h1>{html.escape(path)}</h1><p>This file is not a text.</p>')
        colours = Colours(language_of(path))
        rows = ''.join(f'<span class="row" id="L{number}">{colours.line(line)}</span>' for number, line in enumerate(lines, 1))
        return self.put(page, path, f'<h1>{html.escape(path)}</h1><pre><code>{rows}</code></pre>')

    # ---- the proof

    def put_source(self, path, page):
        """A file of definitions or code."""
        crate = path.split('/')[1]
        up = up_from(page)
        name = os.path.basename(path)
        body = f'<p class="soft"><a href="{up}proof/index.html">Proof</a> / <a href="{up}proof/{crate}.html">{crate}</a></p><h1>{name}</h1>'
        module = self.sources.modules.get((crate, name[:-len('.antt')])) if path.endswith('.antt') else None
        if module and module.path == path:
            body += self.proof.module_page(module, up)
            for it in module.definitions.values():
                self.add(it.name, f'{crate}.{module.name}', address_of(it), first_sentence(it.comment))
        else:
            body += self.proof.code_page(path, up)
            for it in (it for it in self.sources.declared.values() if it.path == path):
                self.add(it.name, f'{crate} {it.kind}', address_of(it), first_sentence(it.comment))
            for it in self.proof.functions[path]:
                if it.is_public:
                    self.add(it.label, f'{crate} function', self.proof.address_of_function(it), first_sentence(it.comment))
        self.put(page, f'{crate}/{name}', body)

    def layers(self):
        """The layers of crates.txt with their crates."""
        found, above = [], None
        for line in read_lines(f'{self.top}/crates.txt'):
            if line.startswith('# ') and above == '':
                found.append((line[2:], []))
            elif ':' in line and not line.startswith('#'):
                found[-1][1].append(line.split(':')[0].split()[0])
            above = line
        return found

    def root_of(self, crate):
        """The root file of a crate, and its comment."""
        path = next(it for it in (f'crates/{crate}/src/lib.rt', f'crates/{crate}/src/main.rt') if it in self.sources.lines)
        return path, [line for line in self.sources.lines[path][:40] if line.startswith('//!')]

    def put_crate(self, crate):
        page, up = f'proof/{crate}.html', '../'
        layer = next((name for name, crates in self.layers() if crate in crates), 'tests')
        root, about = self.root_of(crate)
        text = prose(' '.join(line[3:].strip() for line in about))
        body = [f'<p class="soft"><a href="index.html">Proof</a> / {html.escape(layer)}</p><h1>{crate}</h1><p>{text}</p>',
                f'<p><a href="{up}{page_of(root)}">{root.rsplit("/", 1)[1]}</a></p>']
        functions = [it for path, found in self.proof.functions.items() if path.split('/')[1] == crate for it in found if it.is_public]
        if functions:
            rows = [(self.proof.address_of_function(it), it.label, os.path.basename(it.path), it.comment) for it in functions]
            body += ['<h2 id="functions">Functions</h2>', self.rows(up, rows)]
        types = [it for it in self.sources.declared.values() if it.crate == crate and it.is_public]
        if types:
            rows = [(address_of(it), it.name, it.kind, it.comment) for it in types]
            body += ['<h2 id="types">Types and constants</h2>', self.rows(up, rows)]
        modules = [it for (owner, _), it in self.sources.modules.items() if owner == crate]
        body += ['<h2 id="definitions">Definitions</h2>'] if modules else []
        for module in modules:
            rows = [(address_of(it), shown(it.name), it.kind, it.comment) for it in module.definitions.values()]
            body += [f'<h3><a href="{up}{quote(page_of(module.path))}">{module.name}</a> <small class="soft">'
                     f'{prose(first_sentence(module.about))}</small></h3>', self.rows(up, rows)]
        self.put(page, crate, '\n'.join(body))
        self.add(crate, f'crate of {layer}', page, first_sentence(about))

    @staticmethod
    def rows(up, rows):
        """A table of names with their kinds and sentences."""
        lines = ''.join(f'<tr><td><a href="{up}{html.escape(to)}">{html.escape(name)}</a></td><td class="soft">{html.escape(kind)}</td>'
                        f'<td>{prose(first_sentence(about))}</td></tr>' for to, name, kind, about in rows)
        return f'<div class="wide"><table><tbody>{lines}</tbody></table></div>'

    def put_theorem(self):
        """The page of the main theorem: its clause, and the definitions below it in the order of reading."""
        crate, name = TOP_CALL
        call = next(it for path, found in self.proof.functions.items() if path.split('/')[1] == crate for it in found if it.label == name)
        lines = self.sources.lines[call.path]
        start = next(it for it in call.numbers if re.match(r'\s*ensures answer ', lines[it - 1]))
        end = next(it for it in call.numbers if it >= start and not lines[it].strip())
        go = self.proof.go()
        body = ['<h1>The main theorem</h1>',
                f'<p>This is the clause <code>answer</code> of <a href="../{self.proof.address_of_function(call)}">{name}</a>. '
                'Each name is a link to its definition.</p>', self.proof.code(call.path, range(start, end + 1), '../', anchors=False),
                f'<p>For <code>go</code>, {len(go.lines)} definitions are below it. This is their order of reading; '
                '<a href="../docs/proof/READING.html">one page</a> has it with the number of lines.</p>']
        for part in order.reading(go):
            rows = [(address_of(it), shown(it.name), f'{it.crate}.{it.module}', it.comment) for it in part.definitions]
            body += [f'<details><summary>{part.name}: {html.escape(part.about)} ({len(part.definitions)})</summary>', self.rows('../', rows),
                     '</details>']
        self.put('proof/theorem.html', 'The main theorem', '\n'.join(body))
        self.add('The main theorem', 'clause answer', 'proof/theorem.html', '')

    def put_index(self):
        body = ['<h1>The proof</h1><p><a href="theorem.html">The main theorem</a> · <a href="../docs/proof/theorems.html">What is proved</a> · '
                '<a href="kit.html">The names of the kit</a></p>']
        for layer, crates in self.layers():
            rows = [(f'proof/{crate}.html', crate, '', self.root_of(crate)[1]) for crate in crates if crate in self.sources.crates]
            body += [f'<h2>{html.escape(layer)}</h2>', self.rows('../', rows)]
        self.put('proof/index.html', 'The proof', '\n'.join(body))

    def put_kit(self):
        """The names of the kit that definitions and contracts use."""
        meanings = self.proof.meanings
        used = [it for it in meanings if it in self.proof.kit] + sorted(set(self.proof.kit) - set(meanings))
        rows = ''.join(f'<tr id="{html.escape(it)}"><td><code>{html.escape(shown(it))}</code></td>'
                       f'<td>{html.escape(meanings.get(it) or self.proof.kit[it])}</td></tr>' for it in used)
        self.put('proof/kit.html', 'The names of the kit', '<h1>The names of the kit</h1><p>These names come from the library of the prover.</p>'
                 f'<table><tbody>{rows}</tbody></table>')
        for it in used:
            self.add(it, 'kit', f'proof/kit.html#{quote(it)}', meanings.get(it, ''))

    def put_names(self):
        text = json.dumps(sorted(self.entries), ensure_ascii=False, separators=(',', ':'))
        with open(f'{self.folder}/names.js', 'w', encoding='utf-8') as file:
            file.write(f'window.siteNames = {text}\n')
