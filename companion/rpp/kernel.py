"""`rpp kernel`: ROOPL++ in a Jupyter notebook. `rpp kernel --install` makes it known to Jupyter. It needs ipykernel and
jupyter_client (Debian: python3-ipykernel, python3-jupyter-client).

A cell is a source, and runs. A first line such as `%film` does something else
with it. A cell with only such a line is about the source before, or about the
one that it names.

    %run n=5 --back          what `rpp run` prints
    %film n=5 --most 500     the film of the run
    %inverse, %side          the inverse program; the program next to it
    %picture --at 12         the store at a position, or at the end
    %stat n=1..20            a table, and a plot
    %check, %heap, %test, %help

A source is named by its first comment, as `// stack.rpp`, and
`%run stack.rpp n=3` means that one."""
import argparse
import contextlib
import html
import io
import json
import os
import re
import sys
import tempfile
import zlib
from typing import Dict, List, NamedTuple, Optional

from .__main__ import main as rpp
from .film import FILES, MOST_POINTS, film_data, film_words, goes_on_because
from .library import inverse
from .options import Parser, Unfit, add_run_options, input_file
from .page import as_script, page, tell_refused
from .program import PACKAGE, Closing, NoProgram, Program
from .side import LaidOut
from .tokens import KEYWORDS, is_name
from .trace import Refused, SourceRun

try:
    from ipykernel.kernelbase import Kernel
except ImportError:
    Kernel = None

FILM_SCRIPT = "RooplFilm.show(document.querySelector('main'), {data}, {{keys: document}});\n"
FRAME = '<iframe sandbox="allow-scripts" style="width: 100%; height: 560px; border: 1px solid #bbb" srcdoc="{page}"></iframe>'
NAMED = re.compile(r'^\s*// (\w[\w.-]*\.rpp)\s*$', re.M)
PLAIN = ('run', 'check', 'side', 'heap', 'test')
SPEC = {'display_name': 'ROOPL++', 'language': 'rooplpp', 'interrupt_mode': 'signal'}


class Shown(NamedTuple):
    """What a cell shows: data by their kinds, and whether it is an error."""
    data: Dict[str, str]
    is_error: bool = False


def as_text(text: str, is_error: bool = False) -> List[Shown]:
    return [Shown({'text/plain': text.rstrip('\n')}, is_error)] if text.strip() else []


class Notebook(Closing):
    """The sources of a notebook, and what its cells do. It needs no Jupyter."""

    def __init__(self):
        self._folder = tempfile.TemporaryDirectory(prefix='rpp-notebook-')
        self.folder = self._folder.name
        self.last: Optional[str] = None

    def close(self) -> None:
        self._folder.cleanup()

    def path(self, name: str) -> str:
        return os.path.join(self.folder, name)

    def cell(self, code: str) -> List[Shown]:
        """Does what a cell says."""
        first, _, rest = code.lstrip().partition('\n')
        words = first[1:].split() if first.startswith('%') else ['run']
        source = rest if first.startswith('%') else code
        if source.strip():
            found = NAMED.search(source.lstrip().split('\n')[0])
            self.last = found[1] if found else 'cell.rpp'
            with open(self.path(self.last), 'w', encoding='utf-8') as out:
                out.write(source)
        try:
            return self.done(words[0] if words else 'help', words[1:])
        except Refused as refused:
            with contextlib.redirect_stderr(io.StringIO()) as told:
                tell_refused(refused, self.path(self.last))
            return as_text(self.shortened(told.getvalue()), True)
        except (Unfit, NoProgram) as wrong:
            return as_text(str(wrong), True)

    def done(self, word: str, words: List[str]) -> List[Shown]:
        """Carries out the command of a cell over the source that it means."""
        if word not in PLAIN and word not in ('film', 'inverse', 'picture', 'stat'):
            return as_text(__doc__.split('\n\n', 1)[1], word != 'help')
        name = self.last
        if words and words[0].endswith('.rpp'):
            name, words = os.path.basename(words[0]), words[1:]
        if name is None or not os.path.isfile(self.path(name)):
            raise Unfit(f'there is no source {name}' if name else 'there is no source yet: write one into a cell')
        self.last = name
        if word in PLAIN:
            return self.plain(word, name, words)
        return getattr(self, word)(name, words)

    def called(self, word: str, name: str, words: List[str]):
        """The status of a command of `rpp`, what it printed, and what it said of itself."""
        out, err = io.StringIO(), io.StringIO()
        with contextlib.redirect_stdout(out), contextlib.redirect_stderr(err):
            try:
                status = rpp([word, self.path(name), *words])
            except SystemExit as ended:
                status = ended.code or 0
        return status, self.shortened(out.getvalue()), self.shortened(err.getvalue())

    def shortened(self, text: str) -> str:
        """A text that names the sources without their folder."""
        return text.replace(self.folder + os.sep, '')

    def plain(self, word: str, name: str, words: List[str]) -> List[Shown]:
        status, out, err = self.called(word, name, words)
        return as_text(out, status != 0) + as_text(err, True)

    def film(self, name: str, words: List[str]) -> List[Shown]:
        parser = Parser(prog='%film')
        add_run_options(parser)
        parser.add_argument('--most', type=int, default=MOST_POINTS, metavar='N')
        given = parser.parse_intermixed_args(words)
        if given.most < 1:
            raise Unfit('--most is 1 or more')
        program = Program.found()
        with program.folder() as folder:
            with SourceRun(program, self.path(name), given.heap, given.depth, input_file(given, folder)) as run:
                data, lacking = film_data(run, given.most)
        text = page(f'{name}: the film of its run', film_words(data, lacking), FILES, script=FILM_SCRIPT.format(data=as_script(data)))
        told = f'a film of {len(data["positions"])} positions' + (f', and {goes_on_because(lacking)}' if lacking else '')
        return [Shown({'text/html': FRAME.format(page=html.escape(text, quote=True)), 'text/plain': told})]

    def inverse(self, name: str, _words: List[str]) -> List[Shown]:
        return as_text('\n'.join(LaidOut(inverse(self.path(name))).lines))

    def picture(self, name: str, words: List[str]) -> List[Shown]:
        out = self.path('picture.svg')
        status, said, err = self.called('picture', name, [*words, '-o', out])
        return self.drawn(out, said) if status == 0 else as_text(err, True)

    def stat(self, name: str, words: List[str]) -> List[Shown]:
        out = self.path('stat.svg')
        ranges = any('..' in word or ',' in word for word in words if '=' in word)
        status, said, err = self.called('stat', name, [*words, *(['--svg', out] if ranges else [])])
        return as_text(said) + (self.drawn(out, 'a plot') if status == 0 and ranges else []) + as_text(err, True)

    @staticmethod
    def drawn(path: str, told: str) -> List[Shown]:
        """A picture, under whose classes a page has no style of its own."""
        with open(path, encoding='utf-8') as file:
            svg = file.read()
        mark = f'rpp-{zlib.crc32(svg.encode())}'
        style = re.search(r'<style>(.*?)</style>', svg, re.S)[1]
        own = re.sub(r'([^{}]+)({[^{}]*})', rf'.{mark} \1\2', style)
        svg = svg.replace(style, own).replace('<svg ', f'<svg class="{mark}" ', 1)
        return [Shown({'image/svg+xml': svg, 'text/html': svg, 'text/plain': told.strip()})]


def completions(word: str, code: str) -> List[str]:
    """The keywords, the names of the cell, and the commands that begin with a word."""
    if word.startswith('%'):
        return [f'%{each}' for each in (*PLAIN, 'film', 'help', 'inverse', 'picture', 'stat') if each.startswith(word[1:])]
    names = {each for each in re.findall(r"[A-Za-z][\w']*", code) if is_name(each)}
    return sorted(each for each in names | KEYWORDS if each.startswith(word) and each != word)


if Kernel is not None:
    class RooplKernel(Kernel):
        """The kernel as Jupyter starts it."""
        implementation, implementation_version, banner = 'rpp', '1', 'ROOPL++, by rpp'
        language_info = {'name': 'rooplpp', 'mimetype': 'text/x-rooplpp', 'file_extension': '.rpp', 'pygments_lexer': 'text'}

        def __init__(self, **given):
            super().__init__(**given)
            self.notebook = Notebook()

        def do_execute(self, code, silent, _store_history=True, _user_expressions=None, _allow_stdin=False, **_more):
            shown = self.notebook.cell(code) if code.strip() else []
            for each in shown:
                if silent:
                    continue
                if list(each.data) == ['text/plain']:
                    content = {'name': 'stderr' if each.is_error else 'stdout', 'text': each.data['text/plain'] + '\n'}
                    self.send_response(self.iopub_socket, 'stream', content)
                else:
                    self.send_response(self.iopub_socket, 'display_data', {'data': each.data, 'metadata': {}})
            return {'status': 'ok', 'execution_count': self.execution_count, 'payload': [], 'user_expressions': {}}

        def do_complete(self, code, cursor_pos):
            word = re.search(r"%?[\w']*$", code[:cursor_pos])[0]
            return {'status': 'ok', 'matches': completions(word, code), 'cursor_start': cursor_pos - len(word), 'cursor_end': cursor_pos,
                    'metadata': {}}

        def do_shutdown(self, restart):
            self.notebook.close()
            return {'status': 'ok', 'restart': restart}


def install(prefix: Optional[str]) -> str:
    """Makes the kernel known to Jupyter, for this user or below a prefix; the folder of its description."""
    from jupyter_client.kernelspec import KernelSpecManager
    spec = {**SPEC, 'argv': [sys.executable, '-m', 'rpp.kernel', '-f', '{connection_file}'], 'env': {'PYTHONPATH': os.path.dirname(PACKAGE)}}
    with tempfile.TemporaryDirectory() as folder:
        with open(os.path.join(folder, 'kernel.json'), 'w', encoding='utf-8') as out:
            json.dump(spec, out, indent=1)
        return KernelSpecManager().install_kernel_spec(folder, 'rooplpp', user=prefix is None, prefix=prefix)


def parser() -> Parser:
    made = Parser(prog='rpp kernel', description='Lets Jupyter notebooks run ROOPL++.', epilog=__doc__.split('\n\n', 1)[1],
                  formatter_class=argparse.RawDescriptionHelpFormatter)
    made.add_argument('--install', action='store_true', help='make the kernel known to Jupyter, for this user')
    made.add_argument('--prefix', metavar='FOLDER', help='install below this folder instead')
    made.add_argument('-f', dest='connection', metavar='FILE', help='what Jupyter gives when it starts the kernel')
    return made


def main(words: List[str]) -> int:
    given = parser().parse_args(words)
    if Kernel is None:
        raise Unfit('a notebook needs ipykernel and jupyter_client (Debian: python3-ipykernel, python3-jupyter-client)')
    if given.install:
        print(f'{install(given.prefix)}: the kernel rooplpp; `jupyter notebook` offers it')
        return 0
    if not given.connection:
        raise Unfit('name --install, or let Jupyter start it')
    from ipykernel.kernelapp import IPKernelApp
    IPKernelApp.launch_instance(['-f', given.connection], kernel_class=RooplKernel)
    return 0


if __name__ == '__main__':
    sys.exit(main(sys.argv[1:]))
