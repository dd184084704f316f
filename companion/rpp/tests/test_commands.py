"""`rpp fmt`, `rpp inverse`, `rpp list`, standard input, colours, and completion, as a person sees them."""
import os
import pty
import shutil
import subprocess
import sys
import unittest

from rpp.__main__ import COMMANDS
from rpp.places import Text
from rpp.program import TOP
from rpp.report import cut_around

from .base import COMMAND, EXAMPLES, LIST, SUMS, Case, shown_by

LOOSE = 'class P int x   method main()\nif x = 0 then x += 1 else skip fi x = 1 // said\n'
LAID_OUT = 'class P\n  int x\n\nmethod main()\n  if x = 0 then x += 1 else skip fi x = 1  // said\n'
SHELLS = {
    'bash': ['-c', 'source "$0/editors/bash/rpp.bash"; COMP_WORDS=("$1" "${@:2}"); COMP_CWORD=$(($# - 1)); _rpp; '
             'printf "%s\\n" "${COMPREPLY[@]}"', TOP, COMMAND],
    'zsh': ['-c', 'compadd() { local each; for each in "$@"; do [[ $each == -* ]] || print -r -- $each; done }; '
            'words=("$1" "${@:2}"); CURRENT=$#; source "$0/editors/zsh/_rpp"', TOP, COMMAND],
    'fish': ['-c', 'function commandline; if test $argv[1] = -ct; echo $argv_last; else; printf "%s\\n" $argv_before; end; end; '
             'set -g argv_before $argv[2..-2]; set -g argv_last $argv[-1]; source $argv[1]/editors/fish/rpp.fish; __rpp_complete', TOP,
             COMMAND],
}


def shells_of_program(name):
    """The same of a program whose completions are by what its commands take."""
    function = '_' + name.replace('-', '_')
    return {
        'bash': ['-c', f'source "$0/editors/bash/{name}.bash"; COMP_WORDS=({name} "$@"); COMP_CWORD=$#; {function}; '
                 'printf "%s\\n" "${COMPREPLY[@]}"', TOP],
        'zsh': ['-c', 'compadd() { local each; for each in "${@:2}"; do [[ $each != $words[CURRENT]* ]] || print -r -- $each; done }; '
                '_files() { print -rl -- $words[CURRENT]*(N) }; ' f'words=({name} "$@"); CURRENT=$#words; source "$0/editors/zsh/_{name}"', TOP],
        'fish': ['-c', f'source $argv[1]/editors/fish/{name}.fish; complete -C "{name} $argv[2..-1]" | string replace -r "\\t.*" ""', TOP],
    }


def terminal_of_tests(case):
    """The module of the repository's tests that types at a terminal."""
    sys.path.insert(0, os.path.join(TOP, 'tests'))
    case.addCleanup(sys.path.remove, os.path.join(TOP, 'tests'))
    import typed
    return typed


class Near(Case):
    """What may be meant by the name of a file, an option, a field or a word that is not there."""

    def setUp(self):
        super().setUp()
        os.mkdir(os.path.join(self.folder, 'programs'))
        self.write(os.path.join('programs', 'counter.rpp'), 'class Counter int count int before method main() before += count count += 3\n')
        self.write('counter.input', 'count = 4\n')

    def said(self, status, *words):
        done = self.rpp(*words)
        self.assertEqual(done.returncode, status, done)
        return done.stdout + done.stderr

    def test_files(self):
        near = '; did you mean `programs/counter.rpp`?\n'
        missing, none = 'cannot read it: missing', 'No such file or directory'
        for words, said in (
                (['run', 'porgrams/counter.rpp'], f'porgrams/counter.rpp: {missing}{near}'),
                (['run', 'programs/counter.rp'], f'programs/counter.rp: {missing}{near}'),
                (['check', 'programs/contuer.rpp', 'programs/counter.rpp'],
                 f'programs/contuer.rpp: {missing}{near}programs/counter.rpp: accepted\n'),
                (['stat', 'program/counter', 'count=1..3'], f'program/counter: {missing}{near}'),
                (['fmt', 'programs/Counter.rpp'], f'rpp: programs/Counter.rpp: {none}{near}'),
                (['film', 'program/counter.rpp', '-o', 'a.html'], f'rpp: program/counter.rpp: {none}{near}'),
                (['list', 'elsewhere/first.rpp'], f'rpp: elsewhere/first.rpp: {none}\n'),
                (['run', 'program'], f'program: {missing}\n'),
                # (of a file and a folder that are written none is near)
                (['film', 'programs/counter.rpp', '-o', 'program/a.html'], f'rpp: program/a.html: {none}\n')):
            with self.subTest(words=words):
                self.assertEqual(self.said(2, *words), said)
        found = os.path.join(self.folder, 'programs', 'counter.rpp')
        self.assertIn(f'did you mean `{found}`?', self.said(2, 'run', found.replace('counter', 'cuonter')))
        self.assertIn(f'it cannot be read: {none}{near}', self.said(1, 'test', 'programs/conter.rpp'))

    def test_which_of_two_files_is_missing(self):
        self.assertEqual(self.said(2, 'run', 'programs/counter.rpp', '--input', 'nothing'), 'nothing: cannot read it: missing\n')
        self.assertEqual(self.said(2, 'run', 'programs/counter.rpp', '--input', 'conter.input'),
                         'conter.input: cannot read it: missing; did you mean `counter.input`?\n')
        self.assertEqual(self.said(2, 'run', 'program/counter.rpp', '--input', 'counter.input'),
                         'program/counter.rpp: cannot read it: missing; did you mean `programs/counter.rpp`?\n')

    def test_options(self):
        for words, said in ((['--jsno'], '--jsno; did you mean `--json`?'), (['--setps=5'], '--setps; did you mean `--steps`?'),
                            (['--colour', 'never'], '--colour; did you mean `--color`?'), (['--zzz'], '--zzz')):
            with self.subTest(words=words):
                self.assertTrue(self.said(1, 'run', 'programs/counter.rpp', *words).startswith(f'rpp: there is no option {said}\nusage: rpp run '))

    def test_fields_of_an_input(self):
        source, known = 'programs/counter.rpp', 'The main object has the int fields count, before, and a line names each at most once.'
        for status, words in ((8, ['run', source, 'cuont=3']), (8, ['debug', source, 'cuont=3']), (8, ['stat', source, 'cuont=1..3']),
                              (1, ['heap', source, 'cuont=3']), (8, ['film', source, 'cuont=3', '-o', 'a.html'])):
            with self.subTest(words=words):
                said = ' '.join(self.said(status, *words).split())
                self.assertIn(f'There is no int field cuont; did you mean `count`? {known}', said)
        said = ' '.join(self.said(8, 'run', source, 'zzz=3').split())
        self.assertIn(f'zzz = 3 {known}', said)
        self.assertIn('there is no field cont; did you mean `count`?\n', self.said(1, 'stat', source, 'count=1..3', '--results', 'cont'))
        self.program.call('compile', os.path.join(self.folder, source), os.path.join(self.folder, 'c.img'))
        self.assertEqual(self.said(1, 'state', 'c.img', 'cuont=4', '-o', 's'), 'rpp: the image names no int field cuont; did you mean `count`?\n')
        self.assertEqual(self.said(1, 'state', 'c.img', 'zzz=4', '-o', 's'), 'rpp: the image names no int field zzz; it has before, count\n')

    def test_words_of_help(self):
        for word, near in (('chek', 'check'), ('uncal', 'uncall'), ('BadBite', 'BadByte'), ('zzzz', '')):
            with self.subTest(word=word):
                meant = f'; did you mean `{near}`?' if near else ''
                self.assertTrue(self.said(1, 'help', word).endswith(f' of a refusal or fault{meant}\n'))


class Layout(Case):
    def test_in_place(self):
        source = self.write('a.rpp', LOOSE)
        os.chmod(source, 0o600)
        done = self.rpp('fmt', 'a.rpp')
        self.assertEqual((done.returncode, done.stdout, done.stderr), (0, '', ''))
        with open(source, encoding='utf-8') as file:
            self.assertEqual(file.read(), LAID_OUT)
        self.assertEqual(os.stat(source).st_mode & 0o777, 0o600)
        before = os.stat(source).st_mtime_ns
        self.rpp('fmt', 'a.rpp')
        self.assertEqual(os.stat(source).st_mtime_ns, before)

    def test_check(self):
        self.write('a.rpp', LOOSE)
        self.write('b.rpp', LAID_OUT)
        done = self.rpp('fmt', '--check', 'a.rpp', 'b.rpp')
        self.assertEqual((done.returncode, done.stdout), (1, 'a.rpp: not formatted\n'))
        self.assertEqual(self.rpp('fmt', '--check', 'b.rpp').returncode, 0)
        with open(os.path.join(self.folder, 'a.rpp'), encoding='utf-8') as file:
            self.assertEqual(file.read(), LOOSE)

    def test_what_leaves_the_grammar_stays(self):
        source = self.write('a.rpp', 'class P int x method main()\nx = 1\n')
        done = self.rpp('fmt', 'a.rpp')
        self.assertEqual((done.returncode, done.stdout), (1, ''))
        self.assertIn('a.rpp:2:3: refused 3 Syntax: `x` must be changed by', done.stderr)
        with open(source, encoding='utf-8') as file:
            self.assertEqual(file.read(), 'class P int x method main()\nx = 1\n')
        self.assertEqual(self.rpp('fmt', 'absent.rpp').returncode, 2)


class Inverse(Case):
    def test_it_undoes(self):
        source = self.write('a.rpp', 'class P int x method main() x += 5\n')
        done = self.rpp('inverse', source)
        self.assertEqual(done.stdout, 'class P\n  int x\n\nmethod main()\n  x -= 5\n')
        self.rpp('inverse', source, '-o', 'b.rpp')
        self.assertEqual(self.rpp('run', 'b.rpp', 'x=5').stdout.split('\n')[0], 'x = 0')
        self.assertEqual(self.rpp('inverse', source, '-o', source).returncode, 1)
        self.assertEqual(self.rpp('inverse', '-', stdin='class P').returncode, 3)


class Listed(Case):
    def test_statements_beside_their_cells(self):
        source = self.write('a.rpp', 'class P\n  int x\nmethod main()\n  x += 5\n  x ^= 3\n')
        lines = self.rpp('list', source).stdout.split('\n')
        self.program.call('compile', source, os.path.join(self.folder, 'image'))
        self.program.call('list', os.path.join(self.folder, 'image'), os.path.join(self.folder, 'listing'))
        with open(os.path.join(self.folder, 'listing'), encoding='utf-8') as file:
            listing = [line for line in file.read().splitlines() if not line.startswith(('MARK', 'NAME'))]
        self.assertEqual([line[8:].split('  ')[0].strip() for line in lines[:-1]], listing)
        beside = [line.split('  ')[-1] for line in lines if line.endswith(('+= 5', '^= 3'))]
        self.assertEqual(beside, ['4:3 x += 5', '5:3 x ^= 3'])
        only = self.rpp('list', source, '--line', 5).stdout
        self.assertIn('5:3 x ^= 3', only)
        self.assertNotIn('x += 5', only)
        self.assertEqual(self.rpp('list', source, '--line', 1).returncode, 1)
        image = self.rpp('list', 'image', '--source', source).stdout
        self.assertEqual(image, '\n'.join(lines))


class Standing(Case):
    """A source that is standard input or a pipe is read once."""

    def test_every_command(self):
        with open(LIST, encoding='utf-8') as file:
            text = file.read()
        for words in (['run', '-'], ['check', '-'], ['debug', '-', '-c', 'step'], ['film', '-'], ['side', '-'], ['heap', '-', '--heap', 5],
                      ['inverse', '-'], ['list', '-'], ['stat', '-'], ['picture', '-', '-o', 'list.svg'], ['fmt', '-'], ['fmt', '--check', '-'], ['run', '/dev/stdin'], ['check', '/dev/stdin']):
            with self.subTest(words=words):
                piped = self.rpp(*words, stdin=text)
                self.assertEqual((piped.returncode, piped.stderr), (0, ''))
                self.assertTrue(piped.stdout or '--check' in words)
        self.assertTrue(os.path.isfile(os.path.join(self.folder, 'film.html')))

    def test_the_name_that_is_shown(self):
        done = self.rpp('check', '-', stdin='class P int x method main() x += x\n')
        self.assertTrue(done.stdout.startswith('<stdin>:1:29: refused 16 SelfUpdate: '))

    def test_substituted_processes(self):
        text = "printf 'class P int x method main() x += x'"
        for word, status in (('run', 3), ('check', 1)):
            done = subprocess.run(['bash', '-c', f'{sys.executable} {COMMAND} {word} <({text})'], stdout=subprocess.PIPE, check=False)
            self.assertEqual(done.returncode, status)
            self.assertIn(':1:29: refused 16 SelfUpdate', done.stdout.decode())

    def test_files_as_standard_input(self):
        source = self.write('a.rpp', 'class P int x method main() x += 5\n')
        for word in ('-', '/dev/stdin', '/dev/fd/0', '/proc/self/fd/0'):
            for command, wanted in (('check', f'{"<stdin>" if word == "-" else word}: accepted\n'), ('run', 'x = 5\nlive 0\nsteps 34\n')):
                with self.subTest(word=word, command=command), open(source, 'rb') as file:
                    done = subprocess.run([sys.executable, COMMAND, command, word], stdin=file, stdout=subprocess.PIPE, check=False)
                    self.assertEqual(done.stdout.decode(), wanted)

    def test_an_input(self):
        done = self.rpp('run', os.path.join(EXAMPLES, 'counter.rpp'), '--input', '-', stdin='count = 4\n')
        self.assertEqual(done.stdout.split('\n')[0], 'count = 7')
        done = self.rpp('run', '-', '--input', '-', stdin='count = 4\n')
        self.assertEqual((done.returncode, done.stderr), (1, 'rpp: <stdin> must not be the source and the input: it is read once\n'))

    def test_expectations(self):
        done = self.rpp('test', '-', stdin='//? x=1 -> x = 6, back\nclass P int x method main() x += 5\n')
        self.assertEqual((done.returncode, done.stdout.split('\n')[0]), (0, '<stdin>: all expectations hold, 1 of 1'))

    def test_names_that_are_no_fields(self):
        """Every command that takes an input names the fields that it can have."""
        source = self.write('two.rpp', 'class P int left C c int right method main() left += 1 class C int other method f() skip')
        for command, *more in (('run',), ('debug', '-c', 'where'), ('film',), ('heap',), ('picture', '-o', 'p.svg'), ('stat',)):
            with self.subTest(command=command):
                done = self.rpp(command, source, 'left=1', 'other=2', *more)
                self.assertIn('The main object has the int fields left, right, and a line names each at most once.', done.stdout + done.stderr)
                self.assertIn('other', done.stdout + done.stderr)

    def test_start_states(self):
        image, source = os.path.join(self.folder, 'counter.img'), os.path.join(EXAMPLES, 'counter.rpp')
        self.assertEqual(self.program.call('compile', source, image).status, 0)
        wanted = ('rooplpp run {} 12 64 STEPS state SAVE begins with it; `debug` and `profile` take no state')
        done = self.rpp('state', image, '-', '-o', 'state', stdin='count = 4\n')
        self.assertEqual((done.returncode, done.stdout.split('\n')[1]), (0, wanted.format(image)))
        numbers = self.write('count.txt', 'count = 4\n')
        line = f'{sys.executable} {COMMAND} state - {numbers} -o state < {image}; {sys.executable} {COMMAND} debug {image} --source - -c here < {source}'
        done = subprocess.run(['bash', '-c', line], cwd=self.folder, stdout=subprocess.PIPE, check=False)
        self.assertIn(wanted.format('IMG'), done.stdout.decode())

    def test_the_name_of_a_pipe(self):
        done = subprocess.run(['bash', '-c', f'{sys.executable} {COMMAND} debug <(cat {LIST}) -c where'], stdout=subprocess.PIPE, check=False)
        self.assertRegex(done.stdout.decode(), r'^\[0\] /dev/fd/\d+:7:3 in List.main')


class Folders(Case):
    def test_a_folder_is_no_source(self):
        for command in ('check', 'run', 'stat'):
            with self.subTest(command=command):
                done = self.rpp(command, self.folder)
                self.assertEqual(done.returncode, 2)
                self.assertIn(f'{self.folder}: cannot read it: it is a folder', done.stdout + done.stderr)


class Results(Case):
    def test_no_table_is_written_over_a_source(self):
        source, other = self.write('a.rpp', LOOSE), self.write('b.rpp', LOOSE)
        for words in (['test', '--json', source, other], ['test', '--csv', source, other], ['stat', '--json', source, other],
                      ['stat', '--svg', source, other]):
            with self.subTest(words=words):
                done = self.rpp(*words)
                self.assertEqual((done.returncode, done.stdout), (1, ''))
                self.assertIn(f'{source} is a source', done.stderr)
                with open(source, encoding='utf-8') as file:
                    self.assertEqual(file.read(), LOOSE)


class Colours(Case):
    def test_when_there_are_colours(self):
        plain = self.rpp('check', LIST).stdout
        self.assertNotIn('\x1b', plain)
        self.assertIn('\x1b[32maccepted\x1b[0m', self.rpp('check', LIST, '--color', 'always').stdout)
        self.assertEqual(self.rpp('--color=never', 'check', LIST).stdout, plain)
        self.assertEqual(self.rpp('check', LIST, '--color', 'some').returncode, 1)

    def test_on_a_terminal(self):
        for settings, has in (({}, True), ({'NO_COLOR': '1'}, False), ({'TERM': 'dumb'}, False)):
            with self.subTest(settings=settings):
                said = self.on_terminal('run', SUMS, 'a=4', 'b=8', columns=60, **settings)
                self.assertEqual('\x1b[' in said, has)
                self.assertIn('Fix:', said)

    def test_lines_fit_the_terminal(self):
        for columns in (60, 100):
            said = self.on_terminal('help', '15', columns=columns, NO_COLOR='1')
            widest = max(len(line) for line in said.splitlines() if not line.startswith('See'))
            self.assertTrue(columns - 25 < widest <= columns, widest)

    def on_terminal(self, *words, columns, **settings):
        """What `rpp` writes on a terminal of so many columns."""
        ours, its = pty.openpty()
        environment = {**{name: value for name, value in os.environ.items() if name != 'NO_COLOR'}, 'TERM': 'xterm', 'COLUMNS': str(columns),
                       **settings}
        started = subprocess.Popen([sys.executable, COMMAND, *words], stdout=its, stderr=subprocess.DEVNULL, env=environment)
        os.close(its)
        return shown_by(started, ours)


class Folded(Case):
    def test_arrays_of_ints(self):
        source = self.write('a.rpp', 'class P int[] a C[] c method main() new int[3] a a[1] += 7 new C[2] c class C\n')
        self.assertEqual(self.rpp('run', source).stdout.split('\n')[:6],
                         ['a = #1', 'c = #2', '#1 int[3] count 1: 0 7 0', '#2 C[2] count 1', '  [0] = nil', '  [1] = nil'])


class Width(unittest.TestCase):
    def test_long_source_lines(self):
        text = Text(b'class P int x method main() ' + b'x += 1 ' * 40 + b'y = 5 ' + b'x += 1 ' * 40)
        for place, most in ((text.content.index(b'y'), 40), (text.content.index(b'y'), 80), (0, 80), (len(text.content) - 3, 60), (300, 2000)):
            line, marks = text.pointed(place).split('\n')
            short, carets = cut_around(line, marks, most)
            with self.subTest(place=place, most=most):
                self.assertLessEqual(len(short), most)
                begin = carets.index('^')
                self.assertEqual(short[begin:begin + carets.count('^')], line[marks.index('^'):len(marks)])
                self.assertEqual(short[:8], line[:8])


class Completion(Case):
    ROWS = [(['ver'], ['version']), (['run', 'count'], ['counter.rpp']), (['run', 'counter.rpp', 'c'], ['count=']),
            (['run', 'counter.rpp', 'count=1', 'b'], ['before=']), (['check', '--br'], ['--brief']), (['help', 'TooD'], ['TooDeep']),
            (['run', '--co'], ['--color']), (['--color', 'a'], ['auto', 'always']), (['--color', 'never', 'ver'], ['version']),
            (['stat', 'counter.rpp', ''], ['count=', 'before=']), (['stat', 'counter.rpp', '--results', 'c'], ['count']),
            (['stat', 'counter.rpp', '--results', 'before,'], ['before,count']), (['stat', 'counter.rpp', '--measures', 'steps,h'], ['steps,heap']),
            (['stat', 'counter.rpp', '--csv', 'c'], ['counter.img', 'counter.rpp']),
            (['run', 'counter.rpp', 'before=1', 'count=2', ''], []), (['list', 'co'], ['counter.img', 'counter.rpp']), (['run', 'co'], ['counter.rpp']),
            (['check', 'counter.rpp', 'co'], ['counter.rpp']), (['test', 'co'], ['counter.img', 'counter.rpp']), (['debug', 'counter.img', ''], [])]

    def setUp(self):
        super().setUp()
        shutil.copy(os.path.join(EXAMPLES, 'counter.rpp'), self.folder)

    def test_words(self):
        self.write('counter.img', '')
        for words, wanted in self.ROWS:
            with self.subTest(words=words):
                self.assertEqual(self.rpp('complete', *words).stdout.split(), wanted)
        self.assertEqual(set(self.rpp('complete', '').stdout.split()), {*COMMANDS, '--help', '--color'})

    def test_shells(self):
        self.complete_by(SHELLS, self.ROWS[:3])

    def test_the_program(self):
        self.complete_by(shells_of_program('rooplpp'), [
            (['che'], ['check']), (['f'], ['flip']), (['check', 'count'], ['counter.rpp']), (['check', 'counter.rpp', 'count'], []),
            (['go', 'count'], ['counter.rpp']), (['go', 'counter.rpp', 'count'], []), (['go', 'counter.rpp', '1', '1', '9', 'count'], ['counter.rpp']),
            (['cluster', 's', '9', 'a', 'b', 'c', 'count'], ['counter.rpp']), (['nothing', 'count'], [])])

    def test_live_sessions(self):
        self.complete_by(shells_of_program('rooplpp-live'), [
            (['s'], ['source']), (['source', 'count'], ['counter.rpp']), (['source', 'counter.rpp', 'count'], []),
            (['source', 'counter.rpp', '1', '1', 'count'], ['counter.rpp']), (['source', 'counter.rpp', '1', '1', 'in', 'count'], []),
            (['image', 'first.img', '1', '1', 'count'], ['counter.rpp']), (['nothing', 'count'], [])])

    def test_typed_at_a_terminal(self):
        """What is there after tabs, of files too: with spaces, below a home, and with a sign that some shells read as the end of a word."""
        rows = (('rpp inv\tcou\t', 'rpp inverse counter.rpp'), ('rpp run counter.rpp bef\t', 'rpp run counter.rpp before='),
                ('rpp check ./cou\t', 'rpp check ./counter.rpp'), ('rpp check two\tin\t', 'rpp check two words/in it.rpp'),
                ('rpp check "two words/i\t', 'rpp check two words/in it.rpp'), ('rpp check ~/at\t', f'rpp check {self.folder}/at home.rpp'),
                ('rpp check a=\tb\t', 'rpp check a=b/b=c.rpp'))
        for name in ('two words/in it.rpp', 'at home.rpp', 'a=b/b=c.rpp'):
            os.makedirs(os.path.join(self.folder, os.path.dirname(name)), exist_ok=True)
            self.write(name, 'class P method main() skip')
        settings = ['env', f'--chdir={self.folder}', f'HOME={self.folder}', f'ZDOTDIR={self.folder}', f'XDG_CONFIG_HOME={self.folder}',
                    f'XDG_DATA_HOME={self.folder}/.local/share', 'TERM=xterm',
                    f'PATH={TOP}:{os.environ["PATH"]}', f'ROOPLPP_PROGRAM={self.program.path}']
        self.write('.bashrc', f"source {TOP}/editors/bash/rpp.bash\nPS1='type: '\n")
        self.write('.zshrc', f"fpath=({TOP}/editors/zsh $fpath)\nautoload -U compinit && compinit -u\nPS1='type: '\n")
        os.makedirs(os.path.join(self.folder, 'fish'))
        # (without this folder fish begins to make completions of all manuals)
        os.makedirs(os.path.join(self.folder, '.local', 'share', 'fish', 'generated_completions'))
        self.write('fish/config.fish', f"source {TOP}/editors/fish/rpp.fish\nfunction fish_prompt; echo -n 'type: '; end\n")
        completed = terminal_of_tests(self).completed
        for shell, words in (('bash', ['--rcfile', f'{self.folder}/.bashrc', '-i']), ('zsh', ['-i']), ('fish', ['-i'])):
            with self.subTest(shell=shell):
                if not shutil.which(shell):
                    self.skipTest(f'there is no {shell}')
                for keys, wanted in rows:
                    self.assertEqual((keys, (completed([*settings, shell, *words], keys, 'type: ') or 'nothing').rstrip()), (keys, wanted))

    def complete_by(self, shells, rows):
        for shell, words in shells.items():
            with self.subTest(shell=shell):
                if not shutil.which(shell):
                    self.skipTest(f'there is no {shell}')
                for typed, wanted in rows:
                    done = subprocess.run([shell, *words, *typed], cwd=self.folder, stdout=subprocess.PIPE, check=False)
                    self.assertEqual((typed, sorted(done.stdout.decode().split())), (typed, sorted(wanted)))
