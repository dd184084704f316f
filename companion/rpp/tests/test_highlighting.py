"""The lexers and grammars for papers and editors: their words are those of the program's tables, and they read all examples."""
import glob
import importlib.util
import json
import os
import re
import shutil
import subprocess
import sys
import unittest
from typing import Dict, List, Tuple

from rpp.program import TOP
from rpp.tests.base import EXAMPLES, Case
from rpp.tokens import cut

STYLE = os.path.join(TOP, 'editors', 'latex', 'rooplpp.sty')
TREE_SITTER = os.path.join(TOP, 'editors', 'tree-sitter')
# the words of assembly texts that are no instructions, as docs/reference/formats.md, "Assembly text", has them
NOTES = {'STATIC', 'MARK', 'NAME'}
NO_PROGRAMS = ['class', 'class P int', 'class P method main()', 'class P int x method main() x += ', 'class P method main() skip skip +',
               'class P int x method main() if x then skip fi x', 'class P int x method main() x = 1', 'skip', 'class P method main( skip',
               'class P int x method main() local int y = 0 skip delocal y = 0', 'class P method main() call (x)', 'class int x',
               'class P int x method main() x += (1', 'class P int[3] x method main() skip', 'class P method main(int) skip']


def table(path: str, name: str) -> List[str]:
    """The words of a definition's table."""
    with open(os.path.join(TOP, 'crates', path), encoding='utf-8') as file:
        return re.findall(rf'^{name} \w+ = codes "(.*)"$', file.read(), re.M)


KEYWORDS = set(table('roopl_lexer/specs/Signs.antt', 'keyword_bytes'))
SIGNS = set(table('roopl_lexer/specs/Signs.antt', 'sign_bytes'))
MNEMONICS = set(table('pisa_asm/specs/Mnemonics.antt', 'mnemonic'))


class TablesTest(unittest.TestCase):
    def test_tables_are_whole(self):
        self.assertEqual((len(KEYWORDS), len(SIGNS), len(MNEMONICS)), (24, 26, 35))


class LatexTest(Case):
    def words_of(self, language: str):
        with open(STYLE, encoding='utf-8') as file:
            part = re.search(rf'\\lstdefinelanguage{{{re.escape(language)}}}{{(.*?)^}}', file.read(), re.S | re.M)[1]
        return [word for group in re.findall(r'morekeywords=\[\d\]{([^}]*)}', part) for word in group.split(',')]

    def test_words(self):
        for language, words in (('ROOPL++', KEYWORDS), ('PISA', MNEMONICS | NOTES)):
            found = self.words_of(language)
            self.assertEqual(len(found), len(set(found)))
            self.assertEqual(set(found), words)

    def test_latex_sets_the_examples(self):
        if not shutil.which('pdflatex') or subprocess.run(['kpsewhich', 'listings.sty'], stdout=subprocess.DEVNULL, check=False).returncode:
            self.skipTest('there is no pdflatex with the package listings')
        shutil.copy(STYLE, self.folder)
        self.write('paper.tex', r'''\documentclass{article}\usepackage{rooplpp}\begin{document}
\lstinputlisting[language=ROOPL++,style=rooplpp]{%s/stack.rpp}
\lstinputlisting[language=PISA,style=rooplpp-colour]{%s/subroutine.pisa}
\end{document}''' % (EXAMPLES, EXAMPLES))
        done = subprocess.run(['pdflatex', '-interaction=nonstopmode', '-halt-on-error', 'paper.tex'], cwd=self.folder, stdin=subprocess.DEVNULL,
                              stdout=subprocess.PIPE, stderr=subprocess.STDOUT, universal_newlines=True, errors='replace', check=False,
                              env=dict(os.environ, HOME=self.folder))
        self.assertEqual(done.returncode, 0, done.stdout[-800:])
        self.assertTrue(os.path.exists(os.path.join(self.folder, 'paper.pdf')))


@unittest.skipUnless(importlib.util.find_spec('pygments'), 'there is no pygments')
class PygmentsTest(Case):
    def setUp(self):
        super().setUp()
        from rpp import pygments_lexers
        self.lexers = pygments_lexers

    def test_words(self):
        found = self.lexers
        self.assertEqual({*found.DECLARATIONS, *found.STATEMENTS, 'int', 'nil'}, KEYWORDS)
        self.assertEqual({*found.BRANCHES, *found.INSTRUCTIONS, *found.NOTES, 'NAME'}, MNEMONICS | NOTES)

    def test_signs_and_keywords_are_tokens_of_their_kind(self):
        lexer = self.lexers.RooplppLexer()
        kinds = {word: str(next(lexer.get_tokens(word))[0]) for word in KEYWORDS | SIGNS}
        self.assertEqual({word for word, kind in kinds.items() if kind.startswith('Token.Keyword')}, KEYWORDS)
        self.assertEqual({word for word, kind in kinds.items() if kind == 'Token.Error'}, {'*', '/', '%'})
        for word in KEYWORDS:
            kind, text = next(lexer.get_tokens(f"{word}'s"))
            self.assertEqual((str(kind), text), ('Token.Name', f"{word}'s"))

    def test_tokens_are_those_of_the_program(self):
        lexer = self.lexers.RooplppLexer(stripnl=False, ensurenl=False)
        for path in glob.glob(os.path.join(EXAMPLES, '*.rpp')):
            with open(path, encoding='utf-8') as file:
                text = file.read()
            found = list(lexer.get_tokens(text))
            self.assertEqual(''.join(word for _, word in found), text)
            words = [word for kind, word in found if word.strip() and 'Comment' not in str(kind)]
            self.assertEqual(words, [token.text for token in cut(text.encode())[0]], path)

    def test_assembly_has_no_errors(self):
        image, listing = os.path.join(self.folder, 'image'), os.path.join(self.folder, 'listing')
        self.program.call('compile', os.path.join(EXAMPLES, 'stack.rpp'), image)
        self.program.call('list', image, listing)
        for path in (listing, os.path.join(EXAMPLES, 'subroutine.pisa')):
            with open(path, encoding='utf-8') as file:
                kinds = {str(kind) for kind, _ in self.lexers.PisaLexer().get_tokens(file.read())}
            self.assertNotIn('Token.Error', kinds)
            self.assertIn('Token.Keyword', kinds)


class Recognizer:
    """Whether a grammar as tree-sitter has it derives a list of tokens, by Earley's algorithm."""

    def __init__(self, grammar):
        self.start, self.rules = grammar['start'], {}
        self.productions: Dict[str, List[Tuple]] = {}
        self.count = 0
        for name, rule in grammar['rules'].items():
            self.productions.setdefault(name, []).append((self.symbol(rule),))
        self.nullable = self.those_that_may_be_empty()

    def symbol(self, rule):
        """The symbol of a rule: a terminal, the name of another rule, or a new name for its parts."""
        kind = rule['type']
        if kind in ('STRING', 'PATTERN'):
            return (kind, rule['value'])
        if kind == 'SYMBOL':
            return rule['name']
        if kind in ('PREC_LEFT', 'TOKEN'):
            return self.symbol(rule['content'])
        self.count += 1
        name = f'{kind} {self.count}'
        if kind == 'BLANK':
            self.productions[name] = [()]
        elif kind == 'SEQ':
            self.productions[name] = [tuple(self.symbol(each) for each in rule['members'])]
        elif kind == 'CHOICE':
            self.productions[name] = [(self.symbol(each),) for each in rule['members']]
        else:
            one = self.symbol(rule['content'])
            self.productions[name] = [(name, one), (one,) if kind == 'REPEAT1' else ()]
        return name

    def those_that_may_be_empty(self):
        empty = set()
        while True:
            more = {name for name, bodies in self.productions.items() if any(all(part in empty for part in body) for body in bodies)}
            if more == empty:
                return empty
            empty = more

    @staticmethod
    def fits(terminal, token) -> bool:
        kind, value = terminal
        if kind == 'STRING':
            return token.text == value
        return token.kind in ('name', 'number') and re.fullmatch(value, token.text) is not None

    def derives(self, tokens) -> bool:
        states = [{(self.start, body, 0, 0) for body in self.productions[self.start]}]
        for at in range(len(tokens) + 1):
            states.append(set())
            waiting = list(states[at])
            while waiting:
                name, body, dot, origin = waiting.pop()
                if dot == len(body):
                    new = [(n, b, d + 1, o) for n, b, d, o in states[origin] if d < len(b) and b[d] == name]
                elif isinstance(body[dot], tuple):
                    if at < len(tokens) and self.fits(body[dot], tokens[at]):
                        states[at + 1].add((name, body, dot + 1, origin))
                    continue
                else:
                    new = [(body[dot], each, 0, at) for each in self.productions[body[dot]]]
                    new += [(name, body, dot + 1, origin)] if body[dot] in self.nullable else []
                fresh = [each for each in new if each not in states[at]]
                states[at].update(fresh)
                waiting += fresh
        return any(name == self.start and dot == len(body) and origin == 0 for name, body, dot, origin in states[len(tokens)])


@unittest.skipUnless(shutil.which('node'), 'there is no node')
class TreeSitterTest(Case):
    def setUp(self):
        super().setUp()
        script = os.path.join(os.path.dirname(os.path.realpath(__file__)), 'grammar.js')
        done = subprocess.run(['node', script, os.path.join(TREE_SITTER, 'grammar.js')], stdout=subprocess.PIPE, stderr=subprocess.PIPE,
                              universal_newlines=True, check=False)
        self.assertEqual(done.returncode, 0, done.stderr)
        self.grammar = json.loads(done.stdout)

    def strings(self, rule) -> List[str]:
        if isinstance(rule, list):
            return [word for each in rule for word in self.strings(each)]
        if rule['type'] == 'STRING':
            return [rule['value']]
        inner = rule.get('members') or ([rule['content']] if 'content' in rule else [])
        return self.strings(inner)

    def test_words(self):
        found = {word for rule in self.grammar['rules'].values() for word in self.strings(rule)} - {'//'}
        self.assertEqual({word for word in found if word[0].isalpha()}, KEYWORDS)
        self.assertEqual({word for word in found if not word[0].isalpha()}, SIGNS)

    def test_highlights_name_rules_and_words(self):
        with open(os.path.join(TREE_SITTER, 'queries', 'highlights.scm'), encoding='utf-8') as file:
            text = re.sub(r'^;.*$', '', file.read(), flags=re.M)
        self.assertLessEqual(set(re.findall(r'\((\w+)', text)), set(self.grammar['rules']))
        self.assertEqual(set(re.findall(r'"([^"]+)"', text)) | {'skip', 'nil'}, KEYWORDS | SIGNS)

    def test_grammar_derives_the_examples_and_no_other_texts(self):
        recognizer = Recognizer(self.grammar)
        for path in sorted(glob.glob(os.path.join(EXAMPLES, '*.rpp'))):
            with open(path, 'rb') as file:
                self.assertTrue(recognizer.derives(cut(file.read())[0]), path)
        for text in NO_PROGRAMS:
            self.assertFalse(recognizer.derives(cut(text.encode())[0]), text)
            self.assertIn('refused 3 Syntax', self.program.call('check', self.write('no.rpp', text)).output, text)

    def test_tree_sitter_builds_it(self):
        if not shutil.which('tree-sitter'):
            self.skipTest('there is no tree-sitter')
        copy = os.path.join(self.folder, 'tree-sitter-rooplpp')
        shutil.copytree(TREE_SITTER, copy)
        for words in (['generate'], ['parse', '--quiet', *glob.glob(os.path.join(EXAMPLES, '*.rpp'))]):
            done = subprocess.run(['tree-sitter', *words], cwd=copy, stdout=subprocess.PIPE, stderr=subprocess.STDOUT,
                                  universal_newlines=True, check=False)
            self.assertEqual(done.returncode, 0, done.stdout[-500:])


if __name__ == '__main__':
    sys.exit(unittest.main())
