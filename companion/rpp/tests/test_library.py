"""The companion as a library: the examples of docs/reference/library.md, the public names, and what `pip install` installs."""
import doctest
import os
import pkgutil
import re
import shutil
import subprocess
import sys
import unittest

import rpp
from rpp.program import TOP
from rpp.tests.base import Case

PAGE = os.path.join(TOP, 'docs', 'reference', 'library.md')


class LibraryTest(Case):
    def test_examples_of_the_page(self):
        with open(PAGE, encoding='utf-8') as file:
            text = re.sub(r'^```$', '', file.read(), flags=re.M)
        test = doctest.DocTestParser().get_doctest(text, {}, 'library.md', PAGE, 0)
        said = []
        before = os.getcwd()
        os.chdir(TOP)
        try:
            result = doctest.DocTestRunner(verbose=False).run(test, out=said.append)
        finally:
            os.chdir(before)
        self.assertEqual(result.failed, 0, ''.join(said))
        self.assertGreater(result.attempted, 20)
        self.assertEqual(len(re.findall(r'^\*\*\d+\. ', text, re.M)), 10)

    def test_public_names_are_on_the_page(self):
        with open(PAGE, encoding='utf-8') as file:
            page = file.read()
        for name in rpp.__all__:
            self.assertTrue(callable(getattr(rpp, name)), name)
            if name not in ('Fault', 'Stop'):
                self.assertRegex(page, rf'`rpp\.{name}\b' if name != 'Verdict' else r'`Verdict`', name)

    def test_modules_do_not_take_the_place_of_functions(self):
        names = {each.name for each in pkgutil.iter_modules(rpp.__path__)}
        self.assertLessEqual({'check', 'inverse', 'run'}, names & set(rpp.__all__))
        code = ('import importlib, rpp\nfor name in set(rpp.__all__) & %r: importlib.import_module("rpp." + name)\n'
                'print(rpp.run(b"class P int x method main() x += 5")["x"], [name for name in rpp.__all__ if not callable(getattr(rpp, name))])')
        done = self.python(code % names, os.path.join(TOP, 'companion'))
        self.assertEqual((done.stdout, done.stderr), ('5 []\n', ''))

    def test_citation_is_of_the_newest_version(self):
        with open(os.path.join(TOP, 'CITATION.cff'), encoding='utf-8') as file:
            told = dict(re.findall(r'^([a-z-]+): (\S.*)$', file.read(), re.M))
        with open(os.path.join(TOP, 'CHANGELOG.md'), encoding='utf-8') as file:
            versions = dict(re.findall(r'^## (\d\S*) \((.*)\)$', file.read(), re.M))
        self.assertEqual((told['version'], told['date-released']), next(iter(versions.items())))
        self.assertEqual((told['cff-version'], told['type']), ('1.2.0', 'software'))

    def test_values(self):
        outcome = rpp.run(b'class P P p int x int[] a method main() new int[2] a a[1] -= 3 new P p', {'x': -9}, back=True)
        self.assertEqual(outcome['x'], -9)
        self.assertEqual((list(outcome['a']), len(outcome['a']), outcome['a'].head), ([0, -3], 2, 'int[2]'))
        self.assertEqual((outcome['p']['p'], outcome['p'].count, outcome.live), (None, 1, 2))
        self.assertEqual(outcome.back.fields, {'p': None, 'x': -9, 'a': None})
        self.assertEqual(outcome.steps, outcome.back.steps)
        with self.assertRaises(KeyError):
            outcome['y']
        with self.assertRaises(KeyError):
            outcome['p']['y']
        bound = rpp.run(b'class P int x method main() from x = 0 do skip loop x += 1 until x = 0 - 1', steps=1000)
        self.assertEqual((bool(bound), bound.kind, bound.steps), (False, 'bound', 1000))
        with self.assertRaises(rpp.Refused):
            rpp.run(b'class P int x method main() x += 1', {'y': 1})

    def python(self, code: str, path: str):
        return subprocess.run([sys.executable, '-c', code], env=dict(os.environ, PYTHONPATH=path), cwd=self.folder,
                              stdout=subprocess.PIPE, stderr=subprocess.PIPE, universal_newlines=True, check=False)

    def test_pip_installs_it_without_a_network(self):
        if subprocess.run([sys.executable, '-m', 'pip', '--version'], stdout=subprocess.DEVNULL, stderr=subprocess.DEVNULL).returncode:
            self.skipTest('there is no pip')
        copy, target = os.path.join(self.folder, 'copy'), os.path.join(self.folder, 'there')
        os.mkdir(copy)
        for name in ('companion', 'docs'):
            shutil.copytree(os.path.join(TOP, name), os.path.join(copy, name), ignore=shutil.ignore_patterns('__pycache__', '*.png'))
        os.mkdir(os.path.join(copy, 'tools'))
        for name in ('pyproject.toml', 'CHANGELOG.md', 'README.md', os.path.join('tools', 'rpp_wheel.py')):
            shutil.copy(os.path.join(TOP, name), os.path.join(copy, name))
        done = subprocess.run([sys.executable, '-m', 'pip', 'install', '--no-index', '--disable-pip-version-check', '--quiet', '--target', target, copy],
                              stdout=subprocess.PIPE, stderr=subprocess.STDOUT, universal_newlines=True, check=False, cwd=self.folder)
        self.assertEqual(done.returncode, 0, done.stdout)
        code = ('import rpp, os; print(rpp.__file__.startswith(os.environ["PYTHONPATH"]), rpp.run(b"class P int x method main() x += 5")["x"], '
                'rpp.check(b"class P int x method main() x += x").fix[:4])')
        os.environ['ROOPLPP_PROGRAM'], kept = self.program.path, os.environ.get('ROOPLPP_PROGRAM')
        try:
            self.assertEqual(self.python(code, target).stdout, 'True 5 Put \n')
            script = os.path.join(target, 'bin', 'rpp')
            said = subprocess.run([sys.executable, script, 'help', '16'], env=dict(os.environ, PYTHONPATH=target), stdout=subprocess.PIPE,
                                  universal_newlines=True, check=False).stdout
            self.assertTrue(said.startswith('refusal 16 SelfUpdate\n'), said)
            page = re.search(r'^See (.*)#16-selfupdate$', said, re.M)[1]
            self.assertTrue(page.startswith(target) and os.path.isfile(page), said)
        finally:
            os.environ.pop('ROOPLPP_PROGRAM') if kept is None else os.environ.update(ROOPLPP_PROGRAM=kept)


if __name__ == '__main__':
    unittest.main()
