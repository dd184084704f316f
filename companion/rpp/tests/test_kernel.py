"""ROOPL++ in a notebook: what the cells do, and a notebook that Jupyter itself runs."""
import json
import os
import re
import shutil
import subprocess
import sys
import unittest
from xml.etree import ElementTree

from rpp.kernel import Notebook, completions
from rpp.program import TOP
from rpp.tests.base import Case

COUNTER = '// counter.rpp\nclass Counter\n  int count\n  int before\n\nmethod main()\n  before += count\n  count += 3\n'
CELLS = [COUNTER, '%run count=4 --back', '%inverse', '%picture count=4 --at 1', '%film count=4', '%stat count=1..9 --results count',
         'class P int x method main() x += x']


def python_of_jupyter():
    """A Python with ipykernel and nbconvert, if this machine has one."""
    for python in (sys.executable, '/usr/bin/python3'):
        known = os.path.exists(python) and subprocess.run([python, '-c', 'import ipykernel, jupyter_client, nbconvert, nbformat'],
                                                          stdout=subprocess.DEVNULL, stderr=subprocess.DEVNULL, check=False)
        if known and known.returncode == 0:
            return python
    return None


def notebook(cells):
    """The text of a notebook with these cells."""
    made = [{'cell_type': 'code', 'execution_count': None, 'metadata': {}, 'outputs': [], 'source': cell} for cell in cells]
    return json.dumps({'cells': made, 'metadata': {'kernelspec': {'name': 'rooplpp', 'display_name': 'ROOPL++', 'language': 'rooplpp'}},
                       'nbformat': 4, 'nbformat_minor': 4})


class CellsTest(Case):
    def setUp(self):
        super().setUp()
        self.notebook = Notebook()
        self.addCleanup(self.notebook.close)

    def text(self, code: str, is_error: bool = False) -> str:
        shown = self.notebook.cell(code)
        self.assertEqual({each.is_error for each in shown}, {is_error})
        return '\n'.join(each.data['text/plain'] for each in shown)

    def test_a_source_runs_and_is_kept(self):
        self.assertTrue(self.text(COUNTER).startswith('count = 3\nbefore = 0\nlive 0\n'))
        self.assertTrue(self.text('%run count=4').startswith('count = 7\nbefore = 4\n'))
        self.assertIn('\ncount = 4\nbefore = 0\n', self.text('%run count=4 --back'))
        self.assertTrue(self.text('class P int x method main() x += 5').startswith('x = 5\n'))
        self.assertTrue(self.text('%run counter.rpp count=1').startswith('count = 4\n'))
        self.assertEqual(self.text('%inverse'), 'class Counter\n  int count\n  int before\nmethod main()\n  count -= 3\n  before -= count')
        self.assertTrue(self.text('%run count=2\n' + COUNTER).startswith('count = 5\n'))
        self.assertIn('holds', self.text('%test\n//? count=1 -> count = 4\n' + COUNTER))
        self.assertEqual(self.text('%check'), 'cell.rpp: accepted')

    def test_what_is_wrong_is_told(self):
        self.assertIn('there is no source yet', self.text('%run', True))
        self.assertTrue(self.text('class P int x method main() x += x', True).startswith('cell.rpp:1:29: refused 16 SelfUpdate\n'))
        self.assertIn('refused 16', self.text('%film', True))
        self.assertIn('refused 16', self.text('%inverse', True))
        self.assertIn('%picture', self.text('%nothing', True))
        self.assertIn('there is no source other.rpp', self.text('%run other.rpp', True))
        self.notebook.cell(COUNTER)
        self.assertIn('UnknownField', self.text('%film n=1', True))
        self.assertIn('has no position 99', self.text('%picture --at 99', True))
        self.assertNotIn('/tmp', self.text('%run n=1', True))

    def test_pictures_and_films(self):
        self.notebook.cell(COUNTER)
        drawn, = self.notebook.cell('%picture count=4 --at 1')
        svg = ElementTree.fromstring(drawn.data['image/svg+xml'])
        self.assertIn('#1 Counter', [each.text for each in svg.iter('{http://www.w3.org/2000/svg}text')])
        table, plot = self.notebook.cell('%stat count=1..3')
        self.assertIn('count', table.data['text/plain'])
        # (the cost is the same for each count: 2 for each of the two updates)
        self.assertEqual(re.findall(r'^ +\d +\d+ +(\d+)', table.data['text/plain'], re.M), ['4', '4', '4'])
        self.assertIn('<svg', plot.data['image/svg+xml'])
        film, = self.notebook.cell('%film count=4')
        self.assertEqual(film.data['text/plain'], 'a film of 3 positions')
        self.assertIn('sandbox="allow-scripts"', film.data['text/html'])
        self.assertNotIn('history.replaceState', film.data['text/html'])
        film, = self.notebook.cell('%film count=4 --most 2')
        self.assertEqual(film.data['text/plain'], 'a film of 2 positions, and the run goes on: --most 20 shows more')
        self.assertIn('the first 2 positions, and the run goes on: --most 20 shows more.', film.data['text/html'])
        self.assertEqual(self.text('%film --most 0', True), '--most is 1 or more')

    def test_completions(self):
        self.assertEqual(completions('de', 'delta'), ['delete', 'delocal', 'delta', 'destruct'])
        self.assertEqual(completions('%fi', ''), ['%film'])


class JupyterTest(Case):
    def test_jupyter_runs_a_notebook(self):
        python = python_of_jupyter()
        if python is None:
            self.skipTest('there is no ipykernel with nbconvert')
        home = os.path.join(self.folder, 'home')
        env = dict(os.environ, HOME=home, JUPYTER_PATH=os.path.join(home, 'share', 'jupyter'), ROOPLPP_PROGRAM=self.program.path)
        done = subprocess.run([python, os.path.join(TOP, 'rpp'), 'kernel', '--install', '--prefix', home], env=env, stdout=subprocess.PIPE,
                              stderr=subprocess.PIPE, universal_newlines=True, check=False)
        self.assertEqual(done.returncode, 0, done.stderr)
        self.write('course.ipynb', notebook(CELLS))
        done = subprocess.run([python, '-m', 'nbconvert', '--to', 'notebook', '--execute', '--output', 'done.ipynb', 'course.ipynb'], env=env,
                              cwd=self.folder, stdout=subprocess.PIPE, stderr=subprocess.STDOUT, universal_newlines=True, check=False)
        self.assertEqual(done.returncode, 0, done.stdout[-800:])
        with open(os.path.join(self.folder, 'done.ipynb'), encoding='utf-8') as file:
            outputs = [cell['outputs'] for cell in json.load(file)['cells']]
        self.assertTrue(''.join(outputs[1][0]['text']).startswith('count = 7\nbefore = 4\n'))
        self.assertIn('count -= 3', ''.join(outputs[2][0]['text']))
        self.assertIn('image/svg+xml', outputs[3][0]['data'])
        self.assertIn('iframe', ''.join(outputs[4][0]['data']['text/html']))
        self.assertEqual((outputs[6][0]['name'], 'SelfUpdate' in ''.join(outputs[6][0]['text'])), ('stderr', True))
        if os.environ.get('RPP_TESTS_KEEP'):
            shutil.copy(os.path.join(self.folder, 'done.ipynb'), os.environ['RPP_TESTS_KEEP'])


if __name__ == '__main__':
    unittest.main()
