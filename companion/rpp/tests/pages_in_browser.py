"""The pages of `rpp film`, `rpp side` and `rpp heap` in a headless Chromium, by the mouse and the keys. What the film shows at
each position is compared with what `trace` prints there. `tests/test-pages` runs these tests where there is a browser."""
import os
import re
import unittest
import unittest.mock

from rpp import film, heap, side
from rpp.program import Program
from rpp.tests.base import EXAMPLES
from rpp.tests.browser import Browser
from rpp.tests.test_film import TURNS, TURNS_POINTS, Folder

ELEMENTS = b'''class P
  int x
  Q[] a
  int[] c
method main()
  new Q[2] a
  construct Q q
    q <=> a[(0 + 1)]
    call a[1]::up(x)  // </script><!-- \xc3\xa4 \xff
    uncall a[1]::up(x)
    q <=> a[1]
  destruct q
  delete Q[2] a
  if (x + 1) = 1 then x ^= 1 else skip fi x = 1
  from x = 1 do skip loop x += 1 until x = 3
  local int[] b = nil new int[x] b copy int[] b c uncopy int[] b c delete int[3] b delocal int[] b = nil
class Q
  int f
method up(int v)
  f += 1
  v += f
  f -= 1
'''
# what is marked where these statements come next
MARKED = {
    'new Q[2] a', 'construct Q q', 'q <=> a[(0 + 1)]', 'call a[1]::up(x)', 'uncall a[1]::up(x)', 'q <=> a[1]', 'delete Q[2] a',
    'if (x + 1) = 1 then', 'x ^= 1', 'from x = 1 do', 'skip', 'x += 1', 'local int[] b = nil', 'new int[x] b', 'copy int[] b c',
    'uncopy int[] b c', 'delete int[3] b', 'f += 1', 'v += f', 'f -= 1'}


class PageTest(Folder):
    browser = None

    @classmethod
    def setUpClass(cls):
        cls.browser = Browser()

    @classmethod
    def tearDownClass(cls):
        cls.browser.__exit__()

    def opened(self, command, words, mark='', width=1200, height=900):
        """Opens the page that a command makes with these words."""
        out = os.path.join(self.folder, 'page.html')
        with open(os.devnull, 'w') as silent:
            with unittest.mock.patch('sys.stdout', silent):
                self.assertEqual(command.main([*words, '-o', out]), 0)
        self.browser.resize(width, height)
        self.browser.open(out, mark)
        return out

    def text(self, selector: str) -> str:
        return self.browser.value(f'document.querySelector({selector!r}).textContent')

    def count(self, selector: str) -> int:
        return self.browser.value(f'document.querySelectorAll({selector!r}).length')

    def is_alone(self, path: str) -> None:
        """The page fetched nothing but itself, nothing in it failed, and it is not wider than a narrow screen."""
        fetched = {event['request']['url'].split('#')[0] for event in self.browser.named('Network.requestWillBeSent')}
        self.assertEqual(fetched, {f'file://{path}'})
        self.assertEqual(self.browser.named('Log.entryAdded') + self.browser.named('Runtime.exceptionThrown'), [])
        self.browser.resize(360, 740)
        self.assertLessEqual(self.browser.value('document.documentElement.scrollWidth'), 360)


def traced(source: str, heap_order: int, depth: int, inputs=()):
    """What `trace` prints at each position of a run: the line of the place, and the lines of variables and objects."""
    with Program.folder() as folder:
        script = folder.write('script', '\n'.join(f'step {step}\nregs\ncells 1 1000' for step in [0] + [1] * 250))
        output = Program.found().call('trace', source, heap_order, depth, script, *inputs).output
    positions = []
    for part in re.split(r'^(?=at )', output, flags=re.M)[1:]:
        place, _, rows = part.partition('\n')
        if positions and positions[-1][0].split()[1] == place.split()[1]:
            positions.pop()
        positions.append((place, rows.rstrip('\n')))
    return positions


class FilmPage(PageTest):
    SHOWN = '''(() => {
        const find = name => document.querySelector(name), mark = find('.film-present mark');
        return [find('.film-status').textContent, find('.film-text').textContent, mark && mark.textContent,
          mark && mark.className, document.querySelectorAll('.film-store .film-object').length,
          document.querySelectorAll('.film-object .film-value, .film-object .film-middle').length]; })()'''

    def is_as_traced(self, index: int, positions, source: bytes) -> None:
        """What the page shows is what `trace` printed at this position."""
        place, rows = positions[index]
        status, text, mark, kind, objects, cells = self.browser.value(self.SHOWN)
        self.assertEqual(text, rows)
        self.assertTrue(status.startswith(f'{index} of {len(positions) - 1}'), status)
        self.assertEqual((objects, cells), (len(re.findall('^#', rows, re.M)), len(re.findall('^  ', rows, re.M))))
        at = re.match(r'at \d+ place (\d+) depth (\d+)(?: (fault .*))?$', place)
        if not at:
            self.assertEqual((place, mark), (f'at {index} end', None))
            return
        start = int(at[1])
        self.assertEqual(mark, source[start:start + len(mark.encode())].decode())
        self.assertIn(f'line {source.count(10, 0, start) + 1}, {at[2]} call', status)
        self.assertEqual(kind == 'film-fault', bool(at[3]), place)
        self.assertTrue(status.endswith(at[3] or ''), status)

    def goes_both_ways(self, source: str, positions, forward, back) -> None:
        """Goes to the end and back to the start, and compares each position."""
        with open(source, 'rb') as file:
            text = file.read()
        self.is_as_traced(0, positions, text)
        for index in range(1, len(positions)):
            forward()
            self.is_as_traced(index, positions, text)
        for index in range(len(positions) - 2, -1, -1):
            back()
            self.is_as_traced(index, positions, text)

    def test_clicks_forward_and_back(self):
        source = f'{EXAMPLES}/stack.rpp'
        path = self.opened(film, [source])
        self.goes_both_ways(source, traced(source, 12, 64), lambda: self.browser.click('[data-go=forward]'),
                            lambda: self.browser.click('[data-go=back]'))
        self.is_alone(path)

    def test_keys_forward_and_back(self):
        for name, inputs in (('tree', []), ('sums', ['sums.input'])):
            source = f'{EXAMPLES}/{name}.rpp'
            files = [f'{EXAMPLES}/{each}' for each in inputs]
            self.opened(film, [source] + [word for each in files for word in ('--input', each)])
            positions = traced(source, 12, 64, files)
            if name == 'sums':
                self.end_at_test(source, positions)
            self.goes_both_ways(source, positions, lambda: self.browser.press('ArrowRight'),
                                lambda: self.browser.press('ArrowLeft'))

    @staticmethod
    def end_at_test(source: str, positions) -> None:
        """Adds what the film shows last: the test of the `delocal`, after `sum -= a + b`."""
        place, rows = positions[-1]
        positions[-1] = (place.split(' fault')[0], rows)
        with open(source, 'rb') as file:
            test = file.read().rindex(b'= 0') + 2
        positions.append((f'at {len(positions)} place {test} depth 1 fault 3 Delocal: `sum` is 8 after the block, and must be 0',
                          rows.replace('sum = 12', 'sum = 8')))

    def test_directions(self):
        self.opened(film, [self.written('turns.rpp', TURNS.encode())])
        seen = []
        for _ in TURNS_POINTS:
            tag = self.browser.value("document.querySelector('.film-tag')?.textContent ?? ''")
            seen.append(tag.endswith('undone'))
            self.browser.press('ArrowRight')
        self.assertEqual(seen, [undone for _, _, undone, _ in TURNS_POINTS])
        self.assertNotEqual(self.colour_at(1), self.colour_at(5))

    def colour_at(self, index: int) -> str:
        self.browser.press('Home')
        for _ in range(index):
            self.browser.press('ArrowRight')
        return self.browser.value("getComputedStyle(document.querySelector('.film-present mark')).backgroundColor")

    def test_steps_over_calls_and_open_calls(self):
        self.opened(film, [self.written('turns.rpp', TURNS.encode())], mark='#1')
        self.browser.press('ArrowRight', shift=True)
        self.assertEqual(self.text('.film-count'), '4 of 13')
        self.browser.press('ArrowLeft', shift=True)
        self.assertEqual(self.text('.film-count'), '1 of 13')
        self.browser.press('End')
        self.assertEqual(self.text('.film-count'), '13 of 13')
        for _ in range(4):
            self.browser.press('ArrowLeft')
        calls = self.browser.value("[...document.querySelectorAll('.film-calls li')].map(item => item.textContent)")
        self.assertEqual(calls, ['P::up on #1, line 10', 'P::down on #1, line 14 \u21B6 undone', 'P::main on #1, line 7'])
        self.browser.click('.film-calls li:nth-child(2) button')
        self.assertEqual(self.text('.film-count'), '8 of 13')

    def test_the_last_words_of_a_film_that_was_cut(self):
        self.opened(film, [self.written('turns.rpp', TURNS.encode()), '--most', '3'])
        self.assertNotIn('goes on', self.text('.film-status'))
        self.browser.press('End')
        self.assertTrue(self.text('.film-status').endswith('the run goes on: --most 30 shows more'))

    def test_each_form_and_bytes_that_are_no_text(self):
        source = self.written('elements.rpp', ELEMENTS)
        path = self.opened(film, [source])
        positions = traced(source, 12, 64)
        places = [re.match(r'at \d+ place (\d+)', place) for place, _ in positions]
        marked = set()
        for (_, rows), place in zip(positions, places):
            marked.add(self.browser.value("document.querySelector('.film-present mark')?.textContent"))
            if place and ELEMENTS.startswith((b'f ', b'v '), int(place[1])):
                self.assertIn('Q::up on #3', self.text('.film-calls ol'))
            self.assertEqual(self.text('.film-text'), rows)
            self.browser.press('ArrowRight')
        self.assertEqual(marked - {None}, MARKED)
        self.is_alone(path)

    def test_film_in_a_page_of_others(self):
        """Without `keys` a film hears only those inside it, and `remove` ends it."""
        self.opened(film, [self.written('turns.rpp', TURNS.encode())])
        self.browser.value(f'''film.remove(), document.body.innerHTML = '<textarea>ab</textarea><div id="here"></div>',
            globalThis.moves = [],
            globalThis.inner = RooplFilm.show(document.querySelector('#here'), {{source: {TURNS!r}, positions: [
              {{place: 36, depth: 1, uncalled: false, variables: [['x', '0']], objects: []}},
              {{place: null, depth: 0, uncalled: false, variables: [['x', '5']], objects: []}}]}},
            {{onmove: at => moves.push(at)}}), 0''')
        self.browser.value("document.querySelector('textarea').focus()")
        self.browser.press('ArrowRight')
        self.assertEqual(self.browser.value('inner.index()'), 0)
        self.browser.value("document.querySelector('[data-go=forward]').focus()")
        self.browser.press('ArrowRight')
        self.assertEqual(self.browser.value('[inner.index(), moves]'), [1, [0, 1]])
        self.browser.value('inner.remove(), 0')
        self.browser.press('ArrowLeft')
        self.assertEqual(self.browser.value("document.querySelector('#here').children.length"), 0)
        self.assertEqual(self.browser.named('Runtime.exceptionThrown'), [])

    def test_reader_of_traces(self):
        """`RooplFilm.read` makes of the printed lines what `rpp film` writes into its page."""
        self.opened(film, [self.written('turns.rpp', TURNS.encode())])
        lines = '\n'.join(f'{place}\n{rows}' for place, rows in traced(f'{self.folder}/turns.rpp', 12, 64))
        seen = self.browser.value(f'RooplFilm.read({TURNS!r}, {lines!r}).map(each => [each.place, each.depth, each.uncalled,'
                                  "Number(each.variables.find(variable => variable[0] === 'x')[1])])")
        lines_seen = [None if place is None else TURNS[:place].count('\n') + 1 for place, *_ in seen]
        self.assertEqual([(line, *rest) for line, (_, *rest) in zip(lines_seen, seen)], TURNS_POINTS)


class SidePage(PageTest):
    def test_lines_and_partners(self):
        source = f'{EXAMPLES}/tree.rpp'
        path = self.opened(side, [source])
        halves = [row.split(' | ') for row in side.side_rows(side.side_texts(Program.found(), source))[1:]]
        for column, half in (('program', 0), ('inverse', 1)):
            seen = self.browser.value(f"[...document.querySelectorAll('.side-{column} li')].map(item => item.textContent)")
            wanted = [re.sub(r'^ *(\d+)  ', r'\1', row[half]).rstrip() for row in halves]
            self.assertEqual(seen, wanted)
        self.browser.value("document.querySelector('.side-program li:nth-child(7)').focus()")
        self.assertEqual(self.text('.side-partner'), '7  delocal int key = 0')
        self.browser.press('ArrowDown')
        self.assertEqual(self.text('.side-here'), '8    local int depth = 0')
        self.browser.press('ArrowRight')
        self.assertEqual(self.text('.side-here'), '8    delocal int depth = 0')
        self.assertEqual(self.text('.side-partner'), '8    local int depth = 0')
        self.is_alone(path)


class HeapPage(PageTest):
    def test_pictures(self):
        source = f'{EXAMPLES}/tree.rpp'
        path = self.opened(heap, [source, '--line', '53'])
        self.assertEqual(self.count('section'), 3)
        middle = 'section:nth-of-type(2)'
        rows = self.text(f'{middle} pre').split('\n')
        blocks = [row for row in rows if ' words  ' in row]
        self.assertEqual(self.count(f'{middle} .heap-scale rect'), len(blocks))
        self.assertEqual(self.count(f'{middle} .heap-picture rect.heap-free'), sum(' free,' in row for row in blocks))
        self.assertEqual(self.count(f'{middle} .heap-picture rect.heap-object'), sum(' Node,' in row for row in blocks) + 1)
        self.assertEqual(self.count(f'{middle} .heap-picture rect.heap-frame'), sum('::' in row for row in rows))
        self.assertEqual(self.count(f'{middle} .heap-reference'), sum(row.count('=@') for row in rows))
        self.is_alone(path)


if __name__ == '__main__':
    unittest.main()
