"""`rpp film`, except its page in a browser, which tests/test-pages tries. Expected values are worked out by hand."""
import os
import re
import unittest

from rpp import film
from rpp.program import TOP, Program
from rpp.tests.base import Case
from rpp.tests.test_failing import IN_ARRAY
from rpp.trace import SourceRun

# `down` undoes `up` by its own uncall; undone itself, it runs `up` forward
TURNS = '''class P
  int x
method main()
  x += 5
  call up()
  uncall up()
  uncall down()
  skip
method up()
  x += 1
  x += 2
method down()
  x += 4
  uncall up()
'''
# the line, the active calls, whether it is undone, and x before it
TURNS_POINTS = [
    (4, 1, False, 0), (5, 1, False, 5), (10, 2, False, 5), (11, 2, False, 6), (6, 1, False, 8), (11, 2, True, 8),
    (10, 2, True, 6), (7, 1, False, 5), (14, 2, True, 5), (10, 3, False, 5), (11, 3, False, 6), (13, 2, True, 8),
    (8, 1, False, 4), (None, 0, False, 4)]


class Folder(Case):
    """A test in a folder of its own, whose sources may be any bytes."""

    def written(self, name: str, text: bytes) -> str:
        path = os.path.join(self.folder, name)
        with open(path, 'wb') as file:
            file.write(text)
        return path


class FilmTest(Folder):
    def data(self, source: bytes, most: int = film.MOST_POINTS, heap: int = 4):
        with SourceRun(Program.found(), self.written('f.rpp', source), heap, 8, None) as run:
            return film.film_data(run, most)[0], run.text

    def test_directions_and_values(self):
        data, text = self.data(TURNS.encode())
        seen = [(None if each['place'] is None else text.place(each['place']).line, each['depth'], each['uncalled'],
                 int(dict(each['variables'])['x'])) for each in data['positions']]
        self.assertEqual(seen, TURNS_POINTS)

    def test_first_positions_alone(self):
        data, _ = self.data(TURNS.encode(), most=3)
        self.assertEqual(len(data['positions']), 3)

    def test_run_without_end(self):
        loop = self.written('loop.rpp', b'class P int x method main() from x = 0 do x += 1 loop skip until x = 0')
        done = self.rpp('film', loop, '--most', '600')
        self.assertEqual(done.stdout, f'{self.folder}/loop.html: the first 600 positions, and the run goes on: --most 6000 shows more\n')

    def test_more_calls_than_trace_follows(self):
        deep = self.written('deep.rpp', b'class P int x method main() call q() method q() x += 1 call q()')
        done = self.rpp('film', deep, '--depth', '1000')
        # (a call and an update for each call from the second on, and the first call)
        self.assertGreaterEqual(int(re.search(r'(\d+) positions', done.stdout)[1]), 2 * 99 + 1)

    def test_fault_is_noted_at_the_last_position(self):
        data, _ = self.data(b'class P int x method main() skip from x = 1 do skip loop skip until x = 1')
        self.assertEqual([each.get('note') for each in data['positions']], [None, 'fault 2 Loop'])

    def test_a_test_that_fails_is_the_last_position(self):
        source = b'class P int x method main() skip if x = 0 then x += 1 else skip fi x = 0'
        data, _ = self.data(source)
        notes = [None, None, None, 'fault 1 Fi: `x = 0` is false after the `then` block']
        self.assertEqual([each.get('note') for each in data['positions']], notes)
        last = data['positions'][-1]
        self.assertEqual(source[last['place']:last['end']], b'x = 0')
        self.assertEqual((last['place'], dict(last['variables']), last['depth']), (len(source) - 5, {'x': '1'}, 1))
        done = self.rpp('film', self.written('bad.rpp', source))
        self.assertEqual(done.stdout, f'{self.folder}/bad.html: all 3 positions, and the test that fails\n')

    def test_a_test_that_fails_in_an_uncalled_body(self):
        data, text = self.data(b'class P int x method main() uncall w() method w()\nlocal int t = 2 t += 5 delocal int t = 9 + x')
        last = data['positions'][-1]
        self.assertEqual(last['note'], 'fault 3 Delocal: `t` is 4 after the block was undone, and must be 2')
        self.assertEqual((text.place(last['place']), last['uncalled'], last['depth']), ((2, 15), True, 2))
        self.assertEqual(dict(last['variables']), {'x': '0', 't': '4'})

    def test_the_objects_of_a_test_that_fails(self):
        for body, wanted in (('x += 2 a[1] += 3', {'x': '2', '[1]': '8'}), ('a[1] += 3 x += 2', {'x': '2', '[1]': '8'})):
            data, _ = self.data(IN_ARRAY.format(body).encode())
            last = data['positions'][-1]
            self.assertEqual(last['note'], 'fault 1 Fi: `x = 1` is false after the `then` block')
            objects = [data['objects'][each] for each in last['objects']]
            self.assertEqual([each['head'] for each in objects], ['P', 'int[2]'])
            cells = {label: value for each in objects for label, value in each['cells']}
            self.assertEqual({label: cells[label] for label in wanted}, wanted)

    def test_objects_are_written_once(self):
        data, _ = self.data(b'class P Q q int x method main() new Q q x += 1 x += 1 delete Q q class Q int f method m() skip')
        heads = [(each['name'], each['head'], dict(each['cells'])) for each in data['objects']]
        self.assertEqual([each for each in heads if each[1] == 'Q'], [('#2', 'Q', {'f': '0'})])
        self.assertEqual([len(each['objects']) for each in data['positions']], [1, 2, 2, 2, 1])

    def test_bytes_that_are_no_text_keep_places(self):
        data, text = self.data('// ä '.encode() + b'\xff\n' + TURNS.encode())
        self.assertEqual(data['source'].split('\n')[0], '// ä ?')
        self.assertEqual(text.place(data['positions'][0]['place']).line, 5)

    def test_command(self):
        source = self.written('turns.rpp', TURNS.encode())
        done = self.rpp('film', source, '--heap', '4')
        self.assertEqual((done.returncode, done.stdout), (0, f'{self.folder}/turns.html: all 14 positions\n'))
        done = self.rpp('film', source, 'x=3', '--most', '2', '-o', f'{self.folder}/two.html')
        self.assertEqual(done.stdout, f'{self.folder}/two.html: the first 2 positions, and the run goes on: --most 20 shows more\n')
        with open(f'{self.folder}/two.html', encoding='utf-8') as file:
            page = file.read()
        self.assertIn('["x","3"]', page)
        self.assertIn('The film has the first 2 positions, and the run goes on: --most 20 shows more.</p>', page)
        self.assertIn('"rest":"the run goes on: --most 20 shows more"', page)
        with open(f'{self.folder}/turns.html', encoding='utf-8') as file:
            self.assertNotIn('the run goes on:', file.read())
        self.assertNotEqual(self.rpp('film', source, '-o', source).returncode, 0)
        with open(source, encoding='utf-8') as file:
            self.assertEqual(file.read(), TURNS)

    def test_the_last_words_where_a_film_ends_with_its_run(self):
        """A film that has exactly the positions of its run says so, with and without a fault after the last one."""
        source = self.written('turns.rpp', TURNS.encode())
        bad = self.written('bad.rpp', b'class P int x method main() skip from x = 1 do skip loop skip until x = 1')
        for words, said in (([source, '--heap', '4', '--most', '14'], 'all 14 positions'), ([bad, '--most', '2'], 'all 2 positions'),
                            ([source, '--heap', '4', '--most', '13'], 'the first 13 positions, and the run goes on: --most 130 shows more'),
                            ([bad, '--most', '1'], 'the first position, and the run goes on: --most 10 shows more')):
            with self.subTest(words=words):
                self.assertEqual(self.rpp('film', *words, '-o', f'{self.folder}/f.html').stdout, f'{self.folder}/f.html: {said}\n')
                with open(f'{self.folder}/f.html', encoding='utf-8') as file:
                    self.assertEqual('"rest":' in file.read(), 'goes on' in said)

    def test_refused_source_makes_no_page(self):
        done = self.rpp('film', self.written('bad.rpp', b'class P int x method main() x += x'))
        self.assertEqual(done.returncode, 3)
        self.assertIn('SelfUpdate', done.stderr)
        self.assertFalse(os.path.exists(f'{self.folder}/bad.html'))


def themes(style: str):
    """The colours of a style sheet by their names: those of light, and those of dark."""
    light, dark = style.split('@media (prefers-color-scheme: dark)')[:2]
    colours = [dict(re.findall(r'(--[\w-]+): (#[0-9a-f]{6})', part)) for part in (light, dark)]
    return [colours[0], {**colours[0], **colours[1]}]


def contrast(one: str, other: str) -> float:
    """The contrast of two colours as the guidelines for web contents (WCAG 2) define it."""
    bright = []
    for colour in (one, other):
        parts = [int(colour[at:at + 2], 16) / 255 for at in (1, 3, 5)]
        linear = [part / 12.92 if part <= 0.04045 else ((part + 0.055) / 1.055) ** 2.4 for part in parts]
        bright.append(0.2126 * linear[0] + 0.7152 * linear[1] + 0.0722 * linear[2] + 0.05)
    return max(bright) / min(bright)


class ContrastTest(unittest.TestCase):
    """Text can be read on its paper, in both themes."""
    PAIRS = {
        'film.css': [('ink', 'paper'), ('ink', 'pane'), ('soft', 'paper'), ('soft', 'pane'), ('ink', 'forward-paper'),
                     ('ink', 'undone-paper'), ('ink', 'fault-paper'), ('forward', 'forward-paper'), ('undone', 'undone-paper'),
                     ('fault', 'fault-paper'), ('changed', 'changed-paper'), ('changed', 'paper'), ('undone', 'paper'),
                     ('soft', 'changed-paper')],
        'side.css': [('ink', 'pane'), ('soft', 'pane'), ('soft', 'paper'), ('ink', 'here-paper'), ('ink', 'partner-paper')],
        'heap.css': [('ink', paper) for paper in ('pane', 'free', 'object', 'array', 'frame', 'taken')]
                    + [('soft', paper) for paper in ('pane', 'free', 'object', 'array', 'frame')],
    }

    def test_contrast(self):
        pages = os.path.join(TOP, 'companion', 'rpp', 'pages')
        for file, pairs in self.PAIRS.items():
            with open(os.path.join(pages, file), encoding='utf-8') as style:
                for theme, colours in zip(('light', 'dark'), themes(style.read())):
                    for ink, paper in pairs:
                        prefix = f'--{file[:-4]}-'
                        found = contrast(colours[prefix + ink], colours[prefix + paper])
                        self.assertGreaterEqual(found, 4.5, f'{file}, {theme}: {ink} on {paper}')


if __name__ == '__main__':
    unittest.main()
