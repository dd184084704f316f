"""`rpp picture`: what a figure shows is what `trace` printed at the position, and every arrow ends at the box of its object."""
import os
import re
import shutil
import unittest
from xml.etree import ElementTree

from rpp.tests.base import EXAMPLES, SUMS, Case
from rpp.trace import read_moments

SVG = '{http://www.w3.org/2000/svg}'


class PictureTest(Case):
    def drawn(self, source: str, *words: str):
        """The root of a figure."""
        done = self.rpp('picture', source, '-o', 'out.svg', *words)
        self.assertEqual((done.returncode, done.stderr), (0, ''))
        return ElementTree.parse(os.path.join(self.folder, 'out.svg')).getroot()

    def texts(self, root, kind: str = ''):
        return [each.text for each in root.iter(f'{SVG}text') if not kind or each.get('class') == kind]

    def test_boxes_and_arrows_are_those_of_trace(self):
        for name, position in (('doubly', 58), ('queue', 30), ('tree', 60), ('ring', 9)):
            source = os.path.join(EXAMPLES, f'{name}.rpp')
            moment = read_moments(self.trace(source, f'step {position}', 'regs', 'cells 1 1000').split('\n'))[0]
            with self.subTest(name):
                root = self.drawn(source, '--at', str(moment.point.position))
                heads = [f'#{thing.number} {thing.head}' for thing in moment.objects.values()]
                self.assertEqual(sorted(text for text in self.texts(root, 'head') if text.startswith('#')), sorted(heads))
                fields = len(moment.objects[1].cells)
                cells = [value for thing in moment.objects.values() for _, value in thing.cells]
                own = moment.variables if moment.point.at_end else ()
                inner = [value for _, value in moment.variables[len(own):]][fields if moment.point.depth == 1 else 0:]
                references = [value for value in cells if value.startswith('#')]
                dots = len(list(root.iter(f'{SVG}circle')))
                self.assertGreaterEqual(dots, len(references))
                self.assertLessEqual(dots, len(references) + sum(value.startswith('#') for value in inner))
                self.arrows_end_at_boxes(root)

    def arrows_end_at_boxes(self, root):
        boxes = [[float(each.get(name)) for name in ('x', 'y', 'width', 'height')] for each in root.iter(f'{SVG}rect')
                 if (each.get('class') or '').startswith('box')]
        arrows = [each.get('d') for each in root.iter(f'{SVG}path') if each.get('class') == 'arrow']
        self.assertTrue(arrows)
        for arrow in arrows:
            x, y = map(float, re.findall(r'-?[\d.]+', arrow)[-2:])
            self.assertTrue(any(abs(x - side) < 0.2 and top < y < top + 20 for left, top, width, _ in boxes for side in (left, left + width)), arrow)

    def test_boxes_do_not_overlap(self):
        root = self.drawn(os.path.join(EXAMPLES, 'queue.rpp'), '--at', '30')
        boxes = [[float(each.get(name)) for name in ('x', 'y', 'width', 'height')] for each in root.iter(f'{SVG}rect')
                 if (each.get('class') or '').startswith('box')]
        self.assertEqual(len(boxes), 5)
        for at, (x, y, width, height) in enumerate(boxes):
            for x2, y2, width2, height2 in boxes[at + 1:]:
                self.assertTrue(x + width <= x2 or x2 + width2 <= x or y + height <= y2 or y2 + height2 <= y)

    def test_what_the_last_statement_changed_is_bold(self):
        # (position 3 follows `total += sum`, with sum = 12)
        root = self.drawn(SUMS, 'a=4', 'b=8', '--at', '3')
        self.assertEqual(self.texts(root, 'new'), ['total', '12'])
        self.assertEqual(self.texts(root)[0], 'sums.rpp, position 3, line 11: a -= b')

    def test_bare_line_and_end(self):
        root = self.drawn(os.path.join(EXAMPLES, 'stack.rpp'), '--line', '17')
        self.assertIn('Stack.push', self.texts(root, 'head'))
        self.assertTrue(any(text.startswith('Stack.main, line ') for text in self.texts(root)))
        bare = self.drawn(os.path.join(EXAMPLES, 'stack.rpp'), '--line', '17', '--bare')
        self.assertFalse(any('line' in text for text in self.texts(bare)))
        self.assertIn('the end of the run', self.texts(self.drawn(SUMS.replace('sums', 'ring')), 'head'))

    def test_words_that_do_not_fit(self):
        for words, why in ((('-o', 'out.png'), 'must end with .svg or .pdf'), (('-o', 'o.svg', '--at', '999'), 'its last one is 5'),
                           (('-o', 'o.svg', '--line', '9', '--at', '1'), 'without --line'), (('-o', 'o.svg', '--line', '99'), 'no statement')):
            done = self.rpp('picture', SUMS, *words)
            self.assertEqual(done.returncode, 1)
            self.assertIn(why, done.stderr)

    def test_pdf(self):
        if not shutil.which('rsvg-convert') and not shutil.which('inkscape'):
            self.skipTest('there is neither rsvg-convert nor inkscape')
        done = self.rpp('picture', SUMS, '-o', 'out.pdf')
        self.assertEqual((done.returncode, done.stderr), (0, ''))
        with open(os.path.join(self.folder, 'out.pdf'), 'rb') as file:
            self.assertEqual(file.read(5), b'%PDF-')


if __name__ == '__main__':
    unittest.main()
