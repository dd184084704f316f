"""Bytes, lines and columns, counted by hand."""
import unittest

from rpp.places import Place, Position, Text

# é has two bytes and one UTF-16 unit, the mathematical 𝑥 has four bytes and two units.
MIXED = Text('// é𝑥!\r\nx += 1\n\n\ty += 22'.encode('utf-8'))

ROWS = [
    # offset, line, column, protocol line and character
    (0, (1, 1), (0, 0)),
    (3, (1, 4), (0, 3)),
    (5, (1, 5), (0, 4)),
    (9, (1, 6), (0, 6)),
    (12, (2, 1), (1, 0)),
    (14, (2, 3), (1, 2)),
    (19, (3, 1), (2, 0)),
    (21, (4, 2), (3, 1)),
    (28, (4, 9), (3, 8)),
]


class Places(unittest.TestCase):
    def test_both_ways(self):
        for offset, place, position in ROWS:
            with self.subTest(offset=offset):
                self.assertEqual(MIXED.place(offset), Place(*place))
                self.assertEqual(MIXED.offset(*place), offset)
                self.assertEqual(MIXED.position(offset), Position(*position))
                self.assertEqual(MIXED.position_offset(*position), offset)

    def test_a_place_past_a_line_is_its_end(self):
        self.assertEqual(MIXED.offset(2, 99), 18)
        self.assertEqual(MIXED.offset(99, 1), 20)
        self.assertEqual(MIXED.position_offset(1, 99), 18)

    def test_carets_stand_below_the_token(self):
        self.assertEqual(MIXED.pointed(26), '    4 | \ty += 22\n      | \t     ^^')
        self.assertEqual(MIXED.pointed(9), '    1 | // é𝑥!\n      |      ^')

    def test_the_end_is_shown_behind_the_last_token(self):
        text = Text(b'class P\n\n\n')
        self.assertEqual(text.spelled('f', 10), 'f:1:8')
        self.assertEqual(text.pointed(10), '    1 | class P\n      |        ^')
        self.assertEqual(text.line_count, 3)

    def test_bytes_that_are_no_characters_count_one_each(self):
        text = Text(b'a\xffb\xfe')
        self.assertEqual(text.place(3), Place(1, 4))

    def test_tokens(self):
        text = Text(b"node' <=> next::a")
        self.assertEqual([text.token(at) for at in (0, 5, 6, 14)], [(0, 5), (5, 5), (6, 9), (14, 16)])
