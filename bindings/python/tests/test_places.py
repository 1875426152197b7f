"""The lines and columns of offsets."""

import pickle
import unittest

import first_pass
import texts
from first_pass import Place, parse


def counted(source, offset):
    """The line of an offset, its column in bytes and in units of UTF-16, from the start of the text."""
    line, start = 1, 0
    for at in range(offset):
        if source[at : at + 1] == b"\n" or (source[at : at + 1] == b"\r" and source[at : at + 2] != b"\r\n"):
            line, start = line + 1, at + 1
    before = source[start:offset]
    units = sum((byte & 0xC0 != 0x80) + (byte >= 0xF0) for byte in before)
    return line, len(before) + 1, units + 1


class PlacesTest(unittest.TestCase):
    def check(self, source):
        document = parse(source)
        for offset in range(len(source) + 1):
            line, column, utf16_column = counted(source, offset)
            self.assertEqual(document.line_column(offset), (line, utf16_column), (source, offset))
            self.assertEqual(document.line_column(offset, "utf-8"), (line, column), (source, offset))

    def test_rows(self):
        document = parse("a\u00e9\U0001f600z\r\n\rb\n")
        rows = {
            0: (1, 1, 1),
            1: (1, 2, 2),
            3: (1, 4, 3),
            5: (1, 6, 5),
            7: (1, 8, 5),
            8: (1, 9, 6),
            9: (1, 10, 7),
            10: (2, 1, 1),
            11: (3, 1, 1),
            12: (3, 2, 2),
            13: (4, 1, 1),
        }
        for offset, (line, column, utf16_column) in rows.items():
            self.assertEqual(document.line_column(offset, "utf-8"), Place(line, column))
            self.assertEqual(document.line_column(offset, encoding="utf-16"), Place(line, utf16_column))

    def test_each_offset(self):
        line = "\u00e9\U0001f600 a\u20ac".encode() * 40
        for source in (b"", line, b"%b\r\n%b\r%b\n" % (line, line, line), b"a\r\n\r\rbcd\n" * 60):
            self.check(source)
        for length in range(254, 259):
            self.check(b"\r" * length + b"\n")
            self.check(b"a" * length + b"\r\n\xf0\x9f\x98\x80")

    def test_random_texts(self):
        for _, source in texts.random_texts(100):
            self.check(source)

    def test_nodes(self):
        document = parse("\U0001f600 *a*\r\n\r\n> # b\n")
        heading = document.outline()[0]
        self.assertEqual(document.line_column(heading.start), (3, 3))
        self.assertEqual(document.line_column(heading.end), (4, 1))
        star = document[next(document.find(first_pass.Kind.MaybeEmphasis))]
        self.assertEqual(document.line_column(star.start), (1, 4))
        self.assertEqual(document.line_column(star.start, "utf-8"), (1, 6))

    def test_a_document_is_the_same_after_a_call(self):
        document, other = parse("# a\n"), parse("# a\n")
        document.line_column(2)
        restored = pickle.loads(pickle.dumps(document))
        self.assertEqual((restored, hash(document)), (other, hash(other)))
        self.assertEqual(restored.line_column(4), (2, 1))

    def test_wrong_words(self):
        document = parse("ab")
        for offset in (-1, 3, 1 << 64):
            with self.assertRaisesRegex(IndexError, f"^there is no offset {offset}: the text has 2 bytes$"):
                document.line_column(offset)
        for encoding in ("utf-32", "", None):
            with self.assertRaisesRegex(ValueError, "^the encoding is utf-8 or utf-16, and not "):
                document.line_column(0, encoding)
        with self.assertRaises(TypeError):
            document.line_column(1.0)


if __name__ == "__main__":
    unittest.main()
