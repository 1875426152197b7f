"""Many texts by several threads."""

import itertools
import pickle
import threading
import unittest

from first_pass import InputError, Options, parse, parse_many

TEXTS = [f"# {number}\n\n[a]: /{number}\n" * (number % 7 + 1) for number in range(1000)]


class ManyTest(unittest.TestCase):
    def test_order(self):
        expected = [parse(text, Options.GITHUB) for text in TEXTS]
        for threads, chunk_bytes in ((None, 1 << 18), (1, 1), (3, 1), (8, 1000)):
            found = list(parse_many(TEXTS, Options.GITHUB, threads=threads, chunk_bytes=chunk_bytes))
            self.assertEqual(found, expected)

    def test_types_of_texts(self):
        given = ["a", b"a", bytearray(b"a"), memoryview(b"a"), memoryview(b"a\0\0\0").cast("I")]
        found = list(parse_many(given, threads=2, chunk_bytes=1))
        self.assertEqual(found[:4], [parse("a")] * 4)
        self.assertEqual(len(found[4].source), 4)

    def test_a_text_that_is_filled_again(self):
        text = bytearray(b"# 0\n")

        def texts(view):
            for number in range(6):
                text[2] = ord("0") + number
                yield view

        expected = [parse(f"# {number}\n") for number in range(6)]
        for view in (text, memoryview(text)):
            for threads, chunk_bytes in itertools.product((1, 3), (1, 1 << 18)):
                self.assertEqual(list(parse_many(texts(view), threads=threads, chunk_bytes=chunk_bytes)), expected)

    def test_strings_of_a_class(self):
        class Shouted(str):
            def encode(self, *_words):
                return b"no"

            def __len__(self):
                return 1 << 40

        self.assertEqual(list(parse_many([Shouted("# a"), "b"], threads=2)), [parse("# a"), parse("b")])

    def test_no_text(self):
        self.assertEqual(list(parse_many([])), [])
        self.assertEqual(list(parse_many(["", ""], threads=2)), [parse("")] * 2)

    def test_read_ahead_is_bounded(self):
        taken = []

        def texts():
            for number in range(10_000):
                taken.append(number)
                yield "a" * 100

        for threads in (1, 2, 4):
            taken.clear()
            documents = parse_many(texts(), threads=threads, chunk_bytes=1000)
            for number in range(200):
                next(documents)
                self.assertLessEqual(len(taken), number + 10 * (2 * threads + 2))
            documents.close()

    def test_an_end_before_the_last_text_stops_the_threads(self):
        before = threading.active_count()
        documents = parse_many(TEXTS, threads=4, chunk_bytes=100)
        next(documents)
        documents.close()
        self.assertEqual(threading.active_count(), before)

    def test_a_text_that_is_not_utf8(self):
        for threads, chunk_bytes in itertools.product((1, 3), (1, 60, 1 << 18)):
            found = []
            with self.assertRaisesRegex(InputError, "^text 5: not UTF-8: byte 1$") as caught:
                for document in parse_many(TEXTS[:5] + [b"a\xff"] + TEXTS, threads=threads, chunk_bytes=chunk_bytes):
                    found.append(document)
            for error in (caught.exception, pickle.loads(pickle.dumps(caught.exception))):
                self.assertEqual((str(error), error.status, error.index), ("text 5: not UTF-8: byte 1", 2, 5))
            self.assertEqual(found, [parse(text) for text in TEXTS[:5]])

    def test_a_text_of_another_type(self):
        for text in ("abc", b"abc", bytearray(b"abc")):
            with self.assertRaisesRegex(TypeError, f"no {type(text).__name__}: parse reads one text"):
                parse_many(text)
        for given, kind in (([5], TypeError), (["a", None], TypeError)):
            with self.assertRaises(kind):
                list(parse_many(given, threads=2))
        with self.assertRaisesRegex(TypeError, "^text 1: a text is a str, .* and no int$"):
            list(parse_many(["a", 5]))

    def test_errors_in_the_place_of_documents(self):
        given = [*TEXTS[:300], b"\xff", None, "\ud800", *TEXTS[:300], b"a\xff"]
        expected = [parse(text) for text in TEXTS[:300]]
        for threads, chunk_bytes in itertools.product((1, 3), (1, 60, 1 << 18)):
            found = list(parse_many(given, threads=threads, chunk_bytes=chunk_bytes, on_error="yield"))
            self.assertEqual((found[:300], found[303:603]), (expected, expected))
            self.assertEqual([type(found[place]) for place in (300, 301)], [InputError, TypeError])
            messages = {
                300: "text 300: not UTF-8: byte 0",
                301: "text 301: a text is a str, or bytes, bytearray or memoryview in UTF-8, and no NoneType",
                302: "text 302: not UTF-8: the string has a lone surrogate at index 0",
                603: "text 603: not UTF-8: byte 1",
            }
            self.assertEqual({place: str(found[place]) for place in messages}, messages)
            self.assertEqual([found[place].index for place in (300, 302, 603)], [300, 302, 603])
            self.assertEqual([found[place].offset for place in (300, 302, 603)], [0, None, 1])
            self.assertEqual(len(found), 604)

    def test_what_the_iterable_raises(self):
        def texts():
            yield from TEXTS[:600]
            raise FileNotFoundError("no.md")

        for threads, on_error in itertools.product((1, 3), ("raise", "yield")):
            found = []
            with self.assertRaisesRegex(FileNotFoundError, "no.md"):
                for document in parse_many(texts(), threads=threads, on_error=on_error):
                    found.append(document)
            self.assertEqual(len(found), 600)

    def test_bad_words(self):
        for given in ({"threads": 0}, {"threads": -1}, {"chunk_bytes": 0}):
            with self.assertRaisesRegex(ValueError, "have to be at least 1"):
                parse_many([], **given)
        with self.assertRaisesRegex(ValueError, "^on_error is raise or yield, and not skip$"):
            parse_many([], on_error="skip")
        for on_error in ("raise", "yield"):
            with self.assertRaisesRegex(InputError, "^bad options: 1$"):
                parse_many([], 1, on_error=on_error)


if __name__ == "__main__":
    unittest.main()
