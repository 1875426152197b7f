"""The call that parses: texts of each type, errors, and the memory that it reads into."""

import gc
import os
import pickle
import random
import threading
import unittest
import unittest.mock
import warnings

import first_pass
from first_pass import InputError, Options, _library, _scratch, parse

DENSE = "*a_b`" * 20_000
NAMES = "&copy;" * 20_000
DEFINED = "".join(f"[{number}]: /{number} 'title {number}'\n" for number in range(20_000))
ATTRIBUTES = "# a {#b .c d=e f}\n" * 20_000


class TextTest(unittest.TestCase):
    def test_types(self):
        text = "# \u00e9\u0000\U0001f600\n"
        source = text.encode()
        document = parse(text)
        self.assertEqual(document.source, source)
        for given in (source, bytearray(source), memoryview(source), memoryview(source * 2)[: len(source)]):
            self.assertEqual(parse(given), document)
            self.assertIs(type(parse(given).source), bytes)
        spread = memoryview(bytes(byte for pair in zip(source, source) for byte in pair))[::2]
        self.assertEqual(parse(spread), document)
        self.assertIs(parse(source).source, source)

    def test_a_change_of_the_bytes_changes_no_document(self):
        source = bytearray(b"# a\n")
        document = parse(source)
        source[:] = b"bbbb"
        self.assertEqual(document.source, b"# a\n")

    def test_a_string_of_a_class_is_read_as_a_string(self):
        class Longer(bytes):
            def __len__(self):
                return 1 << 20

        class Shouted(str):
            def encode(self, *_words):
                return Longer(b"# no")

        self.assertEqual(parse(Shouted("# a")), parse("# a"))
        self.assertEqual(parse(Longer(b"# a")), parse("# a"))
        self.assertEqual(parse("[a]: /b").definitions[Shouted("A")].destination, "/b")

    def test_empty(self):
        self.assertEqual([node.kind for node in parse("")], ["Root"])
        self.assertEqual(parse("").outline(), [])

    def test_other_types(self):
        for given in (5, None, ["a"], 1.5):
            with self.assertRaisesRegex(TypeError, f"a text is a str, .* and no {type(given).__name__}"):
                parse(given)

    def test_options(self):
        self.assertEqual(len(list(parse("| a |\n|---|\n", Options.TABLES).find(first_pass.Kind.Table))), 1)
        self.assertEqual(len(list(parse("| a |\n|---|\n").find(first_pass.Kind.Table))), 0)
        self.assertEqual(parse("a", Options.TABLES | Options.MATH), parse("a", 1026))
        with self.assertRaisesRegex(TypeError, "Options.from_names reads names, as 'github'"):
            parse("a", "github")

    def test_the_default_is_commonmark(self):
        text = "# a {#b}\n\n|c|\n|-|\n"
        self.assertEqual(parse(text), parse(text, Options.COMMONMARK))
        self.assertEqual(first_pass.outline(text), first_pass.outline(text, Options.COMMONMARK))
        self.assertEqual(list(first_pass.parse_many([text])), [parse(text)])
        self.assertNotEqual(parse(text), parse(text, Options.DOCS))

    def test_values_of_options(self):
        """The value of each option is that of the library."""
        value_of = _library._library.first_pass_option_value
        single = [name for name in Options.__members__ if name not in ("COMMONMARK", "GITHUB", "DOCS", "ALL")]
        self.assertEqual(len(single), 15)
        for name in single:
            self.assertEqual(value_of(name.lower().encode()), Options[name].value, name)

    def test_names_of_options(self):
        self.assertEqual(Options.from_names("github"), Options.GITHUB)
        names = "tables,footnotes,strikethrough,tasklists,gfm"
        self.assertEqual(Options.from_names(names), Options.GITHUB)
        added = "yaml-style-metadata-blocks,heading-attributes,math,definition-list"
        self.assertEqual(Options.from_names("github," + added), Options.DOCS)
        self.assertEqual(Options.from_names("docs"), 7390)
        self.assertEqual(Options.from_names("heading-attributes,math,4"), 64 | 1024 | 4)
        self.assertEqual(Options.from_names("commonmark"), 0)
        self.assertEqual(Options.from_names("all"), 65534)
        for names, message in {
            "": "the name of an option is lacking",
            "math,": "the name of an option is lacking",
            "Math": "no option is called Math",
            "no such": "no option is called no such",
            "1": "1 is not the value of options",
            "65536": "65536 is not the value of options",
            "9" * 5000: "is not the value of options",
            "-2": "no option is called -2",
        }.items():
            with self.assertRaisesRegex(ValueError, message):
                Options.from_names(names)


class ByteOrderMarkTest(unittest.TestCase):
    def test_it_is_a_character_of_the_text(self):
        self.assertEqual([node.kind for node in parse("\ufeff# a")], ["Root", "Paragraph", "Text"])
        self.assertEqual(parse("\ufeff# a").source, b"\xef\xbb\xbf# a")

    def test_it_is_left_out(self):
        for text in ("\ufeff# a", b"\xef\xbb\xbf# a", bytearray(b"\xef\xbb\xbf# a"), "# a", b"# a"):
            self.assertEqual(parse(text, strip_bom=True), parse("# a"))
            self.assertEqual(first_pass.outline(text, strip_bom=True), first_pass.outline("# a"))
            self.assertEqual(list(first_pass.parse_many([text], strip_bom=True)), [parse("# a")])
        mark = "\ufeff".encode()
        for text, source in (("", b""), ("\ufeff", b""), ("\ufeff\ufeff", mark), ("a\ufeff", b"a" + mark)):
            self.assertEqual(parse(text, strip_bom=True).source, source)

    def test_offsets_are_counted_from_after_it(self):
        heading = parse("\ufeff# a", strip_bom=True).outline()[0]
        self.assertEqual((heading.start, heading.end), (0, 3))
        with self.assertRaisesRegex(InputError, "^not UTF-8: byte 1$"):
            parse(b"\xef\xbb\xbfa\xff", strip_bom=True)


class ErrorTest(unittest.TestCase):
    def check(self, error, message, status):
        self.assertEqual((str(error), error.status), (message, status))
        restored = pickle.loads(pickle.dumps(error))
        self.assertEqual((str(restored), restored.status, restored.index), (message, status, error.index))
        self.assertIsInstance(error, ValueError)

    def test_not_utf8(self):
        for source, offset in ((b"\xff", 0), (b"ab\xc3", 2), (b"a\xed\xa0\x80", 1), (b"a\xc3\xa9\xf4\x90\x80\x80", 3)):
            with self.assertRaises(InputError) as caught:
                parse(source)
            self.check(caught.exception, f"not UTF-8: byte {offset}", 2)
            self.assertEqual(pickle.loads(pickle.dumps(caught.exception)).offset, offset)

    def test_lone_surrogates(self):
        for text, place in (("\ud800", 0), ("a\u00e9\udc80b", 2)):
            with self.assertRaises(InputError) as caught:
                parse(text)
            self.check(caught.exception, f"not UTF-8: the string has a lone surrogate at index {place}", 2)

    def test_bad_options(self):
        for options in (1, 65536, -1, 1 << 32, (1 << 64) + 2):
            with self.assertRaises(InputError) as caught:
                parse("a", options)
            self.check(caught.exception, f"bad options: {options}", 3)
        for options in ("tables", None, 2.0):
            with self.assertRaises(TypeError):
                parse("a", options)

    def test_too_long(self):
        try:
            text = bytes(1 << 32)
        except MemoryError:
            self.skipTest("there is no memory for a text of 4 GiB")
        with self.assertRaises(InputError) as caught:
            parse(text)
        self.check(caught.exception, "too long: a text, and each number of its tree, has to stay below 4 GiB", 5)

    def test_other_statuses(self):
        self.assertIsInstance(_scratch.fault_of(1, b"", 0), MemoryError)
        self.assertRegex(str(_scratch.fault_of(5, b"", 0)), "^too long: ")
        self.assertEqual(_scratch.fault_of(5, b"", 0).status, 5)
        self.assertEqual(str(_scratch.fault_of(9, b"", 0)), "unknown status 9")

    def test_an_error_changes_nothing_for_the_next_text(self):
        document = parse("# a\n")
        for given in ("\ud800", b"\xff"):
            with self.assertRaises(InputError):
                parse(given)
            self.assertEqual(parse("# a\n"), document)


class MemoryTest(unittest.TestCase):
    def setUp(self):
        _scratch._kept.scratch = None

    def test_memory_grows(self):
        """Trees that have more records of each kind than fit at first are the same as those that are read at once."""
        for text in (DENSE, NAMES, DEFINED, ATTRIBUTES):
            source = text.encode()
            scratch = _scratch.Scratch.for_length(len(source))
            self.assertEqual(scratch.parse(source, Options.ALL), 4, text[:20])
            grown = parse(text, Options.ALL)
            ample = _scratch.Scratch(*[len(source) + 1] * 4)
            self.assertEqual(ample.parse(source, Options.ALL), 0)
            self.assertEqual(ample.document(source), grown)

    def test_exact_room_is_enough(self):
        source = (DEFINED[:1000] + "\n\n" + NAMES[:600] + "\n\n" + ATTRIBUTES[:180]).encode()
        document = parse(source, Options.ALL)
        exact = [
            len(document),
            len(document.attribute_records) // 40,
            len(document.definition_records) // 104,
            len(document.strings),
        ]
        self.assertEqual(_scratch.Scratch(*exact).parse(source, Options.ALL), 0)
        for place in range(4):
            short = [count - (place == at) for at, count in enumerate(exact)]
            scratch = _scratch.Scratch(*short)
            self.assertEqual(scratch.parse(source, Options.ALL), 4)
            self.assertEqual(scratch.larger().parse(source, Options.ALL), 0)

    def test_memory_is_used_again(self):
        parse("a")
        kept = _scratch._kept.scratch
        parse("a *b* and many words without any mark\n" * 1500)
        parse(b"a")
        self.assertIs(_scratch._kept.scratch, kept)
        self.assertLessEqual(kept.size, _scratch.KEPT)

    def test_most_texts_are_read_once(self):
        parse("a")
        with unittest.mock.patch.object(_scratch, "parse_into_arrays", wraps=_scratch.parse_into_arrays) as read:
            parse("a *b* and many words without any mark\n" * 20_000)
            self.assertEqual(read.call_count, 1)
            parse(DENSE * 10)
            self.assertEqual(read.call_count, 3)

    def test_much_memory_is_not_kept(self):
        parse("a" * (_scratch.KEPT // 4))
        self.assertIsNone(_scratch._kept.scratch)

    def test_a_call_within_a_call(self):
        """A call while another one of the same thread copies its records doesn't disturb it."""
        expected, other = parse("# a\n\nb\n"), parse("> c\n")
        inner = []

        class Restless(_scratch.Scratch):
            def document(self, source):
                inner.append(parse("> c\n"))
                return super().document(source)

        _scratch._kept.scratch = Restless(*[1000] * 4)
        self.assertEqual(parse("# a\n\nb\n"), expected)
        self.assertEqual(inner, [other])

    def test_no_document_holds_the_memory(self):
        document = parse("# a\n\n[b]: /c\n")
        before = list(document), dict(document.definitions)
        for _ in range(100):
            parse("> other *text*\n" * 10)
        gc.collect()
        self.assertEqual((list(document), dict(document.definitions)), before)

    @unittest.skipUnless(hasattr(os, "fork"), "there is no fork")
    def test_a_forked_process_has_memory_of_its_own(self):
        """The process that was forked reads other texts, while this one still has to copy its records."""
        scratch = _scratch.Scratch.for_length(100)
        source = b"# a\n\nb\n"
        self.assertEqual(scratch.parse(source, 0), 0)
        with warnings.catch_warnings():
            # A thread that just ended may still be counted.
            warnings.simplefilter("ignore", DeprecationWarning)
            child = os.fork()
        if child == 0:
            os._exit(scratch.parse(b"> c", 0))
        self.assertEqual(os.waitpid(child, 0)[1], 0)
        self.assertEqual(scratch.document(source), parse(source, 0))


class ThreadTest(unittest.TestCase):
    def test_threads_at_once(self):
        """Documents that eight threads parse at once are those that one thread parses."""
        shuffled = random.Random(2)
        texts = ["# a {#b}\n\n> *c*\n" * count + f"\n[d]: /{count}\n" for count in range(1, 80)]
        expected = [parse(text) for text in texts]
        wrong = []

        def run(order):
            wrong.extend(place for place in order if parse(texts[place]) != expected[place])

        threads = [threading.Thread(target=run, args=(shuffled.sample(range(79), 79) * 3,)) for _ in range(8)]
        for thread in threads:
            thread.start()
        for thread in threads:
            thread.join()
        self.assertEqual(wrong, [])

    def test_each_thread_has_memory_of_its_own(self):
        parse("a")
        kept = []

        def run():
            parse("a")
            kept.append(_scratch._kept.scratch)

        thread = threading.Thread(target=run)
        thread.start()
        thread.join()
        self.assertIsNotNone(kept[0])
        self.assertIsNot(kept[0], _scratch._kept.scratch)

    def test_other_threads_run_meanwhile(self):
        """A thread counts while another one is in a single call."""
        text = b"*a* [b] `c`\n" * 400_000
        started, counted = threading.Event(), []

        def run():
            started.set()
            parse(text)
            counted.append(None)

        thread = threading.Thread(target=run)
        thread.start()
        started.wait()
        count = 0
        while not counted:
            count += 1
        thread.join()
        self.assertGreater(count, 1000)


if __name__ == "__main__":
    unittest.main()
