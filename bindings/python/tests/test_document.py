"""Documents: what nodes, headings and definitions say, and how they are reached."""

import copy
import json
import pickle
import struct
import unittest

import first_pass
from first_pass import Attribute, Definition, Heading, Kind, Options, Span, _library, parse

try:
    import numpy
except ImportError:
    numpy = None

# A text with a node of every kind that a finished tree can have, under all options.
EVERY_KIND = """\
---
title: x
---

# One *two* {#first .wide lang=en draft empty=}

A "b" \\*c\\
d \x20
e
~~f~~ `g` $h$ <i> [j](k) ![l](m) &copy; &amp; n...

> [!NOTE]
> quote

- [x] done
- [ ] open

1) loose

2) items

***

```rust
code
```

    indented

<div>
html
</div>

| a | b | c | d |
|---|:--|:-:|--:|
| 1 | 2 | 3 | 4 |

term
: definition

[^note]: text

[Label]: /to "title"
"""


def nodes_of(document, kind):
    return [document[index] for index in document.find(kind)]


class EveryKindTest(unittest.TestCase):
    @classmethod
    def setUpClass(cls):
        cls.document = parse(EVERY_KIND, Options.ALL)

    def members(self, kind):
        """The members that nodes of a kind have beside those of all."""
        common = ("kind", "depth", "start", "end")
        nodes = nodes_of(self.document, kind)
        self.assertTrue(nodes, kind)
        return [{name: value for name, value in node.members().items() if name not in common} for node in nodes]

    def test_kinds(self):
        """A kind is equal to its name, prints as it, and is what is found."""
        document = self.document
        node = document[1]
        self.assertTrue(node.kind == Kind.MetadataBlock and node.kind == "MetadataBlock")
        self.assertFalse(node.kind == Kind.Heading or node.kind == "Heading")
        self.assertIs(Kind("Heading"), Kind.Heading)
        for printed in (f"{node.kind}", str(node.kind), "%s" % node.kind, f"{node.kind:>14}".strip()):
            self.assertEqual((printed, type(printed)), ("MetadataBlock", str))
        self.assertEqual(repr(node.kind), "Kind.MetadataBlock")
        self.assertEqual(json.dumps(node.kind), '"MetadataBlock"')
        self.assertEqual({node.kind: 1}["MetadataBlock"], 1)
        for kind in (node.kind, Kind.MetadataBlock, "MetadataBlock"):
            self.assertEqual(list(document.find(kind)), [1])
        self.assertEqual([kind.number for kind in Kind], list(range(36)))
        for kind in (Kind.Text, node.kind):
            self.assertIs(pickle.loads(pickle.dumps(kind)), kind)
            self.assertIs(copy.deepcopy(kind), kind)
        for other in (4, "heading", None):
            with self.assertRaisesRegex(KeyError, f"no kind .*{other}.*: the kinds are Root, .*, TaskListMarker"):
                next(document.find(other))

    def test_every_kind_is_there(self):
        inner = {Kind.MaybeDefinitionListTitle}
        found = {kind for kind in Kind if nodes_of(self.document, kind)}
        self.assertEqual(set(Kind) - found, inner)

    def test_common_members(self):
        node = self.document[0]
        expected = {"kind": "Root", "depth": 0, "start": 0, "end": len(EVERY_KIND.encode())}
        self.assertEqual(node.members(), expected)

    def test_heading(self):
        members = {
            "level": 1,
            "id": "first",
            "classes": ["wide"],
            "attributes": [["lang", "en"], ["draft", None], ["empty", ""]],
        }
        self.assertEqual(self.members(Kind.Heading), [members])
        attributes = nodes_of(self.document, Kind.Heading)[0].attributes
        expected = (
            Attribute("id", "first", None),
            Attribute("class", "wide", None),
            Attribute("key", "lang", "en"),
            Attribute("key", "draft", None),
            Attribute("key", "empty", ""),
        )
        self.assertEqual(attributes, expected)

    def test_containers(self):
        self.assertEqual(self.members(Kind.BlockQuote), [{"quote": "Note"}])
        lists = [{"tight": True, "byte": "-", "number": 0}, {"tight": False, "byte": ")", "number": 1}]
        self.assertEqual(self.members(Kind.List), lists)
        self.assertEqual(self.members(Kind.ListItem), [{"columns": 2}] * 2 + [{"columns": 3}] * 2)
        self.assertEqual(self.members(Kind.DefinitionList), [{"tight": True}])
        self.assertEqual(self.members(Kind.DefinitionListDefinition), [{"columns": 2}])
        self.assertEqual(self.members(Kind.FootnoteDefinition), [{"label": "note"}])
        self.assertEqual(self.members(Kind.TaskListMarker), [{"checked": True}, {"checked": False}])

    def test_leaf_blocks(self):
        self.assertEqual(self.members(Kind.MetadataBlock), [{"metadata": "YamlStyle"}])
        self.assertEqual(self.members(Kind.FencedCodeBlock), [{"info": "rust"}])
        self.assertEqual(self.members(Kind.Table), [{"alignments": ["none", "left", "center", "right"]}])
        self.assertEqual(nodes_of(self.document, Kind.Table)[0].string, "-lcr")

    def test_tokens(self):
        self.assertEqual(self.members(Kind.HardBreak), [{"by_backslash": True}, {"by_backslash": False}])
        emphasis = self.members(Kind.MaybeEmphasis)
        self.assertIn({"remaining": 1, "can_open": True, "can_close": False}, emphasis)
        self.assertIn({"remaining": 2, "can_open": False, "can_close": True}, emphasis)
        self.assertEqual(self.members(Kind.MaybeCode), [{"count": 1, "escaped": False}] * 2)
        quotes = [
            {"byte": '"', "can_open": True, "can_close": False},
            {"byte": '"', "can_open": False, "can_close": True},
        ]
        self.assertEqual(self.members(Kind.MaybeSmartQuote), quotes)
        self.assertEqual(self.members(Kind.MaybeMath)[0], {"can_open": True, "can_close": False, "context": 255})
        self.assertEqual(self.members(Kind.MaybeLinkClose), [{"active": True}] * 2)
        self.assertIn({"escaped": True}, self.members(Kind.Text))
        self.assertIn({"text": "\u2026"}, self.members(Kind.SynthesizeChar))
        self.assertEqual([it["text"] for it in self.members(Kind.SynthesizeText)], ["\u00a9", "&"])


class TreeTest(unittest.TestCase):
    @classmethod
    def setUpClass(cls):
        cls.document = parse(EVERY_KIND, Options.ALL)

    def test_sequence(self):
        document = self.document
        nodes = list(document)
        self.assertEqual(len(nodes), len(document))
        self.assertEqual([document[index] for index in range(len(document))], nodes)
        self.assertEqual(document[-1], nodes[-1])
        self.assertEqual(document[2:9:3], nodes[2:9:3])
        self.assertEqual(list(reversed(document)), nodes[::-1])
        self.assertEqual(document.index(nodes[5]), 5)
        for index in (len(document), -len(document) - 1):
            with self.assertRaisesRegex(IndexError, f"no node {index}"):
                document[index]

    def test_columns_are_those_of_the_nodes(self):
        for name in ("start", "end", "depth", "next", "number", "first", "second", "third"):
            column = self.document.column(name)
            self.assertEqual(column.tolist(), [getattr(node, name) for node in self.document])
            self.assertIs(column.obj, self.document.node_records)
            self.assertTrue(column.readonly)
        kinds = [list(Kind)[number] for number in self.document.column("kind")]
        self.assertEqual(kinds, [node.kind for node in self.document])
        with self.assertRaisesRegex(KeyError, "no column 'level'"):
            self.document.column("level")

    @unittest.skipUnless(numpy, "numpy is not installed")
    def test_numpy(self):
        array = self.document.numpy()
        self.assertEqual(array.dtype.itemsize, 32)
        self.assertFalse(array.flags.writeable or array.flags.owndata)
        for name in array.dtype.names:
            self.assertEqual(array[name].tolist(), self.document.column(name).tolist())

    def test_children(self):
        document = self.document
        parents = {}
        for index in range(len(document)):
            for child in document.children(index):
                self.assertEqual(document[child].depth, document[index].depth + 1)
                parents[child] = index
        self.assertEqual(sorted(parents), list(range(1, len(document))))
        self.assertEqual(list(document.children()), list(document.children(0)))
        self.assertEqual(list(document.children(-1)), [])
        for index in (len(document), -len(document) - 1):
            with self.assertRaisesRegex(IndexError, f"no node {index}: the document has {len(document)}"):
                next(document.children(index))

    def test_find(self):
        expected = [index for index, node in enumerate(self.document) if node.kind == Kind.Text]
        self.assertEqual(list(self.document.find(Kind.Text)), expected)

    def test_slice(self):
        document = parse("\u00e9 *b*\n")
        self.assertEqual(
            [document.slice(node) for node in document.find(Kind.Text) for node in [document[node]]][0], "\u00e9 "
        )
        heading = parse("# \u00e9\n").outline()[0]
        self.assertEqual(parse("# \u00e9\n").slice(heading), "# \u00e9\n")

    def test_string_range(self):
        text = "ä\n\n~~~ a&amp;b \n~~~\n\na {x}\nb {#y} \\\n---\n\n[^c\\]d]: e\n"
        document = parse(text, Options.DOCS)
        ranges = [document.string_range(index) for index in range(len(document))]
        self.assertEqual([document.slice(found) for found in ranges if found], ["a&amp;b", "#y", "c\\]d"])
        self.assertIsNone(document.string_range(0))
        self.assertEqual(document.string_range(-len(document)), document.string_range(0))
        with self.assertRaises(IndexError):
            document.string_range(len(document))

    def test_code(self):
        for text, wanted in (
            ("> ~~~\n>\t\tx", "  \tx"),
            ("~~~ a\r\nb\r\n\r\nc\r\n~~~\r\n", "b\n\nc\n"),
            ("> ~~~\n> \u00e9\n>\n>  b\n", "\u00e9\n\n b\n"),
            ("~~~\na\\&amp;\n\n b\n~~~\n", "a\\&amp;\n\n b\n"),
            ("    a\n\n \t\tb\n\n", "a\n\n\tb\n"),
            ("-\t\ta\n\n\t\tb", "  a\n\n  b"),
            ("~~~\n~~~\n", ""),
            ("~~~", ""),
            ("~~~\na\rb", "a\rb"),
        ):
            document = parse(text)
            found = [document.code(index) for index in range(len(document))]
            self.assertEqual([code for code in found if code is not None], [wanted], text)
            self.assertEqual([document.code(index) for index in range(-len(document), 0)], found)
        document = parse("a `b`\n\n<pre>\nc\n</pre>\n")
        self.assertEqual({document.code(index) for index in range(len(document))}, {None})
        for index in (len(document), -len(document) - 1):
            with self.assertRaises(IndexError):
                document.code(index)

    def test_an_unknown_kind_is_a_plain_node(self):
        source = parse("a")
        record = struct.pack("=7I4B", 0, 1, 1, 2, 0, 0, 7, 200, 1, 2, 3)
        root = struct.pack("=7I4B", 0, 1, 0, 2, 0, 0, 0, 0, 0, 0, 0)
        document = first_pass.Document(source.source, root + record, b"", b"", b"")
        self.assertEqual(document[1].members(), {"kind": "?", "depth": 1, "start": 0, "end": 1})
        self.assertEqual((document[1].number, document[1].kind.number), (7, 200))
        self.assertEqual((document[1].kind, str(document[1].kind)), ("?", "?"))
        self.assertEqual(list(document.find(document[1].kind)), [1])
        self.assertEqual(pickle.loads(pickle.dumps(document[1])).kind.number, 200)

    def test_it_can_not_be_changed(self):
        for name in (
            "source",
            "node_records",
            "strings",
            "definitions",
            "footnotes",
            "attribute_records",
            "definition_records",
            "new",
        ):
            with self.assertRaises(AttributeError, msg=name):
                setattr(self.document, name, b"")
        self.assertIsInstance(self.document.footnotes, tuple)

    def test_pickling(self):
        for protocol in range(pickle.HIGHEST_PROTOCOL + 1):
            restored = pickle.loads(pickle.dumps(self.document, protocol))
            self.assertEqual(restored, self.document)
            self.assertEqual(hash(restored), hash(self.document))
            self.assertEqual(list(restored), list(self.document))
            self.assertEqual(dict(restored.definitions), dict(self.document.definitions))
            self.assertEqual(restored.footnotes, self.document.footnotes)

    def test_equality(self):
        texts = ("a", "b", "# a {#b}", "# a {#c}", "# a {.b}", "[a]: /b 'c'", '[a]: /b "c"', "[a]: /b 'd'", "[^a]: b")
        documents = [parse(text, Options.DOCS) for text in texts]
        for place, document in enumerate(documents):
            self.assertEqual(document, parse(texts[place], Options.DOCS))
            self.assertEqual(documents.index(document), place)
        self.assertNotEqual(parse("# a {#b}"), parse("# a {#b}", Options.DOCS))
        self.assertNotEqual(documents[0], "a")

    def test_a_document_of_other_records_is_refused(self):
        restore, (_form, *records) = self.document.__reduce__()
        with self.assertRaisesRegex(ValueError, "first_pass 0.0 pickled the document"):
            restore("0.0", *records)


class OutlineTest(unittest.TestCase):
    def test_headings(self):
        text = "# One {#a}\n\n> Two *em*\n> lines\n> ---\n\n###\n\n- # \\# x `y`\\*\n\n\\`z\n\\`\n===\n"
        expected = [
            Heading(1, 0, 11, "a", "One"),
            Heading(2, 14, 37, None, "Two *em* lines"),
            Heading(3, 38, 42, None, ""),
            Heading(1, 45, 58, None, "\\# x `y`\\*"),
            Heading(1, 59, 70, None, "\\`z \\`"),
        ]
        self.assertEqual(parse(text, Options.DOCS).outline(), expected)
        self.assertEqual(first_pass.outline(text, Options.DOCS), expected)

    def test_options(self):
        self.assertEqual(first_pass.outline("# One {#a}\n"), [Heading(1, 0, 11, None, "One {#a}")])
        self.assertEqual(first_pass.outline("# One {#a}\n", Options.HEADING_ATTRIBUTES)[0].id, "a")


class DefinitionsTest(unittest.TestCase):
    TEXT = "[B]: /b\n[a  \n c]: <> \"t\n u\"\n[\u00df]: /s ''\n[b]: /other\n\n[^N]: x\n\n[^\u1e9e]: y\n"

    def setUp(self):
        self.document = parse(self.TEXT, Options.GITHUB)
        self.definitions = self.document.definitions

    def test_values(self):
        expected = [
            Definition("a c", "", "t\nu", 8, 27, Span(9, 15), Span(18, 20), Span(21, 27)),
            Definition("B", "/b", None, 0, 7, Span(1, 2), Span(5, 7), None),
            Definition("\u00df", "/s", "", 28, 39, Span(29, 31), Span(34, 36), Span(37, 39)),
        ]
        self.assertEqual(list(self.definitions.values()), expected)
        self.assertEqual(list(self.definitions), ["a c", "B", "\u00df"])
        self.assertEqual(len(self.definitions), 3)
        self.assertEqual(self.document.slice(expected[1]), "[B]: /b")
        self.assertEqual(self.document.slice(expected[0].label_range), "a  \n c")

    def test_labels_match_as_those_of_references(self):
        for label in ("b", "B"):
            self.assertEqual(self.definitions[label].destination, "/b")
        for label in ("a c", "A \t\r\nC", "a\x0b\x0cc"):
            self.assertEqual(self.definitions[label].label, "a c")
        for label in ("ss", "SS", "\u1e9e", "\u00df"):
            self.assertEqual(self.definitions[label].destination, "/s")

    def test_other_labels(self):
        for label in ("", "c", " ", "\t\n\x0b\x0c\r ", "\u00a0b", "ac", "^N", "\ud800", "a\u00a0c", None, 5, b"b"):
            self.assertNotIn(label, self.definitions)
            self.assertIsNone(self.definitions.get(label))
        with self.assertRaises(KeyError):
            self.definitions["nothing"]

    def test_the_ends_of_labels(self):
        """White space at the ends of a label doesn't count: of the definitions whose labels differ in it alone, the one
        that begins first is found, by each of their labels."""
        for text, wanted, count in (
            ("[ only ]: /1\n\n[only]", "/1", 1),
            ("[ only ]: /1\n[only]: /2", "/1", 2),
            ("[only]: /2\n[ only ]: /1", "/2", 2),
            ("[only ]: /3\n[ only ]: /1\n[ only]: /4\n[only]: /2", "/3", 4),
            ("[a]: /a\n[ Only]: /4\n[only]: /2\n[only ]: /3\n[zz]: /z\n[\tonly\n]: /1", "/4", 6),
        ):
            definitions = parse(text).definitions
            self.assertEqual(len(definitions), count)
            for label in ("only", " ONLY", "only\n", "\t Only \r\n"):
                self.assertEqual(definitions[label].destination, wanted, (text, label))
            for label in ("onl", " "):
                self.assertNotIn(label, definitions)
        definitions = parse("[\tA  b ]: /1\n[ ]: /2").definitions
        self.assertEqual(definitions["a B"].label, " A b ")
        self.assertEqual(definitions["\na\t\tb"], definitions.get(" a b "))
        self.assertEqual(list(definitions), [" A b "])
        self.assertIsNone(definitions.get("ab"))

    def test_all_definitions_are_listed(self):
        definitions = parse("[foo]: /2\n[ foo ]: /1\n[Foo]: /3\n").definitions
        self.assertEqual([it.destination for it in definitions.values()], ["/1", "/2"])
        self.assertEqual(
            [(label, it.destination) for label, it in definitions.items()], [(" foo ", "/1"), ("foo", "/2")]
        )
        self.assertEqual({it.destination for it in dict(definitions).values()}, {"/2"})
        first, second = definitions.values()
        self.assertTrue(first in definitions.values() and (" foo ", first) in definitions.items())
        self.assertFalse((" foo ", second) in definitions.items() or None in definitions.values())
        self.assertEqual((len(definitions.values()), len(definitions.items())), (2, 2))
        self.assertEqual(definitions.items(), {" foo ": first, "foo": second}.items())

    def test_long_labels(self):
        label = "\u0390" * 333
        definition = parse(f"[{label}]: /x\n").definitions[label.upper()]
        expected = Definition(label, "/x", None, 0, 2 * 333 + 6, Span(1, 667), Span(670, 672), None)
        self.assertEqual(definition, expected)

    def test_a_folding_that_is_longer_than_its_memory(self):
        self.assertEqual(_library._folded("\u1e9e\u00c4".encode(), 1), "ss\u00e4".encode())

    def test_footnotes(self):
        self.assertEqual(self.document.footnotes, ("N", "\u1e9e"))
        self.assertEqual(parse("a").footnotes, ())
        self.assertEqual(dict(parse("a").definitions), {})

    def test_it_can_not_be_changed(self):
        with self.assertRaises(TypeError):
            self.definitions["new"] = None


if __name__ == "__main__":
    unittest.main()
