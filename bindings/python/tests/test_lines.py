"""The lines of JSON that come of documents, against the table of trees and the program `tree`."""

import itertools
import subprocess
import sys
import unittest
from concurrent.futures import ThreadPoolExecutor
from pathlib import Path

import first_pass
import texts

RANDOM_TEXTS = 2000


def run_tree_lines(inputs):
    """The status and the lines that tests/tree_lines.py writes for each text, all in one process."""
    sent = b"".join(b"%d %d\n" % (options, len(text)) + text for options, text in inputs)
    script = Path(__file__).with_name("tree_lines.py")
    received = subprocess.run([sys.executable, script], input=sent, stdout=subprocess.PIPE, check=True).stdout
    results, at = [], 0
    while at < len(received):
        end = received.index(b"\n", at) + 1
        status, length = map(int, received[at:end].split())
        results.append((status, received[end : end + length]))
        at = end + length
    return results


def run_tree(inputs):
    """The lines that the program `tree` writes for each text."""
    program = texts.tree_program()

    def lines_of(case):
        options, text = case
        return 0, subprocess.run([program, str(options)], input=text, stdout=subprocess.PIPE, check=True).stdout

    with ThreadPoolExecutor() as pool:
        return list(pool.map(lines_of, inputs))


def parts_of_heading(source, tokens):
    """The text of the tokens of a heading, and of what stands between them in a line. A break is a space."""
    end = None
    for token in tokens:
        if token["kind"] in ("SoftBreak", "HardBreak"):
            yield b" "
            end = None
            continue
        # (a backslash that was dropped comes back)
        dropped = end is None and token["kind"] in ("Text", "MaybeCode") and token["escaped"]
        start = token["start"] - dropped if end is None else min(end, token["start"])
        yield source[start : token["end"]]
        end = max(start, token["end"])


def headings_of(source, nodes):
    """The headings of a tree, made from the members of its nodes."""
    for at, node in enumerate(nodes):
        if node["kind"] == "Heading":
            tokens = itertools.takewhile(lambda inner: inner["depth"] > node["depth"], nodes[at + 1 :])
            text = b"".join(parts_of_heading(source, tokens)).strip(b" \t").decode()
            yield first_pass.Heading(node["level"], node["start"], node["end"], node["id"], text)


class LinesTest(unittest.TestCase):
    maxDiff = None

    def compare(self, inputs, wanted):
        results = run_tree_lines(inputs)
        self.assertEqual(len(results), len(inputs))
        for case, result, expected in zip(inputs, results, wanted):
            self.assertEqual(result, expected, case)

    def test_table(self):
        """The lines of each text of the table have the members of their kinds, and say its printed tree."""
        cases = list(texts.cases())
        self.assertGreater(len(cases), 1000)
        wrong = texts.load_script(".ci/json-test").wrong
        for case, (status, lines) in zip(cases, run_tree_lines([case[:2] for case in cases])):
            self.assertEqual(status, 0, case)
            self.assertIsNone(wrong(lines.decode(), case[2]), case)

    def test_outlines(self):
        """The outline of each text has the headings that its nodes say."""
        for options, text in [case[:2] for case in texts.cases()] + list(texts.random_texts(RANDOM_TEXTS)):
            document = first_pass.parse(text, options)
            wanted = list(headings_of(text, [node.members() for node in document]))
            self.assertEqual(document.outline(), wanted, text)

    @unittest.skipUnless(texts.tree_program(), "the program tree is not built: FIRST_PASS_TREE names it")
    def test_table_against_tree(self):
        inputs = [case[:2] for case in texts.cases()]
        self.compare(inputs, run_tree(inputs))

    @unittest.skipUnless(texts.tree_program(), "the program tree is not built: FIRST_PASS_TREE names it")
    def test_random_texts_against_tree(self):
        inputs = list(texts.random_texts(RANDOM_TEXTS))
        self.compare(inputs, run_tree(inputs))

    def test_statuses(self):
        results = run_tree_lines([(0, b"\xff"), (1, b"a"), (2, b"")])
        root = b'{"kind":"Root","depth":0,"start":0,"end":0}\n'
        self.assertEqual(results, [(2, b""), (3, b""), (0, root)])


if __name__ == "__main__":
    unittest.main()
