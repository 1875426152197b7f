"""The command `python3 -m first_pass`."""

import contextlib
import itertools
import json
import os
import pty
import re
import resource
import subprocess
import sys
import tempfile
import unittest
from pathlib import Path

import first_pass
import texts

COMMAND = [sys.executable, "-m", "first_pass"]


def run(*words, given=b"", **more):
    return subprocess.run([*COMMAND, *words], input=given, capture_output=True, check=False, **more)


class CommandTest(unittest.TestCase):
    def setUp(self):
        folder = tempfile.TemporaryDirectory()
        self.addCleanup(folder.cleanup)
        self.folder = Path(folder.name)

    def write(self, name, content):
        path = self.folder / name
        path.write_bytes(content)
        return str(path)

    def check(self, ran, status, faults):
        """The status of a run, and the lines on standard error, with the folder's name left out."""
        said = ran.stderr.decode().replace(str(self.folder), "F")
        self.assertEqual((said.splitlines(), ran.returncode), (faults, status))


class OutlineTest(CommandTest):
    def test_a_line_for_each_file(self):
        names = [self.write(f"{number}.md", b"# T%d {#i}\n\n## b\n" % number * (number % 3)) for number in range(40)]
        for words in ([], ["--threads", "1"], ["--threads=7"]):
            ran = run("outline", "--options", "heading-attributes", *words, *names)
            self.check(ran, 0, [])
            rows = [json.loads(line) for line in ran.stdout.splitlines()]
            self.assertEqual([row["file"] for row in rows], names)
            first = {"level": 1, "start": 0, "end": 10, "id": "i", "text": "T1"}
            self.assertEqual(
                rows[1]["headings"], [first, {"level": 2, "start": 11, "end": 16, "id": None, "text": "b"}]
            )
            self.assertEqual(rows[0]["headings"], [])

    def test_standard_input(self):
        line = b'{"file":"-","headings":[{"level":1,"start":0,"end":4,"id":null,"text":"\xc3\xa9"}]}\n'
        for words in ((), ("-",)):
            ran = run("outline", *words, given="# \u00e9".encode())
            self.check(ran, 0, [])
            self.assertEqual(ran.stdout, line)

    def test_options_are_those_of_commonmark_unless_they_are_named(self):
        text = b"# a {#b}\n"
        for words, heading in (
            ((), "a {#b}"),
            (("-o", "all"), "a"),
            (("--options=64",), "a"),
            (("-o", "heading-attributes", "-omath"), "a"),
        ):
            row = json.loads(run("outline", *words, given=text).stdout)
            self.assertEqual(row["headings"][0]["text"], heading)

    def test_words_stand_in_any_order(self):
        name = self.write("a.md", b"# a {#b}\n")
        ran = run("outline", name, "-o", "all", name, "--threads", "2", name)
        self.assertEqual(ran.stdout.count(b'"id":"b"'), 3)

    def test_a_byte_order_mark(self):
        name, plain = self.write("a.md", b"\xef\xbb\xbf# a\n"), self.write("b.md", b"# b\n")
        warning = "first_pass: F/a.md: begins with a byte order mark; --strip-bom leaves it out"
        for command in ("outline", "tree"):
            ran = run(command, name, plain)
            self.check(ran, 0, [warning])
            self.assertNotIn(b'"text":"a"', ran.stdout)
            self.check(run(command, "--strip-bom", name, plain), 0, [])
        self.assertEqual(run("tree", name).stdout, run("tree", given="\ufeff# a\n".encode()).stdout)
        self.assertEqual(run("tree", "--strip-bom", name).stdout, run("tree", given=b"# a\n").stdout)


class FaultTest(CommandTest):
    def test_each_file_is_tried(self):
        good, bad = self.write("a.md", b"# a\n"), self.write("bad.md", b"ab\xff")
        names = [good, str(self.folder / "none.md"), str(self.folder), bad, good]
        faults = [
            "first_pass: F/none.md: no such file",
            "first_pass: F: is a folder",
            "first_pass: F/bad.md: not UTF-8: byte 2, line 1, column 3",
        ]
        for command in ("outline", "tree"):
            ran = run(command, *names)
            self.check(ran, 2, faults)
            self.assertEqual({json.loads(line)["file"] for line in ran.stdout.splitlines()}, {good})
        self.assertEqual(len(run("outline", *names).stdout.splitlines()), 2)

    def test_standard_input_that_is_not_utf8(self):
        for text, words, place in (
            (b"\x80", (), "byte 0, line 1, column 1"),
            (b"a\r\n\xc3\xa9\xf0\x9f\x98\x80\xff", (), "byte 9, line 2, column 4"),
            (b"\xef\xbb\xbf\xff", ("--strip-bom",), "byte 0, line 1, column 1"),
        ):
            fault = f"first_pass: standard input: not UTF-8: {place}"
            self.check(run("outline", *words, given=text), 2, [fault])

    def test_names_of_files(self):
        name = os.fsencode(self.folder) + b"/\xff.md"
        Path(os.fsdecode(name)).write_bytes(b"# a\n")
        fault = "first_pass: F/\\xff.md: the name is not UTF-8, so JSON can't have it"
        self.check(run("outline", name), 2, [fault])
        self.check(run("outline", "\x1b[2J\u202e"), 2, ["first_pass: \\u001b[2J\\u202e: no such file"])

    def test_output_that_can_not_be_written(self):
        name = self.write("a.md", b"# a\n" * 1000)
        for words in (["outline", name, name], ["tree", name, name]):
            self.check_on_full_disk(words, "F/a.md: write failed")
        for words in (["--help"], ["--version"], ["outline", "--help"]):
            self.check_on_full_disk(words, "write failed")
        for closed, fault in (
            (">&-", "F/a.md: write failed"),
            ("<&-", "standard input: can't be read: standard input is closed"),
        ):
            file = "-" if closed[0] == "<" else name
            self.check(self.run_by_shell(f'exec "$@" {closed}', "outline", file), 2, [f"first_pass: {fault}"])

    def check_on_full_disk(self, words, fault):
        for unbuffered in ("", "1"):
            with open("/dev/full", "wb") as full:
                ran = subprocess.run(
                    [*COMMAND, *words],
                    env={**os.environ, "PYTHONUNBUFFERED": unbuffered},
                    stdout=full,
                    stderr=subprocess.PIPE,
                    check=False,
                )
            self.check(ran, 2, [f"first_pass: {fault}"])

    def run_by_shell(self, code, *words):
        return subprocess.run(["sh", "-c", code, "sh", *COMMAND, *words], capture_output=True, check=False)

    def test_a_write_of_a_part(self):
        """A file may have 100 bytes, so the system takes only these of what is written at once."""
        name = self.write("a.md", b"# " + b"a" * 200)
        for command, unbuffered in itertools.product(("outline", "tree"), ("", "1")):
            with open(self.folder / "output", "wb") as output:
                ran = subprocess.run(
                    [*COMMAND, command, name],
                    env={**os.environ, "PYTHONUNBUFFERED": unbuffered},
                    stdout=output,
                    stderr=subprocess.PIPE,
                    preexec_fn=lambda: resource.setrlimit(resource.RLIMIT_FSIZE, (100, 100)),
                    check=False,
                )
            self.check(ran, 2, ["first_pass: F/a.md: write failed"])

    def test_a_reader_that_ends_early(self):
        name = self.write("a.md", b"# a\n" * 100_000)
        for unbuffered in ("", "1"):
            how = {"stdout": subprocess.PIPE, "stderr": subprocess.PIPE}
            how["env"] = {**os.environ, "PYTHONUNBUFFERED": unbuffered}
            with subprocess.Popen([*COMMAND, "tree", name], **how) as ran:
                ran.stdout.read(10)
                ran.stdout.close()
                self.assertEqual(ran.stderr.read(), b"")
            self.assertEqual(ran.returncode, 2)

    def test_faults_that_can_not_be_written(self):
        none = str(self.folder / "none.md")
        for code in ('exec "$@" 2>&-', 'exec "$@" 2> /dev/full'):
            for words in (["outline", none], ["outline", "--no"], ["tree", none, none]):
                self.check(self.run_by_shell(code, *words), 2, [])
                self.assertEqual(self.run_by_shell(code, *words).stdout, b"")

    def test_wrong_words(self):
        for words, message in {
            (): "required: {outline,tree}",
            ("nothing",): "invalid choice: 'nothing'",
            ("outline", "--options", "no"): "no option is called no",
            ("outline", "--options", "1"): "1 is not the value of options",
            ("outline", "--threads", "0"): "0 is no number from 1 to 9999",
            ("outline", "--no"): "unrecognized arguments: --no",
            ("tree", "--threads", "2"): "tree has no option --threads",
        }.items():
            ran = run(*words)
            self.assertEqual((ran.returncode, ran.stdout), (2, b""))
            self.assertIn(message, ran.stderr.decode())
        for word in ("--\x1b[2J\u202e", b"--\xff"):
            self.assertRegex(run("outline", word).stderr, rb"unrecognized arguments: --\\(u001b\[2J\\u202e|xff)\n$")

    def test_help(self):
        self.assertIn(b"--options NAMES", run("--help").stdout)
        self.assertEqual(run("--version").stdout.decode(), f"first_pass {first_pass.__version__}\n")


class TreeTest(CommandTest):
    def test_lines(self):
        name = self.write("a.md", b"# a\n[b]: /c\n")
        alone = run("tree", name)
        self.check(alone, 0, [])
        self.assertEqual(alone.stdout.decode(), "".join(first_pass.json_lines(first_pass.parse("# a\n[b]: /c\n", 0))))
        both = run("tree", name, name).stdout.splitlines()
        self.assertEqual(len(both), 2 * len(alone.stdout.splitlines()))
        for line, wanted in zip(both, alone.stdout.splitlines() * 2):
            self.assertEqual(list(json.loads(line).items()), [("file", name), *json.loads(wanted).items()])

    @unittest.skipUnless(texts.tree_program(), "the program tree is not built: FIRST_PASS_TREE names it")
    def test_lines_of_the_program(self):
        text = b"# a {#b}\n\n| c |\n|---|\n\n[d]: /e 'f'\n\n[^g]: h\n"
        words = [texts.tree_program(), str(texts.ALL_OPTIONS)]
        wanted = subprocess.run(words, input=text, stdout=subprocess.PIPE, check=True).stdout
        self.assertEqual(run("tree", "-o", "all", given=text).stdout, wanted)


class TerminalTest(CommandTest):
    def on_terminal(self, words, streams):
        """What the command sends to a terminal that stands in the place of some of its streams."""
        ours, theirs = pty.openpty()
        more = dict.fromkeys(("stdout", "stderr"), subprocess.DEVNULL) | dict.fromkeys(streams, theirs)
        with subprocess.Popen([*COMMAND, *words], stdin=subprocess.DEVNULL, **more):
            os.close(theirs)
            sent = b""
            with contextlib.suppress(OSError):
                while part := os.read(ours, 4096):
                    sent += part
        os.close(ours)
        return sent.decode()

    def test_a_bar_is_drawn_and_removed(self):
        names = [self.write(f"{number}.md", b"# a\n" * 2000) for number in range(50)]
        sent = self.on_terminal(["outline", *names], ["stderr"])
        self.assertRegex(sent, r"^\r\[[#.]{30}\] \d+ of 50 files")
        self.assertTrue(sent.endswith("\r\x1b[K"))

    def test_no_bar_for_a_file(self):
        self.assertEqual(self.on_terminal(["outline", self.write("a.md", b"# a\n")], ["stderr"]), "")

    def test_a_fault_stands_on_a_line_of_its_own(self):
        names = [self.write(f"{number}.md", b"# a\n" * 2000) for number in range(50)]
        sent = self.on_terminal(["outline", *names, self.write("bad.md", b"\xff")], ["stderr"])
        self.assertRegex(sent, r"\r\x1b\[Kfirst_pass: [^\r\n]*bad.md: not UTF-8: byte 0, line 1, column 1\r\n")

    def test_nothing_that_a_terminal_would_obey_is_sent(self):
        name = self.write("a.md", "# a\x9b\u202eb\u0007\n".encode())
        sent = self.on_terminal(["outline", name], ["stdout"])
        self.assertIsNone(re.search("[\x00-\x09\x0b-\x0c\x0e-\x1f\x7f-\x9f\u202e]", sent))
        self.assertEqual(json.loads(sent)["headings"][0]["text"], "a\x9b\u202eb\u0007")


if __name__ == "__main__":
    unittest.main()
