"""The examples, of the documentation too, run and print what they promise."""

import doctest
import importlib.util
import json
import subprocess
import sys
import tempfile
import unittest
from pathlib import Path

import first_pass

PYTHON = Path(__file__).resolve().parents[1]
EXAMPLES = PYTHON / "examples"
DASK = all(importlib.util.find_spec(name) for name in ("dask", "distributed"))


def load_tests(_loader, tests, _pattern):
    """The examples in the documentation are tests too."""
    tests.addTests(doctest.DocTestSuite(first_pass))
    tests.addTests(doctest.DocFileSuite(str(PYTHON / "README.md"), module_relative=False))
    return tests


class ExamplesTest(unittest.TestCase):
    def setUp(self):
        folder = tempfile.TemporaryDirectory()
        self.addCleanup(folder.cleanup)
        self.folder = Path(folder.name)

    def run_example(self, name, *words, status=0):
        ran = subprocess.run(
            [sys.executable, EXAMPLES / name, *words], cwd=self.folder, stdout=subprocess.PIPE, check=False
        )
        self.assertEqual(ran.returncode, status)
        return ran.stdout.decode()

    def test_outline(self):
        (self.folder / "a.md").write_bytes(b"One\n===\n\n> ## Two\n\n```\n# code\n```\n### *3*\n")
        self.assertEqual(self.run_example("outline.py", "a.md"), "a.md:1: One\na.md:4:   Two\na.md:9:     *3*\n")

    def test_link_checker(self):
        (self.folder / "there is.txt").write_bytes(b"")
        (self.folder / "a.md").write_text(
            "See [a][One], [two][], [three], ![b][four] and [c](/inline). `[d][code]`\n"
            "[^note] [e\n[f][no\nsuch]\n\n> [g][over\n> lines] [h\\*][], [i][j\\*]\n\n\\`[k][l]`\n\n[m][n\n\\`o]\n\n[^note]: text\n\n"
            "[one]: #local\n[TWO]: <there%20is.txt>\n[three]: http://example.org/x\n[four]: lost.md#part\n"
            "[over lines]: there%20is.txt?q\n[unused]: /\n[h\\*]: /\n"
        )
        expected = [
            "a.md: no definition of [no such]",
            "a.md: no definition of [j\\*]",
            "a.md: no definition of [l]",
            "a.md: no definition of [n \\`o]",
            "a.md: [four] leads to lost.md#part, which is no file",
            "a.md: nothing refers to [unused]",
        ]
        self.assertEqual(self.run_example("link_checker.py", "a.md", status=1).splitlines(), expected)
        (self.folder / "b.md").write_text("[a] [d\n] [ E ][]\n\n[a]: a.md\n[ d ]: a.md\n[e]: #e\n")
        self.assertEqual(self.run_example("link_checker.py", "b.md"), "")

    @unittest.skipUnless(DASK, "dask and distributed are not installed")
    def test_dask(self):
        """Two processes read three thousand documents."""
        for number in range(3000):
            (self.folder / f"{number:04}.md").write_bytes(b"# Title %d\n\ntext\n\n## Part\n" % number)
        (self.folder / "bad.md").write_bytes(b"\xff")
        output = self.run_example("dask_outline.py", "--workers", "2", self.folder)
        rows = [json.loads(line) for line in output.splitlines()]
        self.assertEqual(len(rows), 3001)
        for number, row in enumerate(rows[:3000]):
            self.assertEqual(row["file"], str(self.folder / f"{number:04}.md"))
            self.assertEqual([heading["text"] for heading in row["headings"]], [f"Title {number}", "Part"])
        self.assertEqual(rows[3000], {"file": str(self.folder / "bad.md"), "fault": "not UTF-8: byte 0"})


if __name__ == "__main__":
    unittest.main()
