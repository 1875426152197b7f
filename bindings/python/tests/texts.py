"""Texts for tests: the cases of the table, and random ones."""

import importlib.machinery
import importlib.util
import os
import random
import sys
from pathlib import Path

TOP = Path(__file__).resolve().parents[3]
ALL_OPTIONS = 65534
# Scripts there share a module.
sys.path.append(str(TOP / ".ci"))

MARKS = r"""
a word | || ] [ ![ [a] [A]: [^n]: [^n] (/u <b> </b> <!-- --> <http://x.y> &amp; &copy; &nope; \ \* * ** _ ~~ ^ ` ``
$ $$ { } {#id .class key=value k} ' " ... -- [x] > - * + 1. 2) # ## ###### ``` ```rust ~~~ <? ?> : . ! @ <div> </div>
[!NOTE] é ẞ ß 😀
""".split()
WHITE = ["\n", "\n", "\n\n", "\r\n", "\r", " ", " ", "  ", "    ", "\t", "\x0b", "\x0c", "\x00", "\u00a0", "\\\n"]
LINES = [
    "---\n",
    "+++\n",
    "===\n",
    "***\n",
    "| a | b |\n|:--|:-:|\n",
    "|c|d\n-:|-\n",
    "- [x] ",
    "1. [ ] ",
    "\n: ",
    "> ",
]
LINES += [
    "- ",
    "# a {#id .class key=value k}\n",
    "## b {.c d= }\n",
    "[a]: /u 't'\n",
    "\n[\u00c4 b]: <v w>\n",
    "\n[^n]: ",
    "\n[^M]: ",
]
LINES += [">> ", "- - ", "10) ", "    ", "``` rs\n", "\n<div>\n", "\n<script>\n", "</script>\n", "[\u00df]: f\n"]
MOST_PARTS = 50


def load_script(path):
    """A script of the repository as a module, such as the one that reads the table."""
    loader = importlib.machinery.SourceFileLoader(Path(path).name.replace("-", "_"), str(TOP / path))
    spec = importlib.util.spec_from_loader(loader.name, loader)
    module = importlib.util.module_from_spec(spec)
    written, sys.dont_write_bytecode = sys.dont_write_bytecode, True
    try:
        loader.exec_module(module)
    finally:
        sys.dont_write_bytecode = written
    return module


def cases():
    """The cases of the table: the options of each, its text in UTF-8, and its printed tree."""
    for options, text, tree in load_script(".ci/common.py").read_cases(TOP):
        yield options, text.encode(), tree


def random_texts(count, seed=1):
    """Random texts of Markdown's marks, each with random options."""
    source = random.Random(seed)
    for _ in range(count):
        kinds = source.choices((MARKS, WHITE, LINES), (6, 3, 1), k=source.randrange(MOST_PARTS))
        first = source.choice((MARKS, LINES, LINES))
        text = "".join(source.choice(parts) for parts in (first, *kinds))
        yield source.randrange(ALL_OPTIONS + 1) & ALL_OPTIONS, text.encode()


def tree_program():
    """The program `tree` that FIRST_PASS_TREE names, or that is built in the checkout; None without one."""
    path = os.environ.get("FIRST_PASS_TREE", str(TOP / "crates/tree/out/tree"))
    return path if os.access(path, os.X_OK) else None
