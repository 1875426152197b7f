"""What the scripts in Python have in common.

They run as `python3 -sEB`: with this folder on their path, but without what the user has there, and they leave no
file beside this one.
"""
import argparse
import pathlib
import re
import subprocess
import sys

TOP = pathlib.Path(__file__).resolve().parent.parent
# How each check ends, for its help.
ENDS = """Each fault is one line. The last line has what is counted, and the number of faults. The status is 1
if there is a fault, and 2 if something can't be read."""


def read(path):
    return path.read_text(encoding="utf-8")


def read_crates(top):
    """For each crate of crates.txt those that it uses, lowest first."""
    uses = {}
    for line in read(top / "crates.txt").splitlines():
        words = line.partition("#")[0].replace(":", " ").split()
        if words:
            uses[words[0]] = words[1:]
    return uses


def rows_of(page):
    """Each row of the tables of a page: the heading above it, the first cell of its table, its line and its cells."""
    heading = head = ""
    for number, line in enumerate(page.split("\n"), 1):
        cells = [cell.strip() for cell in re.split(r"(?<!\\)\|", line)[1:-1]] if line.startswith("|") else []
        if line.startswith("#"):
            heading = line.lstrip("# ")
        elif not cells:
            head = ""
        elif not head:
            head = cells[0]
        elif not cells[0].startswith("---"):
            yield heading, head, number, cells


def from_pictures(lines):
    """Lines of a table, in which control characters stand as their pictures, as a text."""
    return re.sub("[\u2400-\u2420]", lambda found: chr(ord(found[0]) - 0x2400), "\n".join(lines))


def read_cases(top):
    """The options, the text and the printed tree of each case of the table of block_cases."""
    table = (top / "crates/block_cases/stdin").read_bytes().decode()
    for group in table.partition("\nfronts\n")[0].rstrip("\n").split("\n\n"):
        if not group.startswith("#"):
            lines = group.split("\n")
            options = int(lines.pop(0).split(" ")[1]) if lines[0].startswith("options ") else 0
            root = next(at for at, line in enumerate(lines) if line.startswith("Root "))
            yield options, from_pictures(line[1:] for line in lines[:root]), from_pictures(lines[root:]) + "\n"


def run_program(program, options, text):
    """What a program writes of a text. Both are bytes."""
    command = [program, str(options)]
    return subprocess.run(command, input=text, stdout=subprocess.PIPE, timeout=60, check=True).stdout


def run_check(check, description, word="TOP"):
    """Runs a check of a repository, or of a program. It returns faults and what it has counted."""
    end = ("TOP is the repository, by default that of this script.\n" if word == "TOP" else "") + ENDS
    layout = argparse.RawDescriptionHelpFormatter
    words = argparse.ArgumentParser(description=description, epilog=end, formatter_class=layout)
    words.add_argument("it", metavar=word, nargs="?" if word == "TOP" else None, type=pathlib.Path, default=TOP)
    it = words.parse_args().it
    try:
        faults, counted = check(it)
    except (OSError, ValueError) as error:
        print(f"{words.prog}: {error}", file=sys.stderr)
        sys.exit(2)
    print(*faults, f"{counted}, {len(faults)} faults", sep="\n")
    sys.exit(1 if faults else 0)
