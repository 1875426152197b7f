"""Prints the outline of each Markdown file: the line of each heading, and its text, indented by its level.

python3 outline.py FILE..
"""

import sys
from pathlib import Path

import first_pass


def main():
    for name in sys.argv[1:]:
        document = first_pass.parse(Path(name).read_bytes(), first_pass.Options.GITHUB)
        for heading in document.outline():
            line, _column = document.line_column(heading.start)
            print(f"{name}:{line}: {'  ' * (heading.level - 1)}{heading.text}")


if __name__ == "__main__":
    main()
