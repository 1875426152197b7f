"""Writes the lines of `tree` for many texts in one process.

Before each text on standard input stands a line ``OPTIONS LENGTH``. On standard output comes a line ``STATUS LENGTH``
for it, and then the lines of its tree. There are none if the status isn't 0.
"""

import sys

import first_pass

OUT_OF_MEMORY = 1


def lines_of(text, options):
    """The status of a text, and its lines."""
    try:
        document = first_pass.parse(text, options)
    except first_pass.InputError as error:
        return error.status, b""
    except MemoryError:
        return OUT_OF_MEMORY, b""
    return 0, "".join(first_pass.json_lines(document)).encode()


def main():
    for head in sys.stdin.buffer:
        options, length = map(int, head.split())
        text = sys.stdin.buffer.read(length)
        if len(text) != length:
            sys.exit("tree_lines: the input ends within a text")
        status, lines = lines_of(text, options)
        sys.stdout.buffer.write(b"%d %d\n" % (status, len(lines)) + lines)


if __name__ == "__main__":
    main()
