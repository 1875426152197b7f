"""What the command writes to standard output and to standard error."""

from __future__ import annotations

import re
import sys
from collections.abc import Iterable
from contextlib import suppress
from typing import IO

# Characters that a terminal would obey, and those that reorder text. JSON has those below U+0020 as escapes.
_UNSAFE = re.compile("[\x00-\x1f\x7f-\x9f\u061c\u200e\u200f\u202a-\u202e\u2066-\u2069]")


def write(stream: IO[str] | None, texts: Iterable[str]) -> None:
    """Writes all texts to the file of a stream, or raises ``OSError``.

    The stream itself may be unbuffered, and then it drops what doesn't fit at once. Or it keeps what couldn't be
    written, and tries again when Python ends.
    """
    if stream is None:
        raise OSError("the stream is closed")
    with open(stream.fileno(), "wb", closefd=False) as file:
        file.writelines(text.encode() for text in texts)


def write_lines(lines: Iterable[str]) -> None:
    """Writes lines to standard output. On a terminal no character is sent that it would obey."""
    on_terminal = sys.stdout is not None and sys.stdout.isatty()
    write(sys.stdout, (_escaped(line[:-1]) + "\n" for line in lines) if on_terminal else lines)


def say(file: str, fault: str) -> None:
    """Writes what is wrong with a file to standard error, if it can be written."""
    draw(f"first_pass: {'standard input' if file == '-' else shown(file)}: {fault}\n")


def draw(text: str) -> None:
    """Sends a text to standard error, if it can be written."""
    with suppress(OSError):
        write(sys.stderr, [text])


def shown(word: str) -> str:
    """A word of the command line in a message: as UTF-8, without characters that a terminal would obey."""
    return _escaped(word.encode(errors="surrogateescape").decode(errors="backslashreplace"))


def _escaped(text: str) -> str:
    """A text with such characters as strings of JSON have them."""
    return _UNSAFE.sub(lambda found: f"\\u{ord(found[0]):04x}", text)
