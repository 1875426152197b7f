"""The command ``first_pass_py``, or ``python3 -m first_pass``."""

from __future__ import annotations

import argparse
import codecs
import os
import signal
import sys
import time
from collections.abc import Iterable, Iterator, Sequence
from functools import partial
from typing import Any, Callable, NamedTuple, NoReturn

from . import __version__
from ._document import Document
from ._errors import OUT_OF_MEMORY, InputError
from ._library import LineIndex
from ._lines import json_line, json_lines
from ._options import Options
from ._order import in_order, processors
from ._parse import parse
from ._streams import draw, say, shown, write, write_lines

_DESCRIPTION = """\
outline: write a line of JSON for each file, with its name and its headings.
tree: write a line of JSON for each node, each link definition and each footnote of a text.

Reads Markdown in UTF-8 from each file, or from standard input if none is named or its name is '-'."""
_EPILOG = """\
Status: 0; 1 if memory ran out; 2 for a wrong word, a file that can't be read, a text that isn't UTF-8 or a failed
write. With several files each is tried, and the status is the highest."""
_FAILED = 2
_NO_MEMORY = "out of memory"
_MARKED = "begins with a byte order mark; --strip-bom leaves it out"
_BAR_COLUMNS = 30
_BAR_SECONDS = 0.1


class Output(NamedTuple):
    """What came of a file: lines, or a fault with its status. Beside lines a fault of status 0 is a warning."""

    file: str
    lines: Iterable[str] = ()
    fault: str = ""
    status: int = 0


def main(words: Sequence[str] | None = None) -> int:
    """Runs the command, and returns its status. It ends quietly if nobody reads its output any more."""
    try:
        return _run(_read_words(words))
    except BrokenPipeError:
        return _FAILED
    except OSError:
        draw("first_pass: write failed\n")
        return _FAILED
    except KeyboardInterrupt:
        return 128 + signal.SIGINT


def _run(arguments: argparse.Namespace) -> int:
    files = arguments.files or ["-"]
    output = partial(_output, options=arguments.options, strip_bom=arguments.strip_bom)
    if arguments.command == "outline":
        made = partial(output, lines_of=_outline_line)
        outputs = in_order(made, files, arguments.threads or processors())
    else:
        lines_of = _tree_lines if len(files) == 1 else _named_tree_lines
        outputs = map(partial(output, lines_of=lines_of), files)
    return _write_all(outputs, len(files))


def _read_words(words: Sequence[str] | None) -> argparse.Namespace:
    program = os.path.basename(sys.argv[0])
    parser = _Parser(
        "python3 -m first_pass" if program == "__main__.py" else program,
        description=_DESCRIPTION,
        epilog=_EPILOG,
        formatter_class=argparse.RawDescriptionHelpFormatter,
        allow_abbrev=False,
    )
    parser.add_argument("--version", action="version", version=f"first_pass {__version__}")
    parser.add_argument("command", choices=("outline", "tree"), metavar="{outline,tree}")
    # (without a default, a message would ask for it)
    parser.add_argument("files", nargs="*", metavar="FILE", default=[])
    names = "the extensions to read: names or sets (commonmark, github, docs, all) with commas between them, or a value"
    parser.add_argument("-o", "--options", type=_options, action=_Union, default=0, metavar="NAMES", help=names)
    mark = "leave out a byte order mark at the start of a text, and count offsets from after it"
    parser.add_argument("--strip-bom", action="store_true", help=mark)
    parser.add_argument("--threads", type=_positive, metavar="N", help="read N files at a time (outline)")
    arguments = parser.parse_intermixed_args(words)
    if arguments.threads and arguments.command != "outline":
        parser.error(f"{arguments.command} has no option --threads")
    return arguments


class _Parser(argparse.ArgumentParser):
    """A parser that writes as the rest of the command does."""

    def _print_message(self, message: str, file: Any = None) -> None:
        write(file, [message])

    def error(self, message: str) -> NoReturn:
        lines = f"{self.format_usage()}{self.prog}: error: {message}".splitlines()
        draw("".join(shown(line) + "\n" for line in lines))
        sys.exit(_FAILED)


class _Union(argparse.Action):
    """Adds options to those that were read before."""

    def __call__(self, parser: object, namespace: object, values: Any, option_string: str | None = None) -> None:
        setattr(namespace, self.dest, getattr(namespace, self.dest) | values)


def _options(names: str) -> Options:
    try:
        return Options.from_names(names)
    except ValueError as error:
        raise argparse.ArgumentTypeError(str(error)) from None


def _positive(word: str) -> int:
    if not (word.isascii() and word.isdigit() and len(word) < 5 and int(word)):
        raise argparse.ArgumentTypeError(f"{word} is no number from 1 to 9999")
    return int(word)


def _output(file: str, lines_of: Callable[[str, Document], Iterable[str]], options: int, strip_bom: bool) -> Output:
    """Reads a file. What is wrong with it is reported as the command ``first_pass`` reports it."""
    source = b""
    try:
        file.encode()
        source = _bytes_of(file)
        if strip_bom:
            source = source.removeprefix(codecs.BOM_UTF8)
        warning = _MARKED if source.startswith(codecs.BOM_UTF8) else ""
        return Output(file, lines_of(file, parse(source, options)), warning)
    except UnicodeEncodeError:
        return Output(file, fault="the name is not UTF-8, so JSON can't have it", status=_FAILED)
    except InputError as error:
        return Output(file, fault=_fault_of(error, source), status=_FAILED)
    except MemoryError:
        return Output(file, fault=_NO_MEMORY, status=OUT_OF_MEMORY)
    except FileNotFoundError:
        return Output(file, fault="no such file", status=_FAILED)
    except IsADirectoryError:
        return Output(file, fault="is a folder", status=_FAILED)
    except OSError as error:
        return Output(file, fault=f"can't be read: {(error.strerror or str(error)).lower()}", status=_FAILED)


def _fault_of(error: InputError, source: bytes) -> str:
    """What is wrong with a text. An offset has its line and its column too, as editors count."""
    if error.offset is None:
        return str(error)
    line, _column, utf16_column = LineIndex(source).place(error.offset)
    return f"{error}, line {line}, column {utf16_column}"


def _bytes_of(file: str) -> bytes:
    if file != "-":
        with open(file, "rb") as opened:
            return opened.read()
    if sys.stdin is None:
        raise OSError("standard input is closed")
    return sys.stdin.buffer.read()


def _outline_line(file: str, document: Document) -> Iterable[str]:
    return [json_line({"file": file, "headings": [heading._asdict() for heading in document.outline()]})]


def _tree_lines(_file: str, document: Document) -> Iterable[str]:
    return json_lines(document)


def _named_tree_lines(file: str, document: Document) -> Iterable[str]:
    """The lines of a tree, each with the name of its file as the first member."""
    name = json_line({"file": file})[:-2]
    return (f"{name},{line[1:]}" for line in json_lines(document))


def _write_all(outputs: Iterator[Output], count: int) -> int:
    """Writes the lines and the faults of all files. The status is the highest."""
    worst = 0
    progress = _Progress(count)
    for output in outputs:
        try:
            write_lines(output.lines)
        except BrokenPipeError:
            progress.clear()
            raise
        except OSError:
            progress.clear()
            say(output.file, "write failed")
            return _FAILED
        except MemoryError:
            output = Output(output.file, fault=_NO_MEMORY, status=OUT_OF_MEMORY)
        if output.fault:
            progress.clear()
            say(output.file, output.fault)
        worst = max(worst, output.status)
        progress.step()
    progress.clear()
    return worst


class _Progress:
    """A bar on standard error, if that is a terminal and there is more than one file."""

    def __init__(self, total: int) -> None:
        self._total = total
        self._done = 0
        self._drawn = 0.0
        self._shown = total > 1 and sys.stderr is not None and sys.stderr.isatty()

    def step(self) -> None:
        self._done += 1
        now = time.monotonic()
        if self._shown and now - self._drawn >= _BAR_SECONDS:
            self._drawn = now
            filled = _BAR_COLUMNS * self._done // self._total
            bar = "#" * filled + "." * (_BAR_COLUMNS - filled)
            draw(f"\r[{bar}] {self._done} of {self._total} files")

    def clear(self) -> None:
        if self._shown and self._drawn:
            draw("\r\x1b[K")
            self._drawn = 0.0
