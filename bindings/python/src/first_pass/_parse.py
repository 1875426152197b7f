"""The calls that parse a text."""

from __future__ import annotations

import codecs
import operator
from typing import Union

from ._document import Document
from ._errors import BAD_OPTIONS, NOT_UTF8, InputError
from ._options import Options
from ._scratch import read_document
from ._values import Heading

Text = Union[str, bytes, bytearray, memoryview]

_OPTION_LIMIT = 1 << 32


def parse(text: Text, options: int = Options.COMMONMARK, *, strip_bom: bool = False) -> Document:
    """Parses a Markdown text: a string, or its bytes in UTF-8.

    A byte order mark at the start is a character of the text. With ``strip_bom`` it is left out: the source of the
    document begins after it, and all offsets are counted from there.

    Other threads of the interpreter run meanwhile. `InputError` says what is wrong with the text or the options.
    ``MemoryError`` says that memory ran out.
    """
    if isinstance(options, str):
        raise TypeError(
            f"options are of Options, and no str: Options.from_names reads names, as {str.__str__(options)!r}"
        )
    bits = operator.index(options)
    if not 0 <= bits < _OPTION_LIMIT:
        raise InputError(f"bad options: {int(bits)}", BAD_OPTIONS)
    source = text if type(text) is bytes else _encoded(text)
    return read_document(source.removeprefix(codecs.BOM_UTF8) if strip_bom else source, bits)


def outline(text: Text, options: int = Options.COMMONMARK, *, strip_bom: bool = False) -> list[Heading]:
    """The headings of a text, in reading order."""
    return parse(text, options, strip_bom=strip_bom).outline()


def unchanging(text: Text) -> Text:
    """A text that stays as it is: a string or bytes, and of what can be changed a copy. What is no text comes back."""
    if type(text) in (str, bytes):
        return text
    if isinstance(text, str):
        return str.__str__(text)
    try:
        return memoryview(text).tobytes()
    except TypeError:
        return text


def _encoded(text: Text) -> bytes:
    """The bytes of a text."""
    if isinstance(text, str):
        try:
            # (a class of strings may have an `encode` of its own)
            return str.encode(text)
        except UnicodeEncodeError as error:
            message = f"not UTF-8: the string has a lone surrogate at index {error.start}"
            raise InputError(message, NOT_UTF8) from None
    try:
        return memoryview(text).tobytes()
    except TypeError:
        message = f"a text is a str, or bytes, bytearray or memoryview in UTF-8, and no {type(text).__name__}"
        raise TypeError(message) from None
