"""The records of a tree as the library writes them: their layout, and the kinds of nodes."""

from __future__ import annotations

import enum
import struct
from typing import Any

# start, end, depth, next, string_start, string_length, number; kind, first, second, third
NODE = struct.Struct("=7I4B")
# name, name_length, value, value_length; has_value, kind
ATTRIBUTE = struct.Struct("=4Q2I")
# start, end, label, label_length, destination, destination_length, title, title_length, has_title; label_end,
# destination_start, destination_end, title_start
DEFINITION = struct.Struct("=13Q")
# nodes, attributes, definitions, links, string_bytes
COUNTS = struct.Struct("=5Q")

WORD_COLUMNS = ("start", "end", "depth", "next", "string_start", "string_length", "number")
BYTE_COLUMNS = ("kind", "first", "second", "third")
WORD_BYTES = 4


class Kind(str, enum.Enum):
    """The kinds of nodes. A kind is a string too: it prints as its name, and ``node.kind == "Heading"`` is the same as
    ``node.kind == Kind.Heading``. New kinds come after the last. One that this version doesn't know prints as ``?``.
    """

    number: int
    """The number that stands in the column ``kind``."""

    def __new__(cls, name: str, number: int) -> Kind:
        kind = str.__new__(cls, name)
        kind._value_ = name
        kind.number = number
        return kind

    def __str__(self) -> str:
        return str.__str__(self)

    def __repr__(self) -> str:
        return f"Kind.{self.name}"

    # (an unknown kind has no name by which it could be found)
    def __reduce_ex__(self, proto: object) -> tuple[Any, ...]:
        return kind_of, (self.number,)

    Root = "Root", 0
    Paragraph = "Paragraph", 1
    TightParagraph = "TightParagraph", 2
    Rule = "Rule", 3
    Heading = "Heading", 4
    FencedCodeBlock = "FencedCodeBlock", 5
    IndentCodeBlock = "IndentCodeBlock", 6
    HtmlBlock = "HtmlBlock", 7
    BlockQuote = "BlockQuote", 8
    List = "List", 9
    ListItem = "ListItem", 10
    FootnoteDefinition = "FootnoteDefinition", 11
    MetadataBlock = "MetadataBlock", 12
    DefinitionList = "DefinitionList", 13
    MaybeDefinitionListTitle = "MaybeDefinitionListTitle", 14
    DefinitionListTitle = "DefinitionListTitle", 15
    DefinitionListDefinition = "DefinitionListDefinition", 16
    Table = "Table", 17
    TableHead = "TableHead", 18
    TableRow = "TableRow", 19
    TableCell = "TableCell", 20
    Text = "Text", 21
    SoftBreak = "SoftBreak", 22
    HardBreak = "HardBreak", 23
    MaybeEmphasis = "MaybeEmphasis", 24
    MaybeMath = "MaybeMath", 25
    MaybeSmartQuote = "MaybeSmartQuote", 26
    MaybeCode = "MaybeCode", 27
    MaybeHtml = "MaybeHtml", 28
    MaybeLinkOpen = "MaybeLinkOpen", 29
    MaybeLinkClose = "MaybeLinkClose", 30
    MaybeImage = "MaybeImage", 31
    Html = "Html", 32
    SynthesizeText = "SynthesizeText", 33
    SynthesizeChar = "SynthesizeChar", 34
    TaskListMarker = "TaskListMarker", 35


def _unknown(number: int) -> Kind:
    """The kind with a number that this version doesn't know. It is no member of `Kind`."""
    kind = str.__new__(Kind, "?")
    kind._name_ = kind._value_ = "?"
    kind.number = number
    return kind


# The kind of each number that a byte can hold.
KINDS: tuple[Kind, ...] = (*Kind, *map(_unknown, range(len(Kind), 256)))


def kind_of(number: int) -> Kind:
    """The kind with a number."""
    return KINDS[number]
