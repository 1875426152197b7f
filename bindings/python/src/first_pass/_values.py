"""What a document gives: nodes, attributes, headings and definitions."""

from __future__ import annotations

from typing import Any, Callable, NamedTuple

from ._records import Kind


class Attribute(NamedTuple):
    """An attribute of a heading: ``#install`` is an id, ``.wide`` a class, ``lang=en`` and ``draft`` are keys."""

    kind: str
    """``"id"``, ``"class"`` or ``"key"``."""
    name: str
    """The id, the class or the key."""
    value: str | None
    """The value of a key that has one."""


class Heading(NamedTuple):
    """A heading of an outline."""

    level: int
    start: int
    end: int
    id: str | None
    """The id that its attribute block gives."""
    text: str
    """Its content as Markdown, as ``a *b* &amp; c``, with a space for each line ending."""


class Span(NamedTuple):
    """A range of bytes in the source, which `Document.slice` takes."""

    start: int
    end: int


class Place(NamedTuple):
    """A line and a column in it, both from 1."""

    line: int
    column: int


class Definition(NamedTuple):
    """A link reference definition: the first one of its label. Its ranges are those of its parts in the source."""

    label: str
    """The label as it is spelled, each run of white space as one space."""
    destination: str
    title: str | None
    start: int
    end: int
    label_range: Span
    """The range of the label, without its brackets."""
    destination_range: Span
    """The range of the destination, with its angle brackets if it has them."""
    title_range: Span | None
    """The range of the title, with its delimiters."""


class Node(NamedTuple):
    """A node: its kind, its depth, its range in bytes of the source, and what its record has for its kind.

    Siblings never overlap, and a node lies within its parent. There is one exception: a `TaskListMarker` may start
    before the paragraph, the heading or the title of a definition list that it is the first child of. It then lies in
    the same list item.

    `members` gives the kind, the depth, the range and the values of the kind, each by name. The same values are in
    `number`, `first`, `second` and `third`, as ``struct first_pass_node`` has them.
    """

    kind: Kind
    depth: int
    """How many nodes it lies in: 0 for the root."""
    start: int
    end: int
    next: int
    """The index of the first later node that is not deeper, or the number of nodes."""
    number: int
    first: int
    second: int
    third: int
    string: str
    """An info string, a label or a text; of a table ``-``, ``l``, ``c`` or ``r`` for each column."""
    attributes: tuple[Attribute, ...]
    """The attributes of a heading: its id, its classes and its keys."""

    def members(self) -> dict[str, Any]:
        """The kind, the depth, the range and the values of the kind, as the command ``tree`` writes them of the node:
        ``{"kind": "Heading", "depth": 1, "start": 0, "end": 15, "level": 1, ..}``. The kind is its name.

        These kinds have values. In parentheses is the member of the node that has a value, or the column.

        - Heading: level (first), id, classes, attributes
        - FencedCodeBlock: info (string)
        - BlockQuote: quote (first), as ``"Note"`` of ``[!NOTE]``, or None
        - List: tight (first), byte (second), which is that of its markers, number (number), which is its first
        - ListItem, DefinitionListDefinition: columns (number) that a line needs to continue it
        - FootnoteDefinition: label (string)
        - MetadataBlock: metadata (first), ``"YamlStyle"`` or ``"PlusesStyle"``
        - DefinitionList: tight (first)
        - Table: alignments (string), ``"none"``, ``"left"``, ``"center"`` or ``"right"`` of each column
        - Text: escaped (first): whether a backslash before it was dropped
        - HardBreak: by_backslash (first)
        - MaybeEmphasis: remaining (number) delimiters of its run, can_open (first), can_close (second)
        - MaybeMath: can_open (first), can_close (second), context (number), which is its brace context
        - MaybeSmartQuote: byte (second), can_open (first), can_close (third)
        - MaybeCode: count (number) of backquotes, escaped (first): whether a backslash stands before them
        - MaybeLinkClose: active (first)
        - SynthesizeText: text (string) that stands for the bytes of its range
        - SynthesizeChar: text (number, a code point) that stands for the bytes of its range
        - TaskListMarker: checked (first)
        """
        members = {"kind": self.kind.value, "depth": self.depth, "start": self.start, "end": self.end}
        own = _OWN_MEMBERS.get(self.kind)
        return members if own is None else {**members, **own(self)}


_QUOTES = (None, "Note", "Tip", "Important", "Warning", "Caution")
_METADATA = ("YamlStyle", "PlusesStyle")
_ALIGNMENTS = {"-": "none", "l": "left", "c": "center", "r": "right"}


def id_of(attributes: tuple[Attribute, ...]) -> str | None:
    """The id among attributes."""
    return next((attribute.name for attribute in attributes if attribute.kind == "id"), None)


def _heading(node: Node) -> dict[str, Any]:
    return {
        "level": node.first,
        "id": id_of(node.attributes),
        "classes": [attribute.name for attribute in node.attributes if attribute.kind == "class"],
        "attributes": [[attribute.name, attribute.value] for attribute in node.attributes if attribute.kind == "key"],
    }


def _list(node: Node) -> dict[str, Any]:
    return {"tight": bool(node.first), "byte": chr(node.second), "number": node.number}


def _emphasis(node: Node) -> dict[str, Any]:
    return {"remaining": node.number, "can_open": bool(node.first), "can_close": bool(node.second)}


def _math(node: Node) -> dict[str, Any]:
    return {"can_open": bool(node.first), "can_close": bool(node.second), "context": node.number}


def _smart_quote(node: Node) -> dict[str, Any]:
    return {"byte": chr(node.second), "can_open": bool(node.first), "can_close": bool(node.third)}


# The members of each kind that has some, beside those of all nodes.
_OWN_MEMBERS: dict[Kind, Callable[[Node], dict[str, Any]]] = {
    Kind.Heading: _heading,
    Kind.FencedCodeBlock: lambda node: {"info": node.string},
    Kind.BlockQuote: lambda node: {"quote": _QUOTES[node.first]},
    Kind.List: _list,
    Kind.ListItem: lambda node: {"columns": node.number},
    Kind.FootnoteDefinition: lambda node: {"label": node.string},
    Kind.MetadataBlock: lambda node: {"metadata": _METADATA[node.first]},
    Kind.DefinitionList: lambda node: {"tight": bool(node.first)},
    Kind.DefinitionListDefinition: lambda node: {"columns": node.number},
    Kind.Table: lambda node: {"alignments": [_ALIGNMENTS[column] for column in node.string]},
    Kind.Text: lambda node: {"escaped": bool(node.first)},
    Kind.HardBreak: lambda node: {"by_backslash": bool(node.first)},
    Kind.MaybeEmphasis: _emphasis,
    Kind.MaybeMath: _math,
    Kind.MaybeSmartQuote: _smart_quote,
    Kind.MaybeCode: lambda node: {"count": node.number, "escaped": bool(node.first)},
    Kind.MaybeLinkClose: lambda node: {"active": bool(node.first)},
    Kind.SynthesizeText: lambda node: {"text": node.string},
    Kind.SynthesizeChar: lambda node: {"text": chr(node.number)},
    Kind.TaskListMarker: lambda node: {"checked": bool(node.first)},
}
