"""A document as lines of JSON."""

from __future__ import annotations

import json
from collections.abc import Iterator

from ._document import Document

_encoder = json.JSONEncoder(ensure_ascii=False, separators=(",", ":"))


def json_line(value: object) -> str:
    """A value as a line of JSON."""
    return _encoder.encode(value) + "\n"


def json_lines(document: Document) -> Iterator[str]:
    """The lines that the command ``tree`` writes of a text: of each node, each link definition and each footnote."""
    for node in document:
        yield json_line(node.members())
    for definition in document.definitions.values():
        yield json_line(
            {
                "definition": definition.label,
                "destination": definition.destination,
                "title": definition.title,
                "start": definition.start,
                "end": definition.end,
            }
        )
    for label in document.footnotes:
        yield json_line({"footnote": label})
