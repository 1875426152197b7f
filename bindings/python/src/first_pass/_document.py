"""A parsed text."""

from __future__ import annotations

import builtins
import operator
from collections.abc import ItemsView, Iterator, Mapping, Sequence, ValuesView
from typing import TYPE_CHECKING, Any, Union, overload

from ._library import COMPATIBLE, LineIndex, key_of, string_range
from ._records import ATTRIBUTE, BYTE_COLUMNS, DEFINITION, KINDS, NODE, WORD_BYTES, WORD_COLUMNS, Kind
from ._values import Attribute, Definition, Heading, Node, Place, Span, id_of

if TYPE_CHECKING:
    from numpy.typing import NDArray

Ranged = Union[Node, Heading, Definition, Span]

_ATTRIBUTE_KINDS = ("id", "class", "key")
_HEADING = Kind.Heading.number
_BREAKS = (Kind.SoftBreak.number, Kind.HardBreak.number)
_ESCAPABLE = (Kind.Text.number, Kind.MaybeCode.number)
_CODE_BLOCKS = (Kind.FencedCodeBlock.number, Kind.IndentCodeBlock.number)
_SYNTHESIZED = Kind.SynthesizeText.number
_BYTE_PLACES = {name: WORD_BYTES * len(WORD_COLUMNS) + place for place, name in enumerate(BYTE_COLUMNS)}


class Document(Sequence[Node]):
    """A text with its tree: a sequence of the nodes in reading order, the root first.

    A node is made from its record when it is asked for. Offsets are those of the bytes in `source`. Siblings never
    overlap, and a node lies within its parent, with one exception: see `Node`. A document can't be changed, and it can
    be pickled.
    """

    __slots__ = ("_source", "_nodes", "_strings", "_attributes", "_definitions", "_kinds", "_by_label", "_index")

    def __init__(self, source: bytes, nodes: bytes, strings: bytes, attributes: bytes, definitions: bytes) -> None:
        self._source = source
        self._nodes = nodes
        self._strings = strings
        self._attributes = attributes
        self._definitions = definitions
        self._kinds: bytes | None = None
        self._by_label: Definitions | None = None
        self._index: LineIndex | None = None

    @property
    def source(self) -> bytes:
        """The text in UTF-8."""
        return self._source

    @property
    def node_records(self) -> bytes:
        """The records of the nodes, 32 bytes each: ``struct first_pass_node``."""
        return self._nodes

    @property
    def strings(self) -> bytes:
        """The bytes of all strings, of which records have ranges."""
        return self._strings

    @property
    def attribute_records(self) -> bytes:
        """The records of the attributes of headings, 40 bytes each: ``struct first_pass_attribute``."""
        return self._attributes

    @property
    def definition_records(self) -> bytes:
        """The records of link definitions, and after them of footnotes' labels, 104 bytes each:
        ``struct first_pass_definition``."""
        return self._definitions

    @property
    def definitions(self) -> Definitions:
        """The link definitions by label, matched as in CommonMark 4.7: see `Definitions`."""
        if self._by_label is None:
            self._by_label = Definitions(self._definitions[: self._links_end()], self._strings)
        return self._by_label

    @property
    def footnotes(self) -> Sequence[str]:
        """The labels of the footnotes that are defined, as they are spelled, in the byte order of their foldings."""
        records = DEFINITION.iter_unpack(memoryview(self._definitions)[self._links_end() :])
        return tuple(self._string(label, length) for _, _, label, length, *_ in records)

    def __len__(self) -> int:
        return len(self._nodes) // NODE.size

    @overload
    def __getitem__(self, index: int) -> Node:
        ...

    @overload
    def __getitem__(self, index: builtins.slice) -> list[Node]:
        ...

    def __getitem__(self, index: int | builtins.slice) -> Node | list[Node]:
        if isinstance(index, builtins.slice):
            return [self[place] for place in range(*index.indices(len(self)))]
        place = index + len(self) if index < 0 else index
        if not 0 <= place < len(self):
            raise IndexError(f"there is no node {index}: the document has {len(self)}")
        return self._node(NODE.unpack_from(self._nodes, place * NODE.size))

    def __iter__(self) -> Iterator[Node]:
        return map(self._node, NODE.iter_unpack(self._nodes))

    def __eq__(self, other: object) -> bool:
        if not isinstance(other, Document):
            return NotImplemented
        return self._records() == other._records()

    def __hash__(self) -> int:
        return hash((self._source, self._nodes))

    def __repr__(self) -> str:
        return f"<first_pass.Document: {len(self._source)} bytes, {len(self)} nodes>"

    def __reduce__(self) -> tuple[Any, ...]:
        return _restored, (COMPATIBLE, *self._records())

    def column(self, name: str) -> memoryview:
        """A column of all records of nodes, as integers. It is a strided view, and no copy.

        The columns are ``start end depth next string_start string_length number``, and
        ``kind first second third``. The column ``kind`` has the `number` of each `Kind`, and ``list(Kind)[number]`` is
        that kind. `Node.members` says which values of a kind ``number first second third`` have.
        """
        if name in _BYTE_PLACES:
            return memoryview(self._nodes)[_BYTE_PLACES[name] :: NODE.size]
        if name in WORD_COLUMNS:
            return memoryview(self._nodes).cast("I")[WORD_COLUMNS.index(name) :: NODE.size // WORD_BYTES]
        raise KeyError(f"there is no column {name!r}: the columns are {', '.join(WORD_COLUMNS + BYTE_COLUMNS)}")

    def numpy(self) -> NDArray[Any]:
        """The records of the nodes as a structured array of numpy. It can only be read, and is no copy."""
        import numpy

        fields = [(name, "u4") for name in WORD_COLUMNS] + [(name, "u1") for name in BYTE_COLUMNS]
        return numpy.frombuffer(self._nodes, numpy.dtype(fields))

    def children(self, index: int = 0) -> Iterator[int]:
        """The indices of the children of the node with an index."""
        if not -len(self) <= index < len(self):
            raise IndexError(f"there is no node {index}: the document has {len(self)}")
        after = self.column("next")
        end, child = after[index], index % len(self) + 1
        while child < end:
            yield child
            child = after[child]

    def find(self, kind: Kind | str) -> Iterator[int]:
        """The indices of the nodes of a kind, in reading order: ``document[index]`` is such a node. The kind is a `Kind`
        or its name; ``KeyError`` says that there is none of a name. It reads one column, and makes no `Node`."""
        number = kind.number if isinstance(kind, Kind) else _kind_called(kind).number
        if self._kinds is None:
            self._kinds = bytes(self.column("kind"))
        found = self._kinds.find(number)
        while found >= 0:
            yield found
            found = self._kinds.find(number, found + 1)

    def outline(self) -> list[Heading]:
        """The headings, in reading order and at any depth."""
        return [self._heading(index) for index in self.find(Kind.Heading)]

    def slice(self, node: Ranged) -> str:
        """The text of a range: that of a node, a heading or a definition."""
        return self._source[node.start : node.end].decode()

    def string_range(self, index: int) -> Span | None:
        """Where the text has the info string of a fenced code block, the label of a footnote definition, or the
        attributes of a heading, between the braces. None of a node of another kind, and of a heading without an
        attribute block.

        The range has the bytes as they are written, with escapes and references. Of a code block without info string
        it is an empty range after the fence. `code` has the code.
        """
        place = range(len(self))[index] * NODE.size
        found = string_range(self._source, self._nodes[place : place + NODE.size])
        return None if found is None else Span(*found)

    def code(self, index: int) -> str | None:
        """The code of the fenced or indented code block with an index. None of a node of another kind.

        It has no prefixes of containers, and no indentation that belongs to a container or the block: of a tab, the
        spaces that are left. Each line has its line ending, ``\\n`` for ``\\r\\n``. The last line has one only if the text
        has it.
        """
        place = range(len(self))[index]
        _, _, _, after, _, _, _, kind, _, _, _ = NODE.unpack_from(self._nodes, place * NODE.size)
        if kind not in _CODE_BLOCKS:
            return None
        records = NODE.iter_unpack(memoryview(self._nodes)[(place + 1) * NODE.size : after * NODE.size])
        return b"".join(
            self._strings[string : string + length] if child == _SYNTHESIZED else self._source[start:end]
            for start, end, _, _, string, length, _, child, _, _, _ in records
        ).decode()

    def line_column(self, offset: int, encoding: str = "utf-16") -> Place:
        """The line and the column of an offset in bytes, such as the start of a node, both from 1.

        A column counts units of ``"utf-16"``, as most editors do, or bytes of ``"utf-8"``. A line ends at a newline, a
        carriage return, or both. The offset between these two is in the line that they end. An offset within a
        character has the UTF-16 column of the character's end.

        The first call reads the whole text, and later ones less than 256 bytes, however long a line is.
        """
        if encoding not in ("utf-8", "utf-16"):
            raise ValueError(f"the encoding is utf-8 or utf-16, and not {encoding}")
        place = operator.index(offset)
        if not 0 <= place <= len(self._source):
            raise IndexError(f"there is no offset {place}: the text has {len(self._source)} bytes")
        if self._index is None:
            self._index = LineIndex(self._source)
        line, column, utf16_column = self._index.place(place)
        return Place(line, column if encoding == "utf-8" else utf16_column)

    def _records(self) -> tuple[bytes, bytes, bytes, bytes, bytes]:
        return self._source, self._nodes, self._strings, self._attributes, self._definitions

    def _links_end(self) -> int:
        """Where the records of link definitions end. Those of footnotes' labels, which come after, have no range."""
        return DEFINITION.size * sum(1 for _, end, *_ in DEFINITION.iter_unpack(self._definitions) if end)

    def _string(self, start: int, length: int) -> str:
        return self._strings[start : start + length].decode()

    def _node(self, record: tuple[int, ...]) -> Node:
        start, end, depth, after, string_start, length, number, kind, first, second, third = record
        string = ""
        attributes: tuple[Attribute, ...] = ()
        if length and kind == _HEADING:
            attributes = self._attributes_at(string_start, length)
        elif length:
            string = self._string(string_start, length)
        return Node(KINDS[kind], depth, start, end, after, number, first, second, third, string, attributes)

    def _attributes_at(self, index: int, count: int) -> tuple[Attribute, ...]:
        records = ATTRIBUTE.iter_unpack(
            memoryview(self._attributes)[index * ATTRIBUTE.size : (index + count) * ATTRIBUTE.size]
        )
        return tuple(
            Attribute(
                _ATTRIBUTE_KINDS[kind],
                self._string(name, name_length),
                self._string(value, value_length) if has_value else None,
            )
            for name, name_length, value, value_length, has_value, kind in records
        )

    def _heading(self, index: int) -> Heading:
        start, end, _, after, attribute, length, _, _, level, _, _ = NODE.unpack_from(self._nodes, index * NODE.size)
        id = id_of(self._attributes_at(attribute, length)) if length else None
        return Heading(level, start, end, id, self._text(index, after))

    def _text(self, index: int, after: int) -> str:
        """The Markdown of the heading at an index, from its first token to its last, with a space for each break. The
        prefixes of containers, which stand between a break and the next token, are left out."""
        parts: list[bytes] = []
        begin = end = -1
        tokens = NODE.iter_unpack(memoryview(self._nodes)[(index + 1) * NODE.size : after * NODE.size])
        for start, stop, _, _, _, _, _, kind, first, _, _ in tokens:
            if kind in _BREAKS:
                if begin >= 0:
                    parts.append(self._source[begin:end])
                parts.append(b" ")
                begin = -1
            else:
                if begin < 0:
                    # A backslash that was dropped stands before a text and before backquotes that are escaped.
                    begin = start - first if kind in _ESCAPABLE else start
                end = stop
        if begin >= 0:
            parts.append(self._source[begin:end])
        return b"".join(parts).strip(b" \t").decode()


class Definitions(Mapping[str, Definition]):
    """The link definitions of a document by label, in the byte order of the labels' foldings.

    A look-up matches labels as in CommonMark 4.7: without regard to case and to white space at the ends of a label, and
    each run of white space as one space. Of the definitions of a label it finds the one that begins first in the text.
    A label of white space alone has none.

    The keys are the labels as they are spelled, each run of white space as one space. Of several definitions of a label
    only the first is there. Labels that differ in white space at their ends are several keys: `values` and `items` have
    the definition of each, and a look-up finds the one that counts.
    """

    __slots__ = ("_records", "_strings", "_places")

    def __init__(self, records: bytes, strings: bytes) -> None:
        self._records = records
        self._strings = strings
        self._places: dict[bytes | None, int] | None = None

    def __getitem__(self, label: str) -> Definition:
        if self._places is None:
            self._places = self._places_by_key()
        place = self._places.get(key_of(label)) if isinstance(label, str) else None
        if place is None:
            raise KeyError(label)
        return self._definition(place)

    def values(self) -> ValuesView[Definition]:
        """All definitions."""
        return _Values(self)

    def items(self) -> ItemsView[str, Definition]:
        """Each label as it is spelled, and its definition."""
        return _Items(self)

    def __iter__(self) -> Iterator[str]:
        for _, _, label, length, *_ in DEFINITION.iter_unpack(self._records):
            yield self._string(label, length)

    def __len__(self) -> int:
        return len(self._records) // DEFINITION.size

    def __repr__(self) -> str:
        return f"<first_pass.Definitions: {', '.join(self)}>"

    def _string(self, start: int, length: int) -> str:
        return self._strings[start : start + length].decode()

    def _places_by_key(self) -> dict[bytes | None, int]:
        """The place of the first definition in the text of each key."""
        starts = [start for start, *_ in DEFINITION.iter_unpack(self._records)]
        keys = [key_of(spelled) for spelled in self]
        places: dict[bytes | None, int] = {}
        for place in sorted(range(len(keys)), key=lambda place: starts[place]):
            places.setdefault(keys[place], place)
        return places

    def _all(self) -> Iterator[Definition]:
        return map(self._definition, range(len(self)))

    def _definition(self, place: int) -> Definition:
        record = DEFINITION.unpack_from(self._records, place * DEFINITION.size)
        start, end, label, label_length, destination, destination_length, title, title_length, has_title = record[:9]
        label_end, destination_start, destination_end, title_start = record[9:]
        return Definition(
            self._string(label, label_length),
            self._string(destination, destination_length),
            self._string(title, title_length) if has_title else None,
            start,
            end,
            Span(start + 1, label_end),
            Span(destination_start, destination_end),
            Span(title_start, end) if has_title else None,
        )


class _Values(ValuesView[Definition]):
    """All definitions, also those that no look-up finds."""

    _mapping: Definitions

    def __contains__(self, value: object) -> bool:
        return any(value == definition for definition in self)

    def __iter__(self) -> Iterator[Definition]:
        return self._mapping._all()


class _Items(ItemsView[str, Definition]):
    """Each label with its definition, also those that no look-up finds."""

    _mapping: Definitions

    def __contains__(self, item: object) -> bool:
        return any(item == pair for pair in self)

    def __iter__(self) -> Iterator[tuple[str, Definition]]:
        return ((definition.label, definition) for definition in self._mapping._all())


def _kind_called(name: object) -> Kind:
    """The kind with a name."""
    if name not in Kind.__members__:
        raise KeyError(f"there is no kind {name!r}: the kinds are {', '.join(Kind.__members__)}")
    return Kind.__members__[str(name)]


def _restored(form: str, *records: Any) -> Document:
    """The document that was pickled by a version of this package with a form of records."""
    if form != COMPATIBLE:
        raise ValueError(f"first_pass {form} pickled the document, and this is {COMPATIBLE}: parse its text again")
    return Document(*records)
