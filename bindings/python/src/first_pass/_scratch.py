"""The memory that the library writes a tree into. Each thread keeps one, and uses it for text after text."""

from __future__ import annotations

import ctypes
import mmap
import threading

from ._document import Document
from ._errors import OK, TOO_SMALL, fault_of
from ._library import parse_into_arrays
from ._records import ATTRIBUTE, COUNTS, DEFINITION, NODE

# What a thread keeps at most between two calls, in bytes.
KEPT = 64 << 20
# The trees of most texts up to this length fit into the first memory of a thread.
_FIRST_LENGTH = 64 << 10
# The least number of bytes for each node that most texts have.
_BYTES_A_NODE = 6
# The sizes of records. A name of the module is found faster than a member of one.
_NODE, _ATTRIBUTE, _DEFINITION = NODE.size, ATTRIBUTE.size, DEFINITION.size
_ALIGNMENT = 64
# The last flag is MAP_NORESERVE, which mmap has no name for before Python 3.13: pages that are never written are free.
_MAPPING = mmap.MAP_PRIVATE | mmap.MAP_ANONYMOUS | 0x4000


class Scratch:
    """Memory for the records of a tree: counts, nodes, attributes, definitions, strings.

    It is a private mapping. Pages that are never written take no memory, so the capacities are ample, and a process
    that is forked has a copy of its own. The trees of most texts up to `fits_length` bytes fit.
    """

    def __init__(self, nodes: int, attributes: int, definitions: int, string_bytes: int) -> None:
        self._capacities = (nodes, attributes, definitions, string_bytes)
        self.fits_length = nodes * _BYTES_A_NODE
        sizes = (COUNTS.size, nodes * _NODE, attributes * _ATTRIBUTE, definitions * _DEFINITION, string_bytes)
        places = [0]
        for size in sizes:
            places.append(places[-1] + -(-size // _ALIGNMENT) * _ALIGNMENT)
        self._places = tuple(places[1:5])
        self.size = places[5]
        try:
            self._memory = mmap.mmap(-1, self.size, _MAPPING)
        except OSError as error:
            raise MemoryError("out of memory") from error
        address = ctypes.addressof(ctypes.c_char.from_buffer(self._memory))
        arrays = [word for array in zip(self._places, self._capacities) for word in (address + array[0], array[1])]
        self._arrays = (ctypes.c_size_t * len(arrays))(*arrays)
        self._arguments = (ctypes.c_void_p(ctypes.addressof(self._arrays)), ctypes.c_void_p(address))
        self._length = ctypes.c_size_t()

    @classmethod
    def for_length(cls, length: int) -> Scratch:
        """Memory into which the trees of most texts of a length fit."""
        length = max(length, _FIRST_LENGTH)
        return cls(length // _BYTES_A_NODE + 1, length // 256, length // 128, length // 4)

    def larger(self) -> Scratch:
        """Memory for the tree that did not fit into this one."""
        nodes, attributes, definitions, _links, string_bytes = COUNTS.unpack_from(self._memory)
        wanted = (nodes, attributes, definitions, string_bytes)
        return Scratch(*(max(capacity, count) for capacity, count in zip(self._capacities, wanted)))

    def parse(self, source: bytes, options: int) -> int:
        """Parses a text. The status is that of the library."""
        self._length.value = len(source)
        status: int = parse_into_arrays(source, self._length, options, *self._arguments)
        return status

    def document(self, source: bytes) -> Document:
        """The document of the text that was parsed last, with copies of its records."""
        nodes, attributes, definitions, _links, string_bytes = COUNTS.unpack_from(self._memory)
        memory = self._memory
        at, at_attributes, at_definitions, at_strings = self._places
        return Document(
            source,
            memory[at : at + nodes * _NODE],
            memory[at_strings : at_strings + string_bytes] if string_bytes else b"",
            memory[at_attributes : at_attributes + attributes * _ATTRIBUTE] if attributes else b"",
            memory[at_definitions : at_definitions + definitions * _DEFINITION] if definitions else b"",
        )


class _Kept(threading.local):
    """What a thread keeps. While it is in use nothing is kept, so a call within a call takes memory of its own."""

    scratch: Scratch | None = None


_kept = _Kept()


def read_document(source: bytes, options: int) -> Document:
    """The document of a text, or an exception for what is wrong with the text or the options."""
    scratch, _kept.scratch = _kept.scratch, None
    if scratch is None or len(source) > scratch.fits_length:
        scratch = Scratch.for_length(len(source))
    status = scratch.parse(source, options)
    if status == TOO_SMALL:
        scratch = scratch.larger()
        status = scratch.parse(source, options)
    document = scratch.document(source) if status == OK else None
    if scratch.size <= KEPT:
        _kept.scratch = scratch
    if document is None:
        raise fault_of(status, source, options)
    return document
