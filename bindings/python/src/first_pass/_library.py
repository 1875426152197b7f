"""The shared library: which file it is, and its calls."""

from __future__ import annotations

import ctypes
import os
import re

from ._errors import OK, TOO_SMALL

# The versions of the library that have the records of this package. Below 1.0 a minor version may change a record.
COMPATIBLE = "0.1"
_FILE = "libfirst_pass.so.0"


def _open() -> ctypes.CDLL:
    """Loads the library: the file that FIRST_PASS_LIBRARY names, or the one that stands beside this module."""
    path = os.environ.get("FIRST_PASS_LIBRARY") or os.path.join(os.path.dirname(os.path.abspath(__file__)), _FILE)
    try:
        library = ctypes.CDLL(path)
        library.first_pass_version.restype = ctypes.c_char_p
        version = library.first_pass_version().decode()
    except (OSError, AttributeError) as error:
        raise ImportError(
            f"first_pass can't load its library: {error}. Install the wheel, or let FIRST_PASS_LIBRARY name {_FILE}.",
            name=__package__,
            path=path,
        ) from error
    if not version.startswith(COMPATIBLE + "."):
        message = f"first_pass needs version {COMPATIBLE} of its library, and {path} is {version}"
        raise ImportError(message, name=__package__, path=path)
    return library


_library = _open()
VERSION: str = _library.first_pass_version().decode()

# Its arguments are the text and its length, the options, the arrays with their capacities, and the counts. They have no
# types here: a caller makes objects of ctypes for its memory once, which would be converted again at each call.
parse_into_arrays = _library.first_pass_parse_into_arrays
parse_into_arrays.restype = ctypes.c_uint32

_fold = _library.first_pass_fold
_fold.restype = ctypes.c_uint32
_fold.argtypes = [ctypes.c_char_p, ctypes.c_size_t, ctypes.c_char_p, ctypes.c_size_t, ctypes.POINTER(ctypes.c_size_t)]

_string_range = _library.first_pass_string_range
_string_range.restype = ctypes.c_uint32
_string_range.argtypes = [ctypes.c_char_p, ctypes.c_size_t, ctypes.c_char_p, ctypes.c_size_t * 2]

_place_count = _library.first_pass_place_count
_place_count.restype = ctypes.c_size_t
_place_count.argtypes = [ctypes.c_size_t]

_places = _library.first_pass_places
_places.restype = None
_places.argtypes = [ctypes.c_char_p, ctypes.c_size_t, ctypes.c_void_p]

_line_column = _library.first_pass_line_column
_line_column.restype = ctypes.c_uint32
# (a place is its line, its column in bytes, and its column in units of UTF-16)
_PlaceRecord = ctypes.c_size_t * 3
_line_column.argtypes = [ctypes.c_char_p, ctypes.c_size_t, ctypes.c_void_p, ctypes.c_size_t, _PlaceRecord]

_WHITE = re.compile(rb"[\t\n\x0b\x0c\r ]+")


def key_of(label: str) -> bytes | None:
    """What a label is compared by: without white space at its ends, each run of white space as one space, with full
    case folding. None stands for a label that UTF-8 can't hold."""
    try:
        spelled = _WHITE.sub(b" ", str.encode(label)).strip(b" ")
    except UnicodeEncodeError:
        return None
    return _folded(spelled, 3 * len(spelled) + 1)


def string_range(source: bytes, record: bytes) -> tuple[int, int] | None:
    """Where a text has the string or the attributes of the node with a record: the start and the end, or None."""
    memory = (ctypes.c_size_t * 2)()
    found = _string_range(source, len(source), record, memory)
    return (memory[0], memory[1]) if found else None


class LineIndex:
    """The lines and columns of a text."""

    __slots__ = ("_source", "_places")

    def __init__(self, source: bytes) -> None:
        self._source = source
        self._places = (_PlaceRecord * _place_count(len(source)))()
        _places(source, len(source), self._places)

    def place(self, offset: int) -> tuple[int, int, int]:
        """The line of an offset of the text, its column in bytes, and its column in units of UTF-16."""
        memory = _PlaceRecord()
        _line_column(self._source, len(self._source), self._places, offset, memory)
        line, column, utf16_column = memory
        return line, column, utf16_column


def _folded(label: bytes, capacity: int) -> bytes:
    """The case folding of a label, which is written into memory of a size, or into more if that is too small."""
    memory = ctypes.create_string_buffer(capacity)
    length = ctypes.c_size_t()
    status = _fold(label, len(label), memory, capacity, ctypes.byref(length))
    if status == TOO_SMALL:
        return _folded(label, length.value)
    if status != OK:
        # Nothing else can be wrong with a label in UTF-8.
        raise MemoryError("out of memory")
    return memory.raw[: length.value]
