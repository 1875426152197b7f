"""The error of a text or of options."""

from __future__ import annotations

from typing import Any

OK, OUT_OF_MEMORY, NOT_UTF8, BAD_OPTIONS, TOO_SMALL, TOO_LONG = range(6)


class InputError(ValueError):
    """A text that isn't UTF-8 or is too long, or options that don't exist."""

    def __init__(self, message: str, status: int, index: int | None = None, offset: int | None = None) -> None:
        super().__init__(message)
        self.status = status
        """The status of the C library: 2 not UTF-8, 3 bad options, 5 too long."""
        self.index = index
        """The place of the text among those of `parse_many`."""
        self.offset = offset
        """The offset of the first byte that isn't UTF-8."""

    def __reduce__(self) -> tuple[Any, ...]:
        return InputError, (str(self), self.status, self.index, self.offset)


def fault_of(status: int, source: bytes, options: int) -> Exception:
    """The exception for a status other than 0 of a call that read a text."""
    if status == OUT_OF_MEMORY:
        return MemoryError("out of memory")
    if status == NOT_UTF8:
        return _not_utf8(source)
    if status == BAD_OPTIONS:
        return InputError(f"bad options: {options}", status)
    if status == TOO_LONG:
        return InputError("too long: a text, and each number of its tree, has to stay below 4 GiB", status)
    return InputError(f"unknown status {status}", status)


def _not_utf8(source: bytes) -> InputError:
    """The error of bytes that are not UTF-8, with the offset of the first wrong byte."""
    try:
        source.decode()
    except UnicodeDecodeError as error:
        return InputError(f"not UTF-8: byte {error.start}", NOT_UTF8, offset=error.start)
    return InputError("not UTF-8", NOT_UTF8)
