"""Many texts, parsed by several threads."""

from __future__ import annotations

from collections.abc import Iterable, Iterator
from functools import partial
from typing import Callable, Literal, Union, overload

from ._document import Document
from ._errors import InputError
from ._options import Options
from ._order import in_order, processors
from ._parse import Text, parse, unchanging

# Texts, and the place of the first.
Chunk = tuple[int, list[Text]]
# What comes of a text: its document, or what is wrong with it.
Result = Union[Document, Exception]

_CHUNK_TEXTS = 256


@overload
def parse_many(
    texts: Iterable[Text],
    options: int = ...,
    *,
    threads: int | None = ...,
    chunk_bytes: int = ...,
    strip_bom: bool = ...,
    on_error: Literal["raise"] = ...,
) -> Iterator[Document]:
    ...


@overload
def parse_many(
    texts: Iterable[Text],
    options: int = ...,
    *,
    threads: int | None = ...,
    chunk_bytes: int = ...,
    strip_bom: bool = ...,
    on_error: Literal["yield"],
) -> Iterator[Result]:
    ...


def parse_many(
    texts: Iterable[Text],
    options: int = Options.COMMONMARK,
    *,
    threads: int | None = None,
    chunk_bytes: int = 1 << 18,
    strip_bom: bool = False,
    on_error: Literal["raise", "yield"] = "raise",
) -> Iterator[Result]:
    """Parses texts in threads, and yields their documents in the same order.

    It takes texts ahead. Don't take items elsewhere from an iterator that the texts are made of: to pair paths with
    documents, use a list of paths.

    A thread takes texts in chunks of about ``chunk_bytes``. Two chunks for each thread are taken ahead, so memory
    stays bounded. Without ``threads`` there are as many as processors; with one, the caller's thread parses. A text
    that can be changed, such as a ``bytearray``, is copied when it is taken. So it can be filled again for the next.
    With ``strip_bom`` a byte order mark at the start of a text is left out, as `parse` does.

    If a text can't be parsed, its exception says its place: ``text 3: not UTF-8: byte 17``. A `InputError` has the
    place as its ``index``. With ``on_error="raise"`` the documents before it are yielded first, and then it is raised.
    With ``on_error="yield"`` it is yielded in the place of its document, and the texts after it are parsed. What the
    iterable raises comes after the documents of the texts before, and is raised in both cases. Bad options are raised
    before a text is taken.
    """
    count = processors() if threads is None else threads
    if count < 1 or chunk_bytes < 1:
        raise ValueError("threads and chunk_bytes have to be at least 1")
    if isinstance(texts, (str, bytes, bytearray)):
        raise TypeError(f"texts are an iterable of texts, and no {type(texts).__name__}: parse reads one text")
    if on_error not in ("raise", "yield"):
        raise ValueError(f"on_error is raise or yield, and not {on_error}")
    parse_text = partial(parse, options=options, strip_bom=strip_bom)
    parse_text("")
    chunks = _Chunks(texts, chunk_bytes)
    return _results(in_order(partial(_parse_chunk, parse_text), chunks, count), chunks, on_error)


class _Chunks:
    """Texts in chunks. They end before what the iterable of texts raises, and keep that."""

    def __init__(self, texts: Iterable[Text], chunk_bytes: int) -> None:
        self._texts = iter(texts)
        self._chunk_bytes = chunk_bytes
        self.fault: Exception | None = None

    def __iter__(self) -> Iterator[Chunk]:
        place = 0
        while chunk := self._next():
            yield place, chunk
            place += len(chunk)

    def _next(self) -> list[Text]:
        chunk: list[Text] = []
        size = 0
        try:
            while self.fault is None and size < self._chunk_bytes and len(chunk) < _CHUNK_TEXTS:
                text = unchanging(next(self._texts))
                chunk.append(text)
                # (what is no text is found when it is parsed)
                size += len(text) if isinstance(text, (str, bytes)) else 0
        except StopIteration:
            pass
        except Exception as error:
            self.fault = error
        return chunk


def _results(parsed: Iterator[list[Result]], chunks: _Chunks, on_error: str) -> Iterator[Result]:
    for results in parsed:
        for result in results:
            if isinstance(result, Exception) and on_error == "raise":
                raise result
            yield result
    if chunks.fault is not None:
        raise chunks.fault


def _parse_chunk(parse_text: Callable[[Text], Document], chunk: Chunk) -> list[Result]:
    place, texts = chunk
    results: list[Result] = []
    for text in texts:
        try:
            results.append(parse_text(text))
        except Exception as error:
            results.append(_placed(error, place + len(results)))
    return results


def _placed(error: Exception, index: int) -> Exception:
    """An exception that says which text it is of."""
    message = f"text {index}: {error}"
    if isinstance(error, InputError):
        return InputError(message, error.status, index, error.offset)
    if isinstance(error, (MemoryError, TypeError)):
        return type(error)(message)
    return error
