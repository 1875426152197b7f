"""The options: which extensions of CommonMark are read."""

from __future__ import annotations

import enum


class Options(enum.IntFlag):
    """Extensions of CommonMark, and four sets of them.

    ``COMMONMARK`` is empty, and the default of each call. ``GITHUB`` has tables, footnotes, strikethrough, task lists,
    and tags of block quotes, but no front matter, math or bare addresses. ``DOCS`` adds what documentation uses: YAML
    metadata, heading attributes, math and definition lists. ``ALL`` is all. Join them by ``|``, as ``Options.GITHUB |
    Options.YAML_STYLE_METADATA_BLOCKS``. `from_names` reads names, as ``"github,math"``.

    ``GFM`` alone has only tags of block quotes, as ``[!NOTE]``. ``WIKILINKS`` is accepted without an effect.
    """

    COMMONMARK = 0
    TABLES = 2
    FOOTNOTES = 4
    STRIKETHROUGH = 8
    TASKLISTS = 16
    SMART_PUNCTUATION = 32
    HEADING_ATTRIBUTES = 64
    YAML_STYLE_METADATA_BLOCKS = 128
    PLUSES_DELIMITED_METADATA_BLOCKS = 256
    OLD_FOOTNOTES = 516
    MATH = 1024
    GFM = 2048
    DEFINITION_LIST = 4096
    SUPERSCRIPT = 8192
    SUBSCRIPT = 16384
    WIKILINKS = 32768
    GITHUB = 2078
    DOCS = 7390
    ALL = 65534

    @classmethod
    def from_names(cls, names: str) -> Options:
        """The options that names, sets and decimal values with commas between them give.

        In a name ``-`` may stand for ``_``: ``Options.from_names("github,heading-attributes")``. ``ValueError`` says
        which name is none of an option.
        """
        bits = 0
        for name in names.split(","):
            bits |= _value_of(name)
        return cls(bits)


def _value_of(name: str) -> int:
    """The value of the name of an option or a set, or of a decimal value."""
    if name.isascii() and name.isdigit():
        value = int(name) if len(name) < 10 else -1
        if value & ~Options.ALL.value:
            raise ValueError(f"{name} is not the value of options")
        return value
    if not name:
        raise ValueError("the name of an option is lacking")
    member = Options.__members__.get(name.replace("-", "_").upper())
    if member is None or name != name.lower():
        raise ValueError(f"no option is called {name}")
    return member.value
