"""The blocks of a Markdown text as a tree with byte ranges, by a parser whose result is proved. Without `Options` it
reads CommonMark, with no extension.

    >>> import first_pass
    >>> text = "# One {#first}\\n\\n> See [two].\\n\\n[two]: /2 'b'\\n"
    >>> document = first_pass.parse(text, first_pass.Options.DOCS)
    >>> document.outline()
    [Heading(level=1, start=0, end=15, id='first', text='One')]
    >>> [(node.kind, node.start, node.end) for node in document[:5]]
    [(Kind.Root, 0, 44), (Kind.Heading, 0, 15), (Kind.Text, 2, 5), (Kind.BlockQuote, 16, 29), (Kind.Paragraph, 18, 29)]
    >>> [document.slice(document[index]) for index in document.find(first_pass.Kind.Text)]
    ['One', 'See ', 'two', '.']
    >>> two = document.definitions["TWO"]
    >>> two.destination, two.title, document.slice(two.title_range)
    ('/2', 'b', "'b'")
    >>> document[1].members()["id"]
    'first'
    >>> document.line_column(document[3].start)
    Place(line=3, column=1)

`parse` and `outline` read a text, `parse_many` reads many in threads. A `Document` is a sequence of nodes.

Ranges nest: siblings never overlap, and a node lies within its parent. There is one exception: a `TaskListMarker` may
start before the paragraph, the heading or the title of a definition list that it is the first child of. It then lies in
the same list item.
"""

from ._document import Definitions, Document
from ._errors import InputError
from ._library import VERSION as __version__
from ._lines import json_lines
from ._many import parse_many
from ._options import Options
from ._parse import Text, outline, parse
from ._records import Kind
from ._values import Attribute, Definition, Heading, Node, Place, Span

__all__ = [
    "Attribute",
    "Definition",
    "Definitions",
    "Document",
    "Heading",
    "InputError",
    "Kind",
    "Node",
    "Options",
    "Place",
    "Span",
    "Text",
    "__version__",
    "json_lines",
    "outline",
    "parse",
    "parse_many",
]
