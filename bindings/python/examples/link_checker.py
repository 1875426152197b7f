"""Reports three kinds of faults in Markdown files: references to labels that have no definition, definitions that
nothing refers to, and definitions whose destination is a local file that doesn't exist. The status is 1 if there are
faults.

python3 link_checker.py FILE..
"""

import sys
from pathlib import Path
from urllib.parse import unquote, urlsplit

import first_pass
from first_pass import Kind

BREAKS = (Kind.SoftBreak, Kind.HardBreak)


def end_of_code(tokens, at):
    """The place of the backquotes that close a code span which begins at a place, or None. After a backslash the first
    backquote is text."""
    if tokens[at].kind != Kind.MaybeCode:
        return None
    count = tokens[at].number - tokens[at].first
    rest = range(at + 1, len(tokens))
    return next((end for end in rest if tokens[end].kind == Kind.MaybeCode and tokens[end].number == count), None)


def without_code(tokens):
    """The tokens of a block that stand in no code span, which is between two runs of as many backquotes."""
    at = 0
    while at < len(tokens):
        end = end_of_code(tokens, at)
        if end is None:
            yield tokens[at]
            end = at
        at = end + 1


def pairs(document, tokens):
    """Each opening bracket whose next bracket is a closing one, with the offset after that one and the text between
    them, in which a space stands for a break."""
    opening, begin, parts = None, 0, []
    for token in tokens:
        if begin is None:
            # The first token of a line. A backslash that was dropped stands before a token that is escaped.
            begin = token.start - token.first if token.kind in (Kind.Text, Kind.MaybeCode) else token.start
        if token.kind in (Kind.MaybeLinkOpen, Kind.MaybeImage):
            opening, begin, parts = token, token.end, []
        elif token.kind == Kind.MaybeLinkClose and opening:
            yield opening, token.end, "".join(parts) + text_of(document, begin, token.start)
            opening = None
        elif token.kind in BREAKS:
            parts += text_of(document, begin, token.start), " "
            begin = None


def text_of(document, start, end):
    return document.source[start:end].decode()


def references(document):
    """The label of each pair of brackets, and whether it follows another pair, as in `[a][b]` and `[a][]`."""
    for index in range(len(document)):
        tokens = [document[child] for child in document.children(index)]
        after, before = 0, ""
        for opening, end, label in pairs(document, without_code(tokens)):
            follows = opening.kind == Kind.MaybeLinkOpen and document.source[opening.start - 1 : opening.start] == b"]"
            if label or after == opening.start:
                yield label or before, follows
            after, before = end, label


def is_lacking(destination, folder):
    """Whether a destination is a local file that doesn't exist."""
    parts = urlsplit(destination)
    return not (parts.scheme or parts.netloc or not parts.path) and not (folder / unquote(parts.path)).exists()


def faults(document, folder):
    """What is wrong with the links of a document."""
    used = set()
    for label, follows in references(document):
        definition = document.definitions.get(label)
        used.add(definition)
        if definition is None and follows and not label.startswith("^"):
            yield f"no definition of [{label}]"
    for definition in document.definitions.values():
        if definition not in used:
            yield f"nothing refers to [{definition.label}]"
        if is_lacking(definition.destination, folder):
            yield f"[{definition.label}] leads to {definition.destination}, which is no file"


def main():
    found = False
    for name in map(Path, sys.argv[1:]):
        document = first_pass.parse(name.read_bytes(), first_pass.Options.GITHUB)
        for fault in faults(document, name.parent):
            print(f"{name}: {fault}")
            found = True
    sys.exit(found)


if __name__ == "__main__":
    main()
