"""The Markdown documents, by markdown-it: their prose without code, the names in backquotes, links and headings."""

import functools
import itertools
import re

from tools.documenting import tree

try:
    from markdown_it import MarkdownIt
except ImportError:
    MarkdownIt = None


def documents():
    return tree.files(".md")


def tokens(path):
    return tokens_of(tree.text(path))


@functools.cache
def tokens_of(text):
    return tuple(MarkdownIt("commonmark").enable("table").parse(text))


def lines_of(path, *kinds):
    """The lines, counted from 0, of a document's parts of some kinds."""
    return {line for token in tokens(path) if token.type in kinds for line in range(*token.map)}


def prose(path):
    """The lines of a document that aren't code, each with its number."""
    code = lines_of(path, "fence", "code_block")
    return [(number, line) for number, line in enumerate(tree.lines(path), 1) if number - 1 not in code]


def code_blocks(path):
    """The blocks of a document that are code by their indentation: their lines without it, each with its number."""
    return [[*enumerate(token.content.splitlines(), token.map[0] + 1)] for token in tokens(path) if token.type == "code_block"]


def texts(path, kind):
    """The texts of a kind, of paragraphs or of headings, outside of quotes: of each the number of its line, and its pieces."""
    cited = lines_of(path, "blockquote_open")
    for opening, text in zip(tokens(path), tokens(path)[1:]):
        if opening.type == f"{kind}_open" and opening.map[0] not in cited:
            yield text.map[0] + 1, text.children


def pieces(path):
    """The pieces of all texts of a document, each with the number of its line."""
    for token in tokens(path):
        number = token.map[0] + 1 if token.type == "inline" else 0
        for piece in token.children or ():
            number += piece.type in ("softbreak", "hardbreak")
            yield number, piece


def quoted(path):
    """The names in backquotes, each with the number of its line."""
    return [(number, piece.content) for number, piece in pieces(path) if piece.type == "code_inline"]


def links(path):
    """The targets of links and the sources of images, each with the number of its line."""
    return [(number, piece.attrs.get("href") or piece.attrs["src"]) for number, piece in pieces(path) if piece.type in ("link_open", "image")]


@functools.cache
def anchors(path):
    """The anchors of a document's headings, as forges make them."""
    found = set()
    for _, heading in texts(path, "heading"):
        text = re.sub(r"[^\w\- ]", "", "".join(piece.content for piece in heading).strip().lower()).replace(" ", "-")
        names = itertools.chain([text], (f"{text}-{number}" for number in itertools.count(1)))
        found.add(next(name for name in names if name not in found))
    return found
