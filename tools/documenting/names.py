"""Whether each relative link of a document leads to a file, and to a heading of it; and whether the paths and names in backquotes are there: paths in
every document, names in those about the code."""

import functools
import os
import pathlib
import re

from tools.documenting import markdown, tree

# Documents whose names in backquotes are those of the code. The others are about the programs' own words.
ABOUT_CODE = re.compile(r"^(?:CONTRIBUTING|docs/(?:ARCHITECTURE|DECISIONS|GATE|GLOSSARY|PERFORMANCE|THEOREM)|crates/\w+/README)\.md$")
OF_CRATE = re.compile(r"^crates/\w+/README\.md$")
TOP = re.compile(r"^(?:\.ci|bin|commands|crates|docs|examples|share|tests|tools|web)/[\w./*-]*$")
PATH = re.compile(r"^[A-Za-z_.][\w.-]*(?:/[\w.*-]+)*/?$")
NAME = re.compile(r"^[A-Za-z_]\w*(?:::[A-Za-z_]\w*)*$")
BUILT = re.compile(r"(?:^|/)out(?:/|$)")
SUFFIXES = ("", ".rt", ".antt", ".md", ".py")
CODE = (".rt", ".antt", ".py", ".sh", ".c", ".cases", ".edit", ".edits", "crates.txt", ".tsv")


@functools.cache
def all_paths():
    folders_above = (str(folder) for path in tree.all_files() for folder in pathlib.PurePath(path).parents)
    return {*tree.all_files(), *folders_above} - {"."}


@functools.cache
def ends():
    """Every end of a path, with its suffix and without: `run/session` of `crates/sessions/src/run/session.rt`."""
    parts = [path.split("/") for path in all_paths()]
    found = {"/".join(part[start:]) for part in parts for start in range(len(part))}
    return found | {os.path.splitext(end)[0] for end in found}


@functools.cache
def folders():
    """The names of all folders below crates/, without the crates' own."""
    return {part for path in all_paths() if path.startswith("crates/") for part in os.path.dirname(path).split("/")[1:]}


@functools.cache
def known():
    """Every name that stands in the code, the definitions, the proofs or the scripts, and the parts of their paths."""
    found = set()
    for path in tree.all_files():
        if path.endswith(CODE) or path.startswith((".ci/", "bin/", "tests/", "tools/")):
            found.update(re.findall(r"\w+", tree.text(path)))
        found.update(piece.split(".")[0] for piece in path.split("/"))
    return found


def is_top_path(word):
    """Whether a path that begins at the top of the repository is there; a test may stand without its suffix."""
    if "*" in word:
        pattern = re.compile(re.escape(word.rstrip("/")).replace(r"\*", "[^/]*") + "$")
        return bool(BUILT.search(word)) or any(map(pattern.match, all_paths()))
    return bool(BUILT.search(word)) or tree.exists(word) or word.startswith("tests/") and tree.exists(word + ".py")


def is_inner_path(word, document):
    """Whether a path from a crate's folder, or from one of its rooms, is there; in the README of a crate it is one of this crate."""
    word = word.rstrip("/")
    if OF_CRATE.match(document):
        crate = os.path.dirname(document)
        tops = [crate, "crates", *(f"{crate}/{top}" for top in ("src", "specs", "proofs", "proofs/laws", "specs/steps"))]
        return any(f"{top}/{word}{suffix}" in all_paths() for top in tops for suffix in SUFFIXES)
    return word in ends()


def fault_of(word, document):
    """What is wrong with a name in backquotes, if anything is."""
    lost = False
    if TOP.match(word):
        # A room of a crate may have the name of a folder at the top.
        lost = not is_top_path(word) and not (OF_CRATE.match(document) and is_inner_path(word, document))
    elif ABOUT_CODE.match(document) and "/" in word and PATH.match(word):
        lost = word.split("/")[0] in folders() and "*" not in word and not tree.exists(word) and not is_inner_path(word, document)
    elif ABOUT_CODE.match(document) and NAME.match(word) and any(part not in known() for part in word.split("::")):
        return f"{word} stands nowhere in the sources"
    return f"{word} isn't there" if lost else None


def faults():
    for document in markdown.documents():
        for number, quoted in markdown.quoted(document):
            fault = fault_of(quoted.split(" ")[0].rstrip(".,:"), document) if quoted.split() else None
            if fault and (" " not in quoted or "/" in quoted.split(" ")[0]):
                yield f"{document}:{number}: {fault}"


def of_links():
    for document in markdown.documents():
        for number, target in markdown.links(document):
            if re.match(r"^[a-z]+:", target):
                continue
            name, _, anchor = target.partition("#")
            path = os.path.normpath(os.path.join(os.path.dirname(document), name)) if name else document
            if not tree.exists(path):
                yield f"{document}:{number}: no file is at the link {target}"
            elif anchor and path.endswith(".md") and anchor not in markdown.anchors(path):
                yield f"{document}:{number}: no heading is at the link {target}"
