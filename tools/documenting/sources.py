"""What the comments of files say, and whether they are there. Of a crate's `.rt` files: the head `//!` of each module, and the doc comment `///` of
each public item. Of the definitions that contracts cite, from `specs/`: the head of each file, and the comment before each definition. Of the scripts
and their modules: the docstring of one in Python, and else the comment at its head."""

import ast
import collections
import itertools
import os
import re

from tools.documenting import tree

# An item with its module, the number of its line, its name, what it is, its declaration as one line, and the lines of its comment.
Item = collections.namedtuple("Item", "path line name kind declared comment")

ITEM = re.compile(r"^ *pub (?:const |unsafe )*(fn|struct|enum|trait|type|const|static) +([A-Za-z_]\w*)")
# What a line declares within a struct or an enum: its kind, and its form.
WITHIN = {"struct": ("field", re.compile(r"^ +pub ([a-z_]\w*) *:")), "enum": ("variant", re.compile(r"^ {4}([A-Z]\w*)(?: *[({,]|$)"))}
IMPL = re.compile(r"^impl(?:<[^>]*>)? (?:.* for )?([A-Za-z_]\w*)")
# The text of an error says what its variant is.
ERROR = re.compile(r'^#\[error\("')
CLAUSES = ("ensures", "requires", "{", "ghost ", "//")
DEFINED = re.compile(r"^(?:abbrev |unfoldable )*pub (?:record |data )?(?!mod |use |open )([^ :({]+)")

SCRIPTS = (".ci/", "bin/", "commands/", "share/package/", "tests/", "tools/")


def modules(crate):
    return tree.files(".rt", below=f"crates/{crate}/src/")


def definition_files(crate):
    """The files of a crate's definitions, but for those that only name the files of their folder."""
    return [path for path in tree.files(".antt", below=f"crates/{crate}/specs/")
            if not all(line.startswith(("pub mod ", "pub use ")) for line in tree.lines(path) if line.strip())]


def name_of(path):
    """The name of a file of definitions: its path below `specs/`, without `.antt`."""
    return path.split("/specs/", 1)[1].removesuffix(".antt")


def is_step(path):
    """Whether only private steps use the words of a file of definitions."""
    return "/steps/" in path


def head(path):
    """The comment at the head of a module, or of a file of definitions, as one text; empty where there is none."""
    sign = "//!" if path.endswith(".rt") else "-- "
    lines = itertools.dropwhile(lambda line: not line.strip(), tree.lines(path))
    return " ".join(line[3:].strip() for line in itertools.takewhile(lambda line: line.startswith(sign), lines)).strip()


def cited(crate, path):
    """The definitions of its own crate that a module cites, by their files below `specs/`."""
    found = re.findall(rf"(?m)^\s*ghost use Rattle\.{crate}\.specs\.([\w.]+)\.\{{", tree.text(path))
    named = {name.replace(".", "/") for name in found if not name.startswith("declared.")}
    return sorted(name for name in named if tree.exists(f"crates/{crate}/specs/{name}.antt"))


def definitions(path):
    """Each definition of a file: the number of its line, its name, and the comment before it as one text."""
    comment = []
    for number, line in enumerate(tree.lines(path), 1):
        if line.startswith("-- "):
            comment.append(line[3:])
            continue
        found = DEFINED.match(line)
        if found:
            yield number, found[1], " ".join(comment)
        comment = []


def declared_at(lines, number):
    """The declaration that begins at a line, without its clauses and its body, as one line."""
    parts = []
    for line in lines[number - 1 :]:
        text = line.strip()
        if parts and text.startswith(CLAUSES):
            break
        parts.append(text)
        if text.endswith(("{", ";", "}")) or text.endswith(",") and not text.endswith("(,") and parts[0].endswith(","):
            break
    text = " ".join(parts).removesuffix("{").strip().rstrip(";,")
    text = re.sub(r",? \)", ")", text.replace("( ", "("))
    return re.sub(r"= \[ .*", "= [..]", text)


def item_of(line, within):
    """What a line declares within a public struct or enum, or elsewhere: its kind and its name."""
    found = ITEM.match(line)
    if found:
        return found.groups()
    kind, form = WITHIN.get(within, ("", None))
    found = form and form.match(line)
    return (kind, found[1]) if found else None


def items(path):
    """The public items of a module in their order: types, functions, constants, variants and public fields."""
    comment, owner, within, type_name = [], "", "", ""
    lines = tree.lines(path)
    for number, line in enumerate(lines, 1):
        text = line.strip()
        if text.startswith("///"):
            comment.append(text[3:].strip())
            continue
        if text.startswith("#["):
            if ERROR.match(text) and not comment:
                comment.append(text.removeprefix("#[error(").removesuffix(")]"))
            continue
        if line and line[0] not in " })#/":
            found = IMPL.match(line)
            owner, within, type_name = found[1] if found else "", "", ""
        found = item_of(line, within)
        if found:
            kind, name = found
            outer = type_name if kind in ("field", "variant") else owner
            if kind in ("struct", "enum"):
                within, type_name = kind, name
            yield Item(path, number, f"{outer}::{name}" if outer else name, kind, declared_at(lines, number), comment)
        comment = []


def scripts():
    """The scripts and their modules, folder by folder."""
    found = [path for path in tree.all_files() if path.startswith(SCRIPTS)]
    found = [path for path in found if path.endswith((".py", ".sh", ".c", ".bash")) or "." not in os.path.basename(path)]
    found = [path for path in found if tree.text(path).startswith(("#!", '"""', "# ", "/*"))]
    return sorted(found, key=lambda path: (os.path.dirname(path), path))


def comment_at_head(lines):
    """The lines of the comment with which a script that isn't in Python begins."""
    if lines and lines[0].startswith("/*"):
        end = next(number for number, line in enumerate(lines) if "*/" in line)
        return [line.strip().removeprefix("/*").removesuffix("*/").lstrip(" *").rstrip() for line in lines[: end + 1]]
    said = itertools.takewhile(lambda line: line.startswith("#"), lines[1:] if lines[:1] and lines[0].startswith("#!") else lines)
    return [line[1:].removeprefix(" ") for line in said]


def head_of_script(path):
    """What a script says of itself; empty where it says nothing."""
    text = tree.text(path)
    if path.endswith(".py") or "python3" in text.split("\n", 1)[0]:
        return ast.get_docstring(ast.parse(text)) or ""
    return "\n".join(comment_at_head(text.splitlines())).strip()


def of_crate(crate):
    for path in modules(crate):
        if not head(path):
            yield f"{path}:1: the module has no comment //! at its head"
        # A field stands within the comment of its type.
        yield from (f"{path}:{item.line}: {item.name} has no doc comment" for item in items(path) if not item.comment and item.kind != "field")
    for path in definition_files(crate):
        if not head(path):
            yield f"{path}:1: the file has no comment -- at its head"
        bare = [(number, defined) for number, defined, comment in definitions(path) if not comment and not is_step(path)]
        yield from (f"{path}:{number}: {defined} has no comment before it" for number, defined in bare)


def faults():
    for crate in tree.crates():
        yield from of_crate(crate)
    yield from (f"{path}:1: it doesn't say what it is" for path in scripts() if not head_of_script(path))
