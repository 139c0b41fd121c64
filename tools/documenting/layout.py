"""Whether docs/ARCHITECTURE.md shows what there is. Its first block of code is the tree, with each folder of the first two levels, but for those of
crates, and what it shows is there. The second has the crates in rows, each above all on which it stands; and each has an item of a list. A command of
bin/ or tools/ is in the tree, or named here or in CONTRIBUTING.md.

A line of the tree has a name, or several with commas between, and after two blanks or more what it is. Two blanks further in stands what is in
the last of the folders of the line before.

README.md begins with the command that answers at once, and shows its whole reply: that of crates/iptsim/stdout, which tests compare with what this
command writes.
"""

import re

from tools.documenting import markdown, tree

DOCUMENT = "docs/ARCHITECTURE.md"
OTHER = "CONTRIBUTING.md"
FIRST, COMMAND, REPLY = "README.md", "bin/quick session < examples/first.session", "crates/iptsim/stdout"


def shown(block):
    """The paths that a tree shows, each with the number of its line."""
    found, outer = {}, []
    for number, line in block:
        names = re.split(" {2,}", line.strip())[0].split(", ")
        del outer[(len(line) - len(line.lstrip())) // 2:]
        found.update({"/".join([*outer, name]): number for name in names})
        outer.append(names[-1])
    return found


def folders():
    """The folders of the first two levels, but for those of crates."""
    parts = [path.split("/")[:-1] for path in tree.kept_files()]
    found = {"/".join(part[:depth]) for part in parts for depth in (1, 2) if len(part) >= depth}
    return sorted(path for path in found if not path.startswith("crates/"))


def of_tree(paths):
    there = {*folders(), *tree.kept_files()}
    yield from (f"{DOCUMENT}:{number}: {path} of the tree isn't there" for path, number in paths.items() if path not in there)
    yield from (f"{DOCUMENT}: the tree lacks the folder {path}" for path in folders() if path not in paths)


def of_commands(paths):
    """A command is a file without a suffix."""
    named = tree.text(DOCUMENT) + tree.text(OTHER)
    commands = [path for path in tree.kept_files() if re.fullmatch(r"(?:bin|tools)/[\w-]+", path) and path not in paths]
    yield from (f"{DOCUMENT}: neither this document nor {OTHER} names the command {path}" for path in commands if not re.search(rf"`{path}[ `]", named))


def of_crates(block):
    """The block has the crates in rows."""
    rows = {crate: number for number, line in block for crate in line.split()}
    for crate, number in rows.items():
        for below in tree.uses().get(crate, []):
            if rows.get(below, 0) <= number:
                yield f"{DOCUMENT}:{number}: {crate} stands on {below}, which isn't in a row below"
    lacking = [crate for crate in tree.crates() if not re.search(rf"(?m)^- [^:]*`{crate}`", tree.text(DOCUMENT))]
    yield from (f"{DOCUMENT}: no item is of the crate {crate}" for crate in lacking)


def first_blocks(document):
    """The first two blocks of code of a document, each empty where there is none."""
    return [*markdown.code_blocks(document), [], []][:2]


def of_reply():
    command, reply = ([line for _, line in block] for block in first_blocks(FIRST))
    if command != [COMMAND]:
        yield f"{FIRST}: the first command isn't {COMMAND}"
    if reply != tree.lines(REPLY):
        yield f"{FIRST}: the reply to the first command isn't that of {REPLY}"


def faults():
    tree_block, crates_block = first_blocks(DOCUMENT)
    paths = shown(tree_block)
    return [*of_tree(paths), *of_commands(paths), *of_crates(crates_block), *of_reply()]
