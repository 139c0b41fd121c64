"""A fault of each kind, planted in files that stand in place of the repository's: a check that doesn't find its own is at fault."""

from tools.documenting import prose, tree

# The name doesn't stand here in one piece, or it would be known.
UNKNOWN = "_".join(("stands", "nowhere", "else"))
GLOSSARY = f"""# Glossary

A [link](NOWHERE.md) without a file, and [one](GATE.md#nowhere) without a heading. Paths `bin/nowhere` and `commands/nowhere`, and a name `{UNKNOWN}`.
The text has 1,000,000 cases of a mispelled word. What becomes of it it says.

"""
RULES = """# `rules`

Its room `reading/nowhere`.

"""
# Of the places one doesn't name the match, one isn't there, and one is lacking.
CONTRIBUTING = """# Contributing

## What a new option or match touches

| For | Where |
|---|---|
| `bin`: a match | `planted`, `elsewhere` (`nowhere`) |
"""
# A folder isn't there, others and a command are lacking, the rows of crates are upside down, and no crate has an item.
ARCHITECTURE = """# Architecture

The tree:

    absent     a folder

The crates:

    fields
    rules
"""
# The files, by their paths. The module and the definition have no comments, and the last document is too long.
FILES = {
    "README.md": "# iptsim\n\n    bin/quick\n",
    "CONTRIBUTING.md": CONTRIBUTING,
    "docs/ARCHITECTURE.md": ARCHITECTURE,
    "commands/lives.py": '"""Planted."""\n\nTTL = 64\n',
    "docs/GLOSSARY.md": GLOSSARY + "A sentence " + "goes on and on, " * 20 + "and ends.\n",
    "crates/rules/README.md": RULES,
    "crates/rules/src/planted.rt": "pub fn planted() {}\n",
    "crates/rules/specs/Planted.antt": "pub planted : Bool\nplanted = true\n",
    "bin/planted": "#!/bin/sh\n",
    "docs/LONG.md": "word\n\n" * 25_001,
}
# What is said of each.
DUE = (
    "no file is at the link NOWHERE.md",
    "no heading is at the link GATE.md#nowhere",
    "bin/nowhere isn't there",
    "commands/nowhere isn't there",
    "bin/planted doesn't name ttl",
    "bin/elsewhere isn't there",
    "lacks commands/lives.py",
    "absent of the tree isn't there",
    "the tree lacks the folder commands",
    "names the command bin/planted",
    "rules stands on fields, which isn't in a row below",
    "no item is of the crate rules",
    "the first command isn't",
    "the reply to the first command isn't",
    f"{UNKNOWN} stands nowhere",
    "1,000,000 cases",
    "What becomes of",
    "it it: a word twice",
    "a sentence of",
    "reading/nowhere isn't there",
    "the module has no comment",
    "planted has no doc comment",
    "the file has no comment --",
    "planted has no comment before it",
    "bin/planted:1: it doesn't say",
    "words, and at most",
)
SPELLED = "mispelled is in no dictionary"


def faults(checks):
    """The planted faults that no check finds. The checks have seen the repository's own files before."""
    tree.planted.update(FILES)
    try:
        found = "\n".join(fault for check in checks for fault in check())
    finally:
        tree.planted.clear()
    due = DUE + ((SPELLED,) if prose.has_dictionary() else ())
    return [f"tools/documents: a planted fault isn't found: {said}" for said in due if said not in found]
