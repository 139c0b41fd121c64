"""tools/rows: writes the rows of the crate dumps, its options, matches and targets, by the table in commands/options.table. tools/sources checks
that they are what this writes.
"""

import pathlib
import sys

from commands.extensions import EXTENSIONS, is_known
from tools import ROOT, parser

PLACE = "crates/dumps/src/options/rows.rt"
FORM = """\
//! The rows of the table of options. `tools/rows` writes this file, by the table in commands/options.table.

// Of each option a line: whose it is, and `.` where it is the rule's own, its role, how many values follow, and its spellings.
pub(crate) static OPTIONS: &str = "\
{options}";

// Of each match and target a line: its name, its kind, and of a match the words of `-p` that begin it, of a target the matches that ask
// what it sets.
pub(crate) static EXTENSIONS: &str = "\
{extensions}";
"""
# The roles of options that the program knows, by the kind of their value.
READ = {"match": "match", "target": "target", "protocol": "protocol", "port": "ports", "ports": "ports", "type": "icmp-type"}
ROLES = {"+": "asks", ".": "says", "^": "turns"}


def role(owner, option):
    if option.names[0] in owner.always:
        return "holds"
    if option.names[0] in owner.things:
        return "sets" if option.place == "." else "asks-of"
    if option.names[0] in owner.counted:
        return "counts"
    if option.names[0] in owner.unopposed:
        return "unopposed"
    if option.place == "=":
        return READ.get(option.values[0], "own") if option.values else "own"
    return ROLES[option.place]


def kind(owner):
    if owner.kind == "match" and is_known(owner):
        return "alone" if "alone" in owner.notes else "known"
    if owner.kind == "match":
        return owner.notes[0]
    return "logs" if owner.kind == "passes" and is_known(owner) else owner.kind


def lines(rows):
    return "".join(" ".join(words) + "\n" for words in rows)


def written():
    options = ([owner.name.decode(), role(owner, option), str(len(option.values)), *(name.decode() for name in option.names)]
               for owner in EXTENSIONS if owner.kind != "command" for option in owner.options)
    named = ([owner.name.decode(), kind(owner), *(word.decode() for word in owner.protocols + owner.sets)]
             for owner in EXTENSIONS if owner.kind not in ("rule", "command"))
    return FORM.format(options=lines(options), extensions=lines(named))


def is_written(root):
    path = pathlib.Path(root, PLACE)
    return path.exists() and path.read_text(encoding="utf-8") == written()


def main():
    parser("rows", __doc__).parse_args()
    pathlib.Path(ROOT, PLACE).write_text(written(), encoding="utf-8")


if __name__ == "__main__":
    sys.exit(main())
