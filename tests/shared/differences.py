"""The rows of docs/differences.tsv, which says at its top what its columns are."""

import collections
import re

from tests.shared import read as bytes_of

DOCUMENT = "docs/differences.tsv"
COLUMNS = ("theme", "form", "given", "iptsim", "instead", "iptables")
FORMS = ("rule", "file")
FAULT = re.compile(r"[A-Z][0-9]+")
ANSWER = re.compile(r"`[A-Z][0-9]+`( at line [0-9]+)?|accepted\b.*|`[^`]+`(, `[^`]+`)*")


class Malformed(Exception):
    """What is wrong with the file: a line of text for each of its lines that can't be read."""


class Row(collections.namedtuple("Row", ("number",) + COLUMNS)):
    """A row, with the number of its line. The columns are as they stand there."""

    def entries(self, column):
        """What stands in backquotes in a column, spelled out."""
        return [spelled_out(text) for text in re.findall(r"`([^`]+)`", getattr(self, column))]


def trouble_of(cells):
    """Why a line can't be read as a row, or None."""
    if len(cells) != len(COLUMNS):
        return f"{len(cells)} columns, and not {len(COLUMNS)}"
    row = Row(0, *cells)
    for name, cell in zip(COLUMNS, cells):
        if cell.count("`") % 2 or "``" in cell:
            return f"the backquotes of the column {name} are not in pairs"
    if not row.theme or row.theme != row.theme.strip():
        return "the theme is missing, or has blanks around it"
    if row.form not in FORMS:
        return f"the form is {row.form or 'missing'}, and not one of {', '.join(FORMS)}"
    if not row.entries("given"):
        return "nothing is given"
    return None if ANSWER.fullmatch(row.iptsim) else "the answer of iptsim can't be read"


def spelled_out(text):
    """The text with x{3} as xxx, (x y){2} as x yx y, and the signs for bytes that can't be seen as these bytes."""
    text = re.sub(r"(?:\(([^()]*)\)|(\S))\{([0-9]+)\}", lambda found: (found[1] or found[2]) * int(found[3]), text)
    return text.replace("␍", "\r").replace("␀", "\0")


def rows_of(text):
    """All rows of the file's text, below their names. Raises Malformed where one of them can't be read."""
    *lines, end = enumerate(text.split("\n"), 1)
    head, *rows = [(number, tuple(line.split("\t"))) for number, line in lines if not line.startswith("#")]
    troubles = {number: trouble_of(cells) for number, cells in rows}
    troubles[head[0]] = None if head[1] == COLUMNS else f"the first row has to be {', '.join(COLUMNS)}"
    troubles[end[0]] = "the last line has no newline" if end[1] else None if rows else "there is no row"
    if any(troubles.values()):
        raise Malformed("\n".join(f"{DOCUMENT}:{number}: {trouble}" for number, trouble in troubles.items() if trouble))
    return [Row(number, *cells) for number, cells in rows]


def read():
    return bytes_of(DOCUMENT).decode()


def is_command(entry):
    return bool(re.match(r"-[A-Z]|-t ", entry))


def session_line(entry):
    """The line of a session for an entry of a row of the form `rule`."""
    if re.match(r"(iptables|packet)\b", entry):
        return entry
    return "iptables " + (entry if is_command(entry) else "-A INPUT " + entry)
