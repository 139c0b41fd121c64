"""Rows of data in files beside the tests, where a line of text stands as it is, without the quotes and escapes of Python.

Each line of such a file begins with a sign: the first of a file's signs begins a row, and the lines behind it belong to this row. A line `>\\ ` is
written with escapes, as in the cases (docs/CASES.md). Blank lines, and those that begin with `#`, are passed over.
"""

from tests.shared import read
from tests.shared.case_files import text_of


def rows_in(place, signs):
    """The rows of a file of tests, each as the list of its texts for each of the signs."""
    rows = []
    for line in filter(None, read("tests", place).decode().split("\n")):
        if line[0] == signs[0]:
            rows.append({sign: [] for sign in signs})
        if line[0] != "#":
            rows[-1][line[0]].append(text_of(line, {}))
    return [tuple(row.values()) for row in rows]
