"""The lines of an input, and the words of a line."""

import re

from .faults import Fault, need

MOST_BYTES = 10240
BLANKS = b" \t"
# A text in quotes, where a backslash gives the byte after it; or a run of bytes without blanks and quotes.
WORD = re.compile(rb'"((?:[^"\\]|\\.)*)"|[^ \t"]+', re.DOTALL)


def lines_of(data):
    """A line ends at a newline; the last may lack it."""
    lines = data.split(b"\n")
    return lines if lines[-1] else lines[:-1]


def is_too_long(line):
    return len(line) > MOST_BYTES


def is_passed_over(line):
    begun = line.lstrip(BLANKS)
    return not begun or begun.startswith(b"#")


def words_of(line):
    """The words of a line. After a word there is a blank, a tab or the end."""
    words, at = [], 0
    while True:
        while at < len(line) and line[at] in BLANKS:
            at += 1
        if at == len(line):
            return words
        found = WORD.match(line, at)
        if not found:
            raise Fault("R5")
        at = found.end()
        need(at == len(line) or line[at] in BLANKS, "R5")
        quoted = found.group(1)
        words.append(found.group() if quoted is None else re.sub(rb"\\(.)", rb"\1", quoted, flags=re.DOTALL))
