"""What is found wrong with a line or a file, and how it is printed, for the scripts for users."""

import collections
import re

# `line` is 0 for the whole file. `code` is empty where `text` is a sentence of its own. `word` is the word at fault, or empty; `more` says
# more of it, and `meant` what was perhaps meant.
Finding = collections.namedtuple("Finding", "line code text word more meant", defaults=(b"", b"", b""))


def visible(text):
    return re.sub(rb"[\x00-\x1f\x7f]", lambda byte: b"\\r" if byte.group() == b"\r" else b"\\x%02x" % byte.group()[0], text)


def shown(word):
    text = visible(word)
    return text if len(text) <= 80 else text[:77] + b"..."


def text_of(finding):
    """A finding as one line, without the place."""
    if not finding.code:
        return visible(finding.text)
    word = b": " + shown(finding.word) if finding.word else b""
    more = b" (%s)" % finding.more if finding.more else b""
    meant = b" (%s?)" % shown(finding.meant) if finding.meant else b""
    return finding.code.encode() + b" " + finding.text + word + more + meant


def of_fault(number, fault, word, **more):
    return Finding(number, fault.code, fault.text[len(fault.code) + 1:], word, **more)
