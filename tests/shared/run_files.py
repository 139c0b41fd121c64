"""Runs of commands in files beside the tests: rows (tests/shared/rows) whose files, input and output stand line by line, as they are.

As in files of rows (tests/shared/row_files) each line begins with a sign, blank lines and those that begin with `#` are passed over, and a line
whose sign has a `\\` behind it is written with escapes. The signs, and what stands behind them:

    :   what a run is about; the lines behind it are its own
    $   the words, as for a shell: variables may stand before them, and behind them `>` with the file to which standard output goes
    @   the name of a file beside the run, or, before the first run, of one beside each; its lines come next, each after `|`
    >   a line of standard input; `<` one of standard output; `!` one of standard error
    =   the status, if it isn't 0
    *   the name of a text, whose lines come next, each after `|`; a line `|* NAME`, or `<* NAME`, stands for the lines of that text

A line `|- `, or `<- `, is the last one of a text that doesn't end in a newline; it is written with escapes.
"""

import itertools
import os
import re
import shlex

from tests.shared import read
from tests.shared.case_files import text_of, written
from tests.shared.rows import Row

STREAMS = {">": "input", "<": "output", "!": "messages"}


def data_of(line, texts):
    """The bytes that a line stands for."""
    if line[1:2] == "*":
        return texts[line[3:]]
    return written(line[3:].encode(), {}) if line[1:2] == "-" else text_of(line, {}) + b"\n"


def call_of(text):
    """The words of a run, where its standard output goes, and its variables."""
    words = shlex.split(text)
    variables = dict(word.split("=", 1) for word in itertools.takewhile(re.compile("[A-Z]+=").match, words))
    stdout = words.pop()[1:] if words and words[-1].startswith(">") else None
    return {"words": words[len(variables):], "stdout": stdout, "variables": variables}


def runs_in(place):
    """The runs of a file of tests, as rows."""
    runs, beside_each, texts = [], {}, {}
    files, parts, name = beside_each, texts, ""
    for line in filter(None, read("tests", place).decode().split("\n")):
        sign, text = line[0], os.fsdecode(text_of(line, {}))
        if sign == ":":
            files = dict(beside_each)
            runs.append({"about": text, "words": [], "files": files, "output": b"", "status": 0, "messages": b"", "input": b""})
        elif sign == "$":
            runs[-1].update(call_of(text))
        elif sign in "@*":
            parts, name = files if sign == "@" else texts, text
            parts[name] = b""
        elif sign == "|":
            parts[name] += data_of(line, texts)
        elif sign == "=":
            runs[-1]["status"] = int(text)
        elif sign != "#":
            runs[-1][STREAMS[sign]] += data_of(line, texts)
    return [Row(**run) for run in runs]
