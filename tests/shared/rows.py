"""Rows of data for tests: runs of a command, each with its words and files, and with what is due, to the byte."""

import contextlib
import os
import pathlib
import subprocess
import tempfile
import typing

import pytest

from tests import ROOT

BIN = os.path.join(ROOT, "bin")
# Where standard output goes to a pipe that nobody reads.
UNREAD = "unread"


class Row(typing.NamedTuple):
    """A run: what it is about, the words of the command, and the files of the folder where it runs; then what is due: standard output, the
    status and standard error. Standard input has the bytes `input`, or is the file of this name, or is closed; standard output may be a file, too,
    or an unread pipe; and some variables of the environment may be others."""

    about: str
    words: list
    files: dict
    output: bytes
    status: int
    messages: bytes = b""
    input: typing.Union[bytes, str, None] = b""
    stdout: typing.Optional[str] = None
    variables: dict = {}


def each(*tables):
    """Has a test run for each row of some tables, or of what functions yield, with the row's first column as its name."""
    rows = [row for table in tables for row in (table() if callable(table) else table)]
    return pytest.mark.parametrize("row", rows, ids=[row[0] if isinstance(row[0], str) else repr(row[0]) for row in rows])


def write(folder, files):
    """Writes files, by their names, into a folder. A name that ends in `/` is that of a folder."""
    for name, data in files.items():
        path = os.path.join(folder, os.fsdecode(name))
        os.makedirs(os.path.dirname(path), exist_ok=True)
        if not path.endswith("/"):
            pathlib.Path(path).write_bytes(data)


def differing(due, came):
    """The lines of texts that are due and didn't come, and of those that came and aren't due."""
    for lines, others, word in ((due, came, "due"), (came, due, "came")):
        for text, against in zip(lines, others):
            if isinstance(text, (bytes, str)) and type(text) is type(against):
                there = set(against.splitlines())
                yield from (f"  {word}: {line[:300]}" for line in text.splitlines() if line not in there)
            elif text != against:
                yield f"  {word}: {text}"


def same(due, came, about="what came"):
    """Fails the test where what came, a status or the like and texts, isn't what is due, and says what differs."""
    if due != came:
        pytest.fail("\n".join([f"{about} isn't what is due:", *list(differing(due, came))[:100]]), pytrace=False)


class Command:
    """A command, by its path, with some variables of the environment, which may be taken away by None."""

    def __init__(self, path, **variables):
        self.path, self.variables = path, variables

    def run(self, words, files=(), input=b"", stdout=None, variables=(), **more):
        """Runs the command on words, in a folder that has the files."""
        every = {**os.environ, **self.variables, **dict(variables)}
        environment = {name: value for name, value in every.items() if value is not None}
        with tempfile.TemporaryDirectory() as folder, contextlib.ExitStack() as opened:
            write(folder, dict(files))
            devices = {"input": input} if isinstance(input, bytes) else {"preexec_fn": lambda: os.close(0)}
            if isinstance(input, str):
                devices = {"stdin": os.open(os.path.join(folder, input), os.O_RDONLY)}
                opened.callback(os.close, devices["stdin"])
            devices["stdout"] = subprocess.PIPE
            if stdout is UNREAD:
                reader, devices["stdout"] = os.pipe()
                os.close(reader)
            elif stdout is not None:
                devices["stdout"] = os.open(stdout, os.O_WRONLY)
            if stdout is not None:
                opened.callback(os.close, devices["stdout"])
            devices = {"stderr": subprocess.PIPE, "env": environment, "cwd": folder, **devices, **more}
            return subprocess.run([self.path, *words], check=False, **devices)

    def said(self, words, input=b"", files=()):
        """What it writes to standard output."""
        return self.run(words, files, input).stdout

    def check(self, row):
        """Runs a row, and compares what came with what is due."""
        ended = self.run(row.words, row.files, row.input, row.stdout, row.variables)
        same((row.status, row.output, row.messages), outcome(ended))


def outcome(ended):
    """What came of a run: the status, standard output, if it didn't go elsewhere, and standard error."""
    return ended.returncode, ended.stdout or b"", ended.stderr


def section(*lines):
    """A dump of one section with these lines."""
    return b"".join(line + b"\n" for line in (b"*filter", *lines, b"COMMIT"))


def script(path, text):
    """Writes a script that can be run, and returns its path."""
    pathlib.Path(path).write_text(text, encoding="utf-8")
    os.chmod(path, 0o755)
    return path
