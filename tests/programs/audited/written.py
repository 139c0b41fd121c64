"""What iptaudit writes to the byte: its help and that of its subcommands; of whole dumps, whose rules have conditions that it doesn't know; and with --json."""

import json

from tests.shared.run_files import runs_in
from tests.shared.rows import each


def compact(text):
    """A document as iptaudit writes it: without blanks, in one line."""
    return json.dumps(json.loads(text), separators=(",", ":"), ensure_ascii=False).encode() + b"\n" if text else text


RUNS = [run._replace(output=compact(run.output)) for run in runs_in("programs/audited/documents.runs")]


@each(runs_in("programs/audited/whole.runs"))
def test_whole(row, iptaudit):
    iptaudit.check(row)


@each(RUNS)
def test_document(row, iptaudit):
    iptaudit.check(row)


def schema_rows():
    """The words, the files, standard input and the status of each that has a document, for tests/commands/schemas."""
    return [(run.words, run.files, run.input, run.status) for run in RUNS if run.output]
