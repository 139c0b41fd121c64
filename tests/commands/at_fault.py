"""The words at fault in lines of sessions that the program refuses, by bin/check --session and by the call that other scripts make; to the byte."""

import pytest

from commands.at_fault import explained
from tests.shared.row_files import rows_in
from tests.shared.run_files import runs_in
from tests.shared.rows import Row, each

# Lines of a session, each with what is due, if it is refused.
SESSION = rows_in("commands/at_fault.rows", ">!")
DATA = b"".join(line + b"\n" for (line,), _ in SESSION)


def session_rows():
    """All these lines in one session."""
    due = b"".join(b"s:%d: %s\n" % (number, text) for number, (_, told) in enumerate(SESSION, 1) for text in told)
    yield Row("lines of a session", ["--session", "s"], {"s": DATA}, due, 1)


@each(session_rows, runs_in("commands/at_fault.runs"))
def test_session(row, command):
    command("check").check(row)


@pytest.fixture(scope="module")
def replies(iptsim):
    """The replies to the session that are faults, by the numbers of lines."""
    return {int(reply.split(b" ")[1][:-1]): reply for reply in iptsim.said(["session"], DATA).splitlines() if reply.startswith(b"line ")}


REFUSED = [(number, line, text) for number, ((line,), told) in enumerate(SESSION, 1) for text in told if not text.startswith(b"S3")]


@pytest.mark.parametrize("number, line, text", REFUSED, ids=[repr(text)[2:60] for _, _, text in REFUSED])
def test_call(number, line, text, replies, iptsim, monkeypatch):
    """The call for one line, with its reply as it stands in the session or without the number."""
    monkeypatch.setenv("IPTSIM", iptsim.path)
    reply = replies[number]
    assert explained(line, reply if number % 2 else reply.partition(b": ")[2], [b"office", b"later"]) == text


def test_no_other_line_is_refused(replies):
    assert sorted(replies) == [number for number, (_, told) in enumerate(SESSION, 1) if told]
