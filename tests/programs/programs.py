"""iptsim as a program: its words, devices and files, what it writes to standard output and standard error, to the byte, and its statuses."""

import subprocess
import threading

import pytest

from tests.devices import stalled
from tests.shared import read
from tests.shared.row_files import rows_in
from tests.shared.run_files import runs_in
from tests.shared.rows import Command, Row, each, same

RUNS = runs_in("programs/programs.runs")
FILES = RUNS[0].files
RELEASE = b"iptsim %s (not released)\n" % read("VERSION").strip()
DROP = "-A INPUT -s 10.0.0.0/8 -j DROP\n"
FULL = "{%s}" % ",".join(str(number) for number in range(1, 8193))
FIELDS = ("dst", "in", "out", "proto", "frag", "sport", "dport", "flags", "icmp", "ct", "ttl")
LONG_WORD = "error: unrecognized subcommand '%s'\n\nUsage: iptsim [COMMAND]\n\nFor more information, try '--help'.\n"
DEVICES = [(line.decode(), int(status), b"".join(text + b"\n" for text in texts))
           for (line,), (status,), texts in rows_in("programs/devices.rows", ">=!")]
CONVERSATION = [(line.decode(), [text.decode() for text in due]) for (line,), due in rows_in("programs/conversation.rows", "><")]
PATIENCE = 60


def further_rows():
    """The version, which is that of the file VERSION; long words; and more than the buffer of replies holds."""
    for word in ("--version", "-V"):
        yield Row(word, [word], FILES, RELEASE, 0, input=b"iptables-save")
    for word in ("x" * length for length in (255, 256, 257, 300, 4096)):
        yield Row(word[:60], [word], FILES, b"", 2, (LONG_WORD % word).encode(), b"iptables-save")
        yield Row(f"session --load {word}"[:60], ["session", "--load", word], FILES, b"", 1, f"iptsim: cannot open {word}\n".encode(), b"iptables-save")
    listing = f"*filter\n:INPUT ACCEPT [0:0]\n:FORWARD ACCEPT [0:0]\n:OUTPUT ACCEPT [0:0]\n{DROP * 3000}COMMIT\n"
    yield Row("a long listing", ["session"], FILES, listing.encode(), 0, input=f"iptables {DROP}".encode() * 3000 + b"iptables-save\n")
    lines = "".join(f"{field} {'0' * 32 if field in ('in', 'out') else 0}:{FULL}\n" for field in FIELDS)
    yield Row("the lines of a full chain", ["session"], FILES, f"src 0:{{}} 167772160:{FULL} 184549376:{{}}\n{lines}".encode(), 0,
              input=f"iptables {DROP}".encode() * 8192 + b"lines INPUT\n")


@each(RUNS, further_rows)
def test_run(row, iptsim):
    iptsim.check(row)


@pytest.mark.parametrize("line, status, messages", DEVICES, ids=[line for line, _, _ in DEVICES])
def test_devices(line, status, messages, iptsim):
    ended = Command("/bin/bash", program=iptsim.path).run(["-c", line], FILES)
    same((status, messages), (ended.returncode, ended.stderr))


def test_stalled_device(iptsim):
    """A writer that fails once, and takes what comes after it."""
    stalled.check(iptsim.path)


def test_conversation(iptsim):
    """Each kind of reply is there, to its last line, before the next line is."""
    with subprocess.Popen([iptsim.path, "session"], stdin=subprocess.PIPE, stdout=subprocess.PIPE, text=True) as talk:
        timer = threading.Timer(PATIENCE, talk.kill)
        timer.start()
        for line, due in CONVERSATION + CONVERSATION[4:]:
            talk.stdin.write(line + "\n")
            talk.stdin.flush()
            came = [talk.stdout.readline().rstrip("\n") for _ in due]
            assert (line, came) == (line, due)
        rest, _ = talk.communicate()
        timer.cancel()
    assert (talk.returncode, rest) == (1, "")
