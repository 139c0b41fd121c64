"""Short runs of both programs with each allocation refused in turn: what they write beside what they write with ample memory, and their statuses.

A run in which an allocation is refused ends with status 4 and the program's message. iptsim ends with M0 where a line is served, and
has read nothing of its input where it ends with its message; what iptaudit has written until then is the beginning of its answer. Or a
run does without the memory, and all is as if it were there. A run for which the system has no memory to open a file ends as the first.
"""

import os
import re
import subprocess

import pytest

from tests.memory.refusing.program import OPEN, preloaded
from tests.shared.rows import write

pytestmark = pytest.mark.usefixtures("proved")
DUMP = b"""# Generated
*nat
:PREROUTING ACCEPT [0:0]
COMMIT
*filter
:INPUT DROP [12:900]
[3:180] -A INPUT -p tcp -m tcp --dport 22 -j ACCEPT
-A INPUT -p tcp -m tcp --dport 22 -j DROP
COMMIT
"""
FILES = {"dump": DUMP, "other": DUMP.replace(b"[3:180] -A INPUT -p tcp -m tcp --dport 22 -j ACCEPT\n", b""), "words": b"*filter\n-S\nCOMMIT\n"}
# Rules that cut a line into more pieces than two blocks of it have.
BLOCKED = b"*filter\n:INPUT ACCEPT [0:0]\n" + b"".join(
    b"-A INPUT -s 10.%d.%d.%d -j DROP\n" % (number * 37 % 251, number * 59 % 256, number % 256) for number in range(600)) + b"COMMIT\n"
PACKET = b"packet INPUT src=10.0.0.1 dst=10.0.0.2 proto=tcp sport=1 dport=22\n"
REACH = "dump INPUT proto=tcp frag=0 by=dport"
# A program, its words and its input; and of how many allocations one is refused.
RUNS = [
    ("iptsim", "restore", BLOCKED, 37),
    *(("iptsim", words, DUMP, 1) for words in (
        "restore --noflush --test --load dump", "restore", "session --load words", "", "boom", "restore --help", "--version")),
    *(("iptaudit", words, PACKET, 1) for words in (
        "dead dump", "compare dump other", "tests dump", "cover dump", f"reach {REACH}", "dead --json dump", "compare --json dump other",
        "cover --json dump", f"reach --json {REACH}", "dead words", "", "--help")),
]
FURTHER = 100


def run(program, words, folder, environment):
    """How a run among the files ended, what it wrote, and how many bytes of the input it has read."""
    with open(os.path.join(folder, "in"), "rb") as given:
        ended = subprocess.run([program.path, *words], cwd=os.path.join(folder, "files"), env=environment, stdin=given, capture_output=True, check=False)
        return ended.returncode, ended.stdout, ended.stderr, os.lseek(given.fileno(), 0, os.SEEK_CUR)


def is_told(name, came, due):
    """Whether a program said that memory was refused. iptsim: its message alone, before it read anything, or M0 for a line. iptaudit: its message,
    after M0 where a file was restored; and what it wrote is where its answer begins."""
    _, output, errors, place = came
    if name == "iptsim":
        return (output, errors, place) == (b"", b"iptsim: no memory\n", 0) or bool(re.search(rb"(?m)^line \d+: M0 no memory$", output + errors))
    return re.sub(rb"\Aline \d+: M0 no memory\n", b"", errors) == b"iptaudit: no memory\n" and due[1].startswith(output)


@pytest.mark.parametrize("name, words, given, step", RUNS, ids=[f"{name} {words}, {len(given)} bytes" for name, words, given, _ in RUNS])
def test_refused(name, words, given, step, request, folder):
    """Each allocation, or one of some, up to those of runs that don't come to the refused one any more."""
    program, words, environment = request.getfixturevalue(name), words.split(), preloaded(folder)
    write(folder, {"in": given, **{f"files/{file}": data for file, data in FILES.items()}})
    due, told, last, number = run(program, words, folder, environment), 0, 0, 1
    while number - last <= FURTHER * step:
        came = run(program, words, folder, {**environment, "REFUSED": str(number)})
        if came[:3] != due[:3]:
            assert (number, came[0], is_told(name, came, due), came[1], came[2]) == (number, 4, True, came[1], came[2])
            told, last = told + 1, number
        number += step
    assert told > 0


@pytest.mark.parametrize("name, words", [("iptsim", "session --load dump"), ("iptaudit", "dead dump")])
def test_unopened(name, words, request, folder):
    """A run for which the system has no memory to open a file."""
    write(folder, {"in": b"", **{f"files/{file}": data for file, data in FILES.items()}})
    status, output, errors, _ = run(request.getfixturevalue(name), words.split(), folder, preloaded(folder, OPEN))
    assert (status, output, errors) == (4, b"", f"{name}: no memory\n".encode())
