"""The most memory that iptsim takes for loads of the fullest chains, beside what it may take. A row with few bits keeps few words, and no clause says so:
a row that kept all would be the same row.
"""

import os
import pathlib
import re
import subprocess
import tempfile

import pytest

from tests.drawn import workloads

pytestmark = pytest.mark.usefixtures("proved")
RULES = 8192
PACKET = b"packet OUTPUT src=192.0.2.1 dst=192.0.2.2 proto=47 out=eth0\n"

# A load, its file, and how many megabytes it may take.
LOADS = {
    "98,304 blocked hosts in twelve chains": (lambda: workloads.blocked(RULES), 80),
    "8,192 rules made to hurt": (lambda: workloads.restore(workloads.hurting(RULES)), 100),
}


def peak(program, text):
    """The most megabytes that a session has taken when it answers its first line after a load; nothing where it doesn't."""
    with tempfile.NamedTemporaryFile() as file:
        file.write(text.encode())
        file.flush()
        with subprocess.Popen([program, "session", "--load", file.name], stdin=subprocess.PIPE, stdout=subprocess.PIPE) as session:
            session.stdin.write(PACKET)
            session.stdin.flush()
            answer = session.stdout.readline()
            taken = re.search(r"VmHWM:\s+(\d+) kB", pathlib.Path(f"/proc/{session.pid}/status").read_text(encoding="ascii"))
    return int(taken.group(1)) / 1024 if answer.startswith(b"verdict ") and taken else None


@pytest.mark.parametrize("name", LOADS)
def test_load(name, iptsim):
    if not os.path.exists("/proc/self/status"):
        pytest.skip("there is no /proc")
    text, most = LOADS[name]
    taken = peak(iptsim.path, text())
    assert taken is not None and taken <= most
