"""The calls that promise to take no memory. Each case that `free` of crates/calls has is run with its calls made once and with them made a thousand
times, and both runs have to take memory as often.

In each run one allocation is refused, so late that only what the program takes after the calls meets it. The
program prints how often memory could be taken until then, so this number shows how often the run took it before.
The case `planted` takes memory once a call: its numbers have to differ by 999, or the check itself is at fault.
"""

import re

import pytest

from tests.memory.refusing.program import RefusingProgram

pytestmark = pytest.mark.usefixtures("proved")
# Later than the last allocation of any case.
LATE, PLANTED, PARTS = 300_000, "planted", 4


@pytest.fixture(scope="module")
def free(calls):
    """The program, of which a late allocation is refused, and the names of its cases."""
    program = RefusingProgram(calls.path)
    names = calls.said(["free"]).decode().split()
    program.refuse(LATE)
    return program, names


@pytest.mark.parametrize("part", range(PARTS))
def test_free(part, free):
    program, names = free

    def left(name, calls):
        """How often memory could be taken after so many calls of a case."""
        output, _, _ = program.run(("free",), f"{name} {calls}".encode())
        return int(re.search(rf"(?m)^{re.escape(name)}: (\d+) left$", output.decode())[1])

    took = {name: left(name, 1) - left(name, 1000) for name in names[part::PARTS]}
    assert {name: number for name, number in took.items() if number != (999 if name == PLANTED else 0)} == {}


def test_cases(free):
    assert PLANTED in free[1] and len(free[1]) > 1
