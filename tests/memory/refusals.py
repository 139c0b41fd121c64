"""Each allocation of the groups `values` and `questions` of crates/calls refused, one in each run, which makes the cases of one group: what is printed is
the same. The status of a run is 0 where no call was refused, and 4 where one was. First the memory of the program's word is refused, without
which it makes the cases of all groups.
"""

import pathlib

import pytest

from tests import ROOT
from tests.memory.refusing.program import RefusingProgram

pytestmark = pytest.mark.usefixtures("proved")
# So many runs without a refusal are made after the last with one, and so many at most.
FURTHER, MOST = 100, 20_000
GROUPS = ("values", "questions")
ALL = pathlib.Path(ROOT, "crates", "calls", "stdout").read_bytes()


@pytest.mark.parametrize("group", GROUPS[::-1])
def test_refusals(group, calls):
    program, due = RefusingProgram(calls.path), calls.said([group])
    refused, number, last = 0, 0, 0
    while number - last < FURTHER or not refused:
        number += 1
        assert number <= MOST, "its cases take memory so often or more, or never"
        program.refuse(number)
        output, errors, status = program.run((group,), b"")
        if not refused and output == ALL:
            last = number
            continue
        assert (number, output, errors, status in (0, 4)) == (number, due, b"", True)
        if status == 4:
            refused, last = refused + 1, number


def test_groups(calls):
    """Together the groups print what a run of all cases prints first, up to the last question."""
    last = next(line for line in ALL.splitlines(True) if line.startswith(b"walks under an answer: "))
    assert b"".join(calls.said([group]) for group in GROUPS) == ALL[:ALL.index(last) + len(last)]
