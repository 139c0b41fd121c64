"""What tests/costs/costs counts of iptsim with 1,024 rules, and what tests/costs/steps counts of iptaudit, beside the figures of the file
tests/costs/figures. Times and memory are no part of them.

A figure that is more than a tenth off fails: a cost that grew is a fault, and one that fell is to be stored, as
`python3 -m tests.costs.beside_figures IPTSIM IPTAUDIT` stores all.
"""

import os
import pathlib
import re
import shutil
import subprocess
import sys

import pytest

from tests import ROOT

pytestmark = pytest.mark.usefixtures("proved")
FIGURES = pathlib.Path(ROOT, "tests", "costs", "figures")
RULES = 1024
# The module that counts each program's figures, with further words; those of the second are named by these words.
COUNTED = {"iptsim": ("tests.costs.costs", [str(RULES)]), "iptaudit": ("tests.costs.steps", [])}
OF_AUDIT = re.compile(": (?:dead|steps of .*)$")


def rows(module, words):
    """The rows of the tables that a module prints: the first cell, and the others under their headings."""
    run = subprocess.run([sys.executable, "-m", module, *words], cwd=ROOT, stdout=subprocess.PIPE, stderr=subprocess.DEVNULL, check=True)
    lines = [[cell.strip() for cell in line.strip("| ").split(" | ")] for line in run.stdout.decode().splitlines()]
    heads = []
    for cells, below in zip(lines, [*lines[1:], [""]]):
        if below[0] == "---":
            heads = cells[1:]
        elif cells[0] not in ("", "---"):
            yield cells[0], dict(zip(heads, cells[1:]))


def number(cell):
    found = re.fullmatch(r"[\d,]+(\.\d+)?", cell)
    return float(cell.replace(",", "")) if found else None


def counted(name, path):
    module, words = COUNTED[name]
    return {f"{row}: {heading}": number(cell) for row, cells in rows(module, [path, *words]) for heading, cell in cells.items()
            if number(cell) is not None and heading != "rules" and "iptables-legacy" not in row + heading}


def stored():
    return {name: float(figure) for name, _, figure in (line.rpartition("\t") for line in FIGURES.read_text(encoding="ascii").splitlines())}


def program_of(name):
    return "iptaudit" if OF_AUDIT.search(name) else "iptsim"


@pytest.fixture(scope="module")
def figures(request):
    found = {}

    def of_program(name):
        for tool in ("valgrind", "strace"):
            if not shutil.which(tool):
                pytest.skip(f"{tool} isn't there")
        if name not in found:
            found[name] = counted(name, request.getfixturevalue(name).path)
        return found[name]

    return of_program


@pytest.mark.parametrize("name", [pytest.param(name, marks=pytest.mark.xdist_group(f"costs of {program_of(name)}")) for name in stored()])
def test_figure(name, figures):
    """What a line of the table is rounded to is no difference."""
    due, came = stored()[name], figures(program_of(name)).get(name)
    assert came is not None and abs(came - due) <= max(0.1 * due, 0.1)


@pytest.mark.parametrize("program", [pytest.param(name, marks=pytest.mark.xdist_group(f"costs of {name}")) for name in COUNTED])
def test_names(program, figures):
    assert sorted(figures(program)) == sorted(name for name in stored() if program_of(name) == program)


if __name__ == "__main__":
    found = [pair for program, path in zip(COUNTED, sys.argv[1:]) for pair in counted(program, os.path.abspath(path)).items()]
    FIGURES.write_text("".join(f"{name}\t{figure:g}\n" for name, figure in found), encoding="ascii")
