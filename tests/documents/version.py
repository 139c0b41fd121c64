"""All that has a version has that of the file VERSION: the newest section of CHANGELOG.md, each manual page in docs/, and what the programs print by
`--version` and `-V`, to standard output. tests/packaging/release compares the names of what is packed, and what a program prints that is.
"""

import os
import re

import pytest

from tests import ROOT
from tests.shared import read
from tests.shared.rows import Row
from tools.packing.programs import UNRELEASED

PAGES = sorted(name for name in os.listdir(os.path.join(ROOT, "docs")) if name.endswith(".1"))
VERSION = read("VERSION").decode().strip()


def test_version():
    assert re.fullmatch(rb"\d+\.\d+\.\d+\n", read("VERSION"))


def test_changes():
    assert re.search(r"(?m)^## (\S+)$", read("CHANGELOG.md").decode())[1] == VERSION


@pytest.mark.parametrize("page", PAGES)
def test_page(page):
    """By the macros of mdoc or of man."""
    assert re.search(r'(?m)^(?:\.Os |\.TH .*")iptsim (\S+?)"?$', read("docs", page).decode())[1] == VERSION


@pytest.mark.parametrize("word", ["--version", "-V"])
@pytest.mark.parametrize("name", ["iptsim", "iptaudit"])
def test_program(name, word, request):
    request.getfixturevalue(name).check(Row(name, [word], {}, f"{name} {VERSION} ({UNRELEASED})\n".encode(), 0))
