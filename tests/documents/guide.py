"""Each command that docs/GUIDE.md and README.md show writes the lines that stand after it. The commands' programs are those of the run; their other
scripts are the repository's.

A command is an indented line that begins with `$ `; the indented lines after it are its output. The commands of a document run one after another
in a folder with its examples.
"""

import os
import re
import shutil

import pytest

from tests import ROOT
from tests.shared import read
from tests.shared.installed import follow

DOCUMENTS = ("README.md", "docs/GUIDE.md")
COMMAND = re.compile(r"(?m)^    \$ (.*)\n((?:(?!    \$ |#).*\n)*)")


def text_of(document):
    return read(document).decode()


def commands_of(text):
    """The commands, each with what it is to write."""
    for found in COMMAND.finditer(text):
        yield found[1], "".join(line[4:] + "\n" for line in found[2].splitlines() if line.startswith("    "))


def written_by(text, folder, **programs):
    """What the commands of a document write, one after another, in a folder with the examples."""
    shutil.copytree(os.path.join(ROOT, "examples"), os.path.join(folder, "examples"))
    return follow([command for command, _ in commands_of(text)], folder, **programs)


SHOWN = [(document, number, command, due) for document in DOCUMENTS for number, (command, due) in enumerate(commands_of(text_of(document)))]


@pytest.fixture(scope="module")
def written(shared_folder, iptsim, iptaudit):
    """What the commands of both documents write."""
    return {document: list(written_by(text_of(document), os.path.join(shared_folder, document), iptsim=iptsim.path, iptaudit=iptaudit.path))
            for document in DOCUMENTS}


@pytest.mark.xdist_group("documents/guide")
@pytest.mark.parametrize("document, number, command, due", SHOWN, ids=[f"{document}: {command}" for document, _, command, _ in SHOWN])
def test_command(document, number, command, due, written):
    assert written[document][number] == due


@pytest.mark.parametrize("document, least", [("README.md", 3), ("docs/GUIDE.md", 40)])
def test_commands_are_found(document, least):
    assert len(list(commands_of(text_of(document)))) >= least


def test_planted_line(folder, iptsim, iptaudit):
    """A wrong line is found, or the check itself is at fault."""
    text = text_of("docs/GUIDE.md").replace("    verdict ACCEPT by rule\n", "    verdict DROP by rule\n")
    came = written_by(text, folder, iptsim=iptsim.path, iptaudit=iptaudit.path)
    assert any(output != due for output, (_, due) in zip(came, commands_of(text)))
