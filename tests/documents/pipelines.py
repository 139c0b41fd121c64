"""The commands of the pipelines in examples/ on the ruleset that lies beside them, each called by its own name. All end with 0, and the report has all
tests of the sample.
"""

import os
import re
import shutil
import subprocess

import pytest

from tests import ROOT
from tests.shared import read
from tests.shared.installed import linked

EXAMPLES = os.path.join(ROOT, "examples")
REPORT = '<testsuite name="web.expected" tests="5" failures="0" errors="0" skipped="0">'
COMMAND = re.compile(r"(?m)^ *(?:run:|-) ((?:iptsim-\w+|iptaudit) .*)$")


@pytest.mark.parametrize("name", ["github.yml", "gitlab.yml"])
def test_pipeline(name, folder, iptsim, iptaudit):
    commands = COMMAND.findall(read("examples", name).decode())
    assert [line.split()[0] for line in commands] == ["iptsim-check", "iptsim-expect", "iptaudit", "iptaudit"]
    environment, work = linked(os.path.join(folder, "commands"), iptsim=iptsim.path, iptaudit=iptaudit.path), os.path.join(folder, "work")
    os.mkdir(work)
    for sample in ("web.rules", "web.expected", "web.claims"):
        shutil.copy(os.path.join(EXAMPLES, sample), work)
    for line in commands:
        ended = subprocess.run(line, shell=True, cwd=work, env=environment, capture_output=True, check=False)
        assert (line, ended.returncode, ended.stderr) == (line, 0, b"")
    assert re.search("<testsuite .*>", read(work, "expect.xml").decode()).group() == REPORT
