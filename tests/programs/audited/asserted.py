"""What `assert` of iptaudit says of claims about all packets, and which files of claims it refuses. Each packet that it prints is given to iptsim, whose walk
and verdict have to be those that it prints; a ruleset of which iptsim refuses something is left out of that.
"""

import re

import pytest

from tests.programs.audited.rulesets import office
from tests.shared.row_files import rows_in
from tests.shared.rows import Row, each
from tests.shared.run_files import runs_in

RUNS = runs_in("programs/audited/asserted.runs")
AT_FAULT = rows_in("programs/audited/claims_at_fault.rows", ">!")
SHOWN = re.compile(rb"(?m)^# (packet .*)\n((?:# (?!packet|verdict).*\n)*)# verdict (.*) by (.*)\n")
WITH_PACKETS = [run for run in RUNS if SHOWN.search(run.output) and b" if " not in run.output and b"NFQUEUE" not in run.files["R"]]


def fault_rows():
    files = {"R": office("rules")}
    for (claim,), (said,) in AT_FAULT:
        yield Row(claim.decode(), ["assert", "R", "claims"], {**files, "claims": claim + b"\n"}, b"", 2, b"iptaudit: claims:1: " + said + b"\n")
    for about, line, said in (("not UTF-8", b"never ACCEPT at INPUT in=\xff", b"not UTF-8"), ("a long line", b"#" * 10241, b"line too long")):
        yield Row(about, ["assert", "R", "claims"], {**files, "claims": b"\n" + line + b"\n"}, b"", 2, b"iptaudit: claims:2: " + said + b"\n")


@each(RUNS, fault_rows)
def test_claims(row, iptaudit):
    iptaudit.check(row)


@pytest.mark.parametrize("run", WITH_PACKETS, ids=[run.about for run in WITH_PACKETS])
def test_packets(run, iptsim):
    for packet, rules, verdict, decider in SHOWN.findall(run.output):
        passed = b"".join(b" ".join(line.split()[1:3]) + b"\n" for line in rules.splitlines())
        by = b"policy" if decider == b"policy" else b"rule"
        assert iptsim.said(["session", "--load", "R"], packet + b"\n", {"R": run.files["R"]}) == passed + b"verdict " + verdict + b" by " + by + b"\n"
