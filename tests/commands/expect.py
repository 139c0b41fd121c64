"""bin/expect on rulesets and packets: what it writes and its status, to the byte."""

import os
import pathlib

import pytest

from tests import ROOT
from tests.commands import LONG_WALK
from tests.shared import read
from tests.shared.run_files import runs_in
from tests.shared.rows import each, outcome, same


@each(runs_in("commands/expect.runs"))
def test_expect(row, command):
    command("expect").check(row)


@each(runs_in("commands/reports.runs"))
def test_report(row, command, folder):
    """A report of JUnit, beside what is written without one."""
    report = pathlib.Path(folder, "report.xml")
    plain, ended = (command("expect").run([*more, *row.words], row.files) for more in ([], ["--junit", report]))
    same((row.output, row.status, plain.stdout, plain.stderr), (report.read_bytes(), *outcome(ended)))


@each(runs_in("commands/expect_installed.runs"))
def test_installed(row, installed):
    """An installed script finds its modules, and messages name it as it was called."""
    installed("expect").check(row)


def test_long_walk(command):
    packet = b"packet INPUT src=1.1.1.1 dst=2.2.2.2 proto=47 in=lo"
    ended = command("expect").run(["R", "E"], {"R": LONG_WALK, "E": packet + b" -> DROP\n"})
    due = b"1..1\nnot ok 1 - %s -> DROP\n# line 1 of E\n# expected: DROP\n# got: TOOLONG\n" % packet
    due += b"# matched: more than 65536 rules, which are not listed\n"
    same((1, due, b""), (ended.returncode, ended.stdout[:len(due)], ended.stderr))


OFFICE, WEB = (os.path.join(ROOT, "examples", name) for name in ("office.", "web."))


@pytest.mark.parametrize("wrong", [9, None], ids=["office.rules", "office.rules, edited"])
def test_example(wrong, command, iptsim):
    """The packets of the example, which are those of office.packets: all but the ninth get what is due, and after the edits all do."""
    edited = iptsim.said(["session", "--load", OFFICE + "rules"], read(OFFICE + "edits") + b"iptables-save\n")
    ended = command("expect").run([OFFICE + "rules" if wrong else "R", OFFICE + "expected"], {"R": edited})
    came = [line.rsplit(b" -> ", 1)[0] for line in ended.stdout.splitlines() if not line.startswith(b"#")]
    packets = [line.rstrip() for line in read(OFFICE + "packets").splitlines() if line.startswith(b"packet")]
    due = [b"%sok %d - %s" % (b"not " if number == wrong else b"", number, packet) for number, packet in enumerate(packets, 1)]
    same((1 if wrong else 0, b"\n".join([b"1..10", *due])), (ended.returncode, b"\n".join(came)))


def test_sample(command):
    ended = command("expect").run(["-q", WEB + "rules", WEB + "expected"])
    came = [line.split(b" - ")[0] for line in ended.stdout.splitlines()]
    same((0, b"1..5 ok 1 ok 2 ok 3 ok 4 ok 5"), (ended.returncode, b" ".join(came)))
