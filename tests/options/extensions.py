"""What bin/fit knows of iptables, beside the program and docs/differences.tsv.

- The table of commands/extensions.py says of each match, target and option whether the program knows it: it is asked.
- bin/fit is given each rule of the file that has something to write instead: what it makes of the rule is listed like that, or the rule is
  among those that bin/fit doesn't make to fit.
"""

import pytest

from commands.extensions import EXTENSIONS, OTHER_NAMES, is_known
from tests.commands.fit import LISTS, NAMES
from tests.shared import differences
from tests.shared.rows import same, section


def asked(row):
    """Words of a rule for a match or target and for each of its options, each with whether the program is to know it."""
    before = {b"tcp": b"-p tcp ", b"udp": b"-p udp ", b"icmp": b"-p icmp ", b"multiport": b"-p tcp "}.get(row.name, b"")
    if row.kind != "rule":
        before += (b"-m " if row.kind == "match" else b"-j ") + row.name
        yield before, is_known(row)
    for option in row.options if is_known(row) else ():
        for name in option.names:
            yield b" ".join([before, name, *[b"x"] * len(option.values)]), option.place == "=" and name not in OTHER_NAMES


KNOWN = [(number, *row) for number, row in enumerate((each for row in EXTENSIONS if row.kind != "command" for each in asked(row)), 1)]


@pytest.fixture(scope="module")
def faults(iptsim):
    """The faults of the session of all these rules, by the numbers of lines."""
    session = b"".join(b"iptables -A FORWARD %s\n" % words for _, words, _ in KNOWN)
    return {int(words[1][:-1]): words[2] for words in (line.split() for line in iptsim.said(["session"], session).splitlines())}


@pytest.mark.parametrize("number, words, known", KNOWN, ids=[words.decode() for _, words, _ in KNOWN])
def test_table(number, words, known, faults):
    """A word that isn't known has P1, P7 or T11; QUEUE, which is P3, isn't either."""
    fault = faults.get(number, b"")
    assert known == (fault != b"P1" if b"--" in words or words[:2] == b" -" else fault not in (b"P3", b"P7", b"T11"))


# What docs/differences.tsv says that iptables takes and bin/fit doesn't: the beginnings of its rows.
UNFIT = (
    "-s localhost", "-p udp --dport \"\"", "-fj DROP", "-mcomment", "-AINPUT", "iptables -s 1.1.1.1 -A", "-A INPUT -j DROP -t filter",
    "-t nat -t filter", "-j DROP --", "-p icmp --icmp-type 3/0:3", "-s 1.2.3.4/255.0.255.0", "-i ", "-p udp --dport 80:22",
    "-p udp --dport 1:65536", "-p udp -m udp --dport 1:0", "-p tcp -m tcp -m tcp", "-L", "-S", "-Z", "-V", "iptables -h", "iptables -v",
    "iptables -w", "iptables -c", "-A INPUT -j DROP -v", "-A INPUT -j DROP -w", "-A INPUT -j DROP -c")


def line(entry):
    return differences.session_line(entry)[len("iptables "):].encode()


# What iptables takes, as docs/differences.tsv has it, but for what bin/fit asks about.
GIVEN = [row for row in differences.rows_of(differences.read()) if row.form == "rule" and row.instead and len(row.entries("given")) == 1
         and not row.entries("given")[0].startswith(("-j QUEUE", "-j NFQUEUE"))]
FITS = [row for row in GIVEN if not row.entries("given")[0].startswith(UNFIT)]


def fit(command, rows):
    return command("fit").run([*NAMES, "d"], {"d": section(*(line(row.entries("given")[0]) for row in rows)), **LISTS})


def test_rules_that_fit(command, iptsim):
    """What comes of them is listed as iptables lists it."""
    assert len(FITS) > 100
    taken = fit(command, FITS)
    due, came = (iptsim.said(["restore"], data) for data in (section(*(line(entry) for row in FITS for entry in row.entries("instead"))), taken.stdout))
    same((0, due), (taken.returncode, came))


def test_rules_that_do_not_fit(command):
    unfit = [row for row in GIVEN if row not in FITS]
    refused = fit(command, unfit)
    numbers = [int(text.split(b":")[2]) for text in refused.stderr.splitlines()]
    assert (refused.returncode, refused.stdout, numbers) == (1, b"", list(range(2, 2 + len(unfit))))
