"""bin/explain on rows of rulesets and packets: what it writes and its status, to the byte."""

import os
import re

from tests.commands import LONG_WALK
from tests.shared.row_files import rows_in
from tests.shared.run_files import runs_in
from tests.shared.rows import Row, each, script, section

RUNS = runs_in("commands/explain.runs")
DUMP = RUNS[0].files["R"]
# Packets, and the lines of their walks: those that begin with four blanks are there with --why-not alone.
WALKS = [(packet, b"".join(line + b"\n" for line in lines)) for (packet,), lines in rows_in("commands/walks.rows", "><")]
LOCAL, GRE = (packet for packet, _ in WALKS[:2])
NOTE = b"  note: a packet without ct is INVALID, and %s tests states\n"

# Packets, each with rules of FORWARD that don't match it, and with what is said of why.
FAILING = {packet: list(zip(rules, whys)) for (packet,), rules, whys in rows_in("commands/failing.rows", "@>!")}


def walk_rows():
    """Packets as words and on standard input, with all that they came to and without."""
    for packet, walk in WALKS:
        for word in (packet, b"packet  " + packet, b"\t" + packet + b" \r"):
            shown = word.strip() if word.startswith(b"packet") else b"packet " + packet
            yield Row("why not", ["R", "--why-not", word], {"R": DUMP}, shown + b"\n" + walk, 0)
    packets, whole = [packet for packet, _ in WALKS], [b"packet %s\n%s" % pair for pair in WALKS]
    matched = [re.sub(rb"(?m)^    .*\n", b"", text) for text in whole]
    yield Row("words before and after an option", ["R", packets[0], "--why-not", *packets[1:]], {"R": DUMP}, b"\n".join(whole), 0)
    yield Row("words after `--`", ["R", "--why-not", "--", GRE], {"R": DUMP}, whole[1], 0)
    yield Row("several words", ["R", *packets], {"R": DUMP}, b"\n".join(matched), 0)
    yield Row("lines of standard input", ["R"], {"R": DUMP}, b"\n".join(matched), 0, input=b"# All\n\n" + b"\r\n".join(packets))
    yield Row("words, and standard input that is left alone", ["--", "-R", LOCAL], {"-R": DUMP}, matched[0], 0, input=b"x")
    yield Row("the ruleset on standard input", ["-", LOCAL], {}, matched[0], 0, input=DUMP)
    yield Row("two lines in one word", ["R", LOCAL + b"\n\n#\n" + GRE], {"R": DUMP}, b"\n".join(matched[:2]), 0)
    yield Row("a long walk", ["--why-not", "R", LOCAL], {"R": LONG_WALK},
              b"packet " + LOCAL + b"\n  matches more than 65536 rules, which are not listed\n  verdict TOOLONG\n", 0)


def failing_rows():
    """Each condition that a rule can have, and the one of several that is named."""
    for packet, table in FAILING.items():
        dump = section(*(b"-A FORWARD %s -j DROP" % rule for rule, _ in table))
        due = b"".join(b"    not FORWARD %d: %s\n" % (number, why) for number, (_, why) in enumerate(table, 1))
        on_states = [number for number, (rule, _) in enumerate(table, 1) if b"state" in rule]
        note = b"" if b"ct=" in packet or not on_states else NOTE % b"FORWARD %d" % on_states[0]
        yield Row("conditions", ["--why-not", "R", packet], {"R": dump}, b"packet " + packet + b"\n" + due + b"  verdict ACCEPT by policy\n" + note, 0)


OTHER_PROGRAM = r"""#!/bin/sh
echo '-P INPUT ACCEPT
-A INPUT -p tcp -j DROP
INPUT 1
verdict DROP by rule'
echo "line $(wc -l): S1 unknown line"
"""


def program_rows():
    """A program that can't be run, and one that answers otherwise than the model."""
    table = [
        ("no program", ["R"], "/nothing", b"", b"cannot run /nothing: No such file or directory; IPTSIM has to name the program"),
        ("another answer", ["R"], None, b"packet " + GRE + b"\n  INPUT 1: -A INPUT -p tcp -j DROP\n  verdict DROP by rule\n"),
        ("another answer than the model's", ["R", "--why-not"], None, b"", b"the program and the plain model differ on whether INPUT 1 matches"),
    ]
    for about, words, program, output, *whys in table:
        messages = b"".join(b"explain: " + why + b"\n" for why in whys)
        yield Row(about, [*words, GRE], {"R": DUMP}, output, 2 if whys else 0, messages, variables={"IPTSIM": program})


@each(program_rows)
def test_other_program(row, command, folder):
    program = row.variables["IPTSIM"] or script(os.path.join(folder, "program"), OTHER_PROGRAM)
    command("explain").check(row._replace(variables={"IPTSIM": program}))


@each(walk_rows, failing_rows, RUNS)
def test_explain(row, command):
    command("explain").check(row)


def installed_rows():
    """An installed script finds its modules, and messages name it as it was called."""
    yield Row("why not", ["--why-not", "R", GRE], {"R": DUMP}, b"packet %s\n%s" % WALKS[1], 0)
    yield Row("a message", ["R", LOCAL], {"R": b""}, b"", 1, b"iptsim-explain: R has no section *filter that iptsim reads: iptsim-check says why\n")


@each(installed_rows)
def test_installed(row, installed):
    installed("explain").check(row)
