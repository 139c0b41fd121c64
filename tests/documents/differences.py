"""The rows of docs/differences.tsv, which says at its top how a row is read. What stands under `given` is given to the program, and its answer has to be
what stands under `iptsim`. What stands in backquotes under `instead` has to be accepted, and rules there to be listed as they stand. The column
`iptables` is not run.

A row that can't be read is refused, with its line; wrong answers are planted beside the first row of each theme, and malformed rows in
the file: they have to be found, or the check itself is at fault.
"""

import re

import pytest

from tests.shared.differences import COLUMNS, FAULT, Malformed, is_command, read, rows_of, session_line

EMPTY_LISTING = "*filter\n:INPUT ACCEPT [0:0]\n:FORWARD ACCEPT [0:0]\n:OUTPUT ACCEPT [0:0]\nCOMMIT\n"
TOLD = re.compile(r"line ([0-9]+): ([A-Z][0-9]+) .*")
OPTIONS = ("--noflush", "--test")
# Columns that make a row malformed, by what is put in their place.
MALFORMED = (("theme", ""), ("form", "table"), ("given", "-j DROP"), ("given", "`-j DROP"), ("iptsim", ""), ("iptsim", "refused"),
             ("instead", "`-j DROP"), ("iptables", "a\tcolumn too many"))


def run(program, words, lines, end="\n"):
    """The status of a run on these lines, and the lines that it wrote."""
    ended = program.run(words, input=("\n".join(lines) + end).encode(), timeout=60)
    return ended.returncode, ended.stdout.decode(errors="replace").split("\n")[:-1]


def listed(entry):
    """A line of the listing: an entry that is a rule alone stands in INPUT."""
    return entry if entry.startswith((":", "-A ")) else "-A INPUT " + entry


def answer_of(status, written, first):
    """The answer as text: a fault and its line, counted from the first that is given, or what the last listing has that an empty table's doesn't, or
    a reply."""
    faults = [TOLD.fullmatch(line) for line in written]
    if any(faults):
        told = ["%s at line %d" % (fault[2], int(fault[1]) - first) for fault in faults if fault]
        return told if status else ["status 0 with a fault"]
    if status:
        return ["status %d without a fault" % status]
    begin = len(written) - 1 - written[::-1].index("*filter") if "*filter" in written else 0
    return [line for line in written[begin:] if line not in EMPTY_LISTING.split("\n")]


def answer_to_session(program, entries):
    lines = [session_line(entry) for entry in entries]
    is_packet = lines[-1].startswith("packet")
    told = answer_of(*run(program, ["session"], lines if is_packet else [*lines, "iptables-save"]), 0)
    return told[-1:] if is_packet else told


def answer_to_file(program, entries, newline):
    words = ["restore"] + [entry for entry in entries if entry in OPTIONS]
    lines = [entry for entry in entries if entry not in OPTIONS]
    has_section = any(re.match(r'[ "]*\*', line) for line in lines)
    wrapped = lines if has_section else ["*filter"] + lines + ["COMMIT"]
    return answer_of(*run(program, words, wrapped, "\n" if newline else ""), 0 if has_section else 1)


def wanted(row):
    entries, given = row.entries("iptsim"), row.entries("given")
    if any(map(FAULT.fullmatch, entries)):
        lines = [entry for entry in given if entry not in OPTIONS]
        named = re.search(r" at line ([0-9]+)", row.iptsim)
        return ["%s at line %d" % (entries[0], int(named[1]) if named else len(lines))]
    if given[-1].startswith("packet"):
        return entries
    return [listed(entry) for entry in entries]


def trouble_of_instead(program, row):
    """What is wrong with the lines that are to be written in place of the last that is given."""
    before, instead = row.entries("given")[:-1], row.entries("instead")
    got = answer_to_session(program, before + instead)
    if any(re.match(r"[A-Z][0-9]+ at line|status", line) for line in got):
        return "what stands for it is answered by %s" % shown(got)
    are_rules = not before and not any(is_command(entry) and not entry.startswith("-A ") for entry in instead)
    return "what stands for it is listed as %s" % shown(got) if are_rules and got != [listed(entry) for entry in instead] else None


def shown(lines):
    text = " / ".join(lines) or "accepted"
    return text if len(text) < 200 else text[:200] + ".."


def troubles_of(program, row):
    given, due = row.entries("given"), wanted(row)
    got = answer_to_file(program, given, "without a newline" not in row.given) if row.form == "file" else answer_to_session(program, given)
    troubles = [] if got == due else ["%s is answered by %s, and not by %s" % (shown(given), shown(got), shown(due))]
    trouble = trouble_of_instead(program, row) if row.entries("instead") else None
    return troubles + ([shown(given) + ": " + trouble] if trouble else [])


ROWS = rows_of(read())
THEMES = {(row.theme, row.form): row for row in reversed(ROWS)}


def name_of(row):
    return f"line {row.number}: {row.given[:60]}"


@pytest.mark.parametrize("row", ROWS, ids=name_of)
def test_row(row, iptsim):
    assert troubles_of(iptsim, row) == []


@pytest.mark.parametrize("wrong", ["`F4`", "`-A OUTPUT -p 99`"])
@pytest.mark.parametrize("row", THEMES.values(), ids=name_of)
def test_planted(row, wrong, iptsim):
    """A wrong answer in place of the row's own, a fault or a listing, is found."""
    assert troubles_of(iptsim, row._replace(iptsim=wrong))


@pytest.mark.parametrize("column, wrong", MALFORMED)
def test_malformed(column, wrong):
    """A malformed row before the last one of the file is refused."""
    lines = read().split("\n")
    cells = lines[-2].split("\t")
    cells[COLUMNS.index(column)] = wrong
    with pytest.raises(Malformed):
        rows_of("\n".join([*lines[:-2], "\t".join(cells), *lines[-2:]]))
