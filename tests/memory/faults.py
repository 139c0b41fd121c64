"""The cases of crates/cases/data on iptsim with each allocation of a case refused in turn, one in each run: what it writes and its status beside the
plain model of tests/model, to the byte.

tests/memory/refusing/refuse.c is preloaded into the program; or it is one that `tools/refusing iptsim 123456789 PROGRAM session` built without a proof,
in which the number stands, and each run has another in its place.

A case is played as the lines of one session; restores with their options stand among them. From the program's output comes the line
that was refused memory, `line K: M0 no memory`; the model is told to refuse memory in line K, and says what all lines are answered by
then: a refused line changes nothing, in a restore it ends the restore, and in a line that takes no memory none can be refused.
After the lines of a case come, in the same run, `lines` of each chain; line K once more, with its whole restore where it stands in one; and
what shows the table: `iptables -S`, `lines` of each chain, and `-F` and `-X` of each. So half an edit that is kept shows, and so does a line that is
refused again. A case whose last run is a restore is also played by `restore`, and one that restores first by `--load`.

A run in which memory is refused before any line is served writes nothing but `iptsim: no memory`, with status 4, or it does without.
Once lines are served none does without the memory that it takes, but in large tables. In the first run of a case none is refused,
and of the case as it stands in its file the model gives the output and the status that stand there.

Lines that promise to take no memory but that of their words take it as often as a line of as many words and bytes that asks for
nothing: in a small table and in a larger one. Blank lines, comments and lines that are too long take none.

The gate plays cases in which each kind of line, command, option, match, target and fault comes twice at least, if it comes
in two cases of 200 lines at most: the same each time. With `--refuse all` all are played; of a longer case it isn't each allocation that is refused, but
one of so many that some 40 runs are made, and each of its last command; of its table is shown what `-S` lists. With `--refuse none` all are
played, and no allocation is refused. `--cases WORD` plays the cases whose file or name has the word, and the frugal lines that have it. It doesn't
refuse two allocations in one run, nor those of words that name no task, which tests/memory/starved does.
"""

import collections
import functools
import math
import os
import re

import pytest

from tests.memory.refusing.program import BUILT_FOR, RefusingProgram
from tests.model.session import answer
from tests.model.words import lines_of
from tests.shared.case_files import DATA, all_cases
from tests.shared.played import Play, Told, chosen, model_differs, plays_of, size_of, statements

PARTS = 16
# Which cases are chosen: each kind of line comes in so many, of so many bytes and of LONG lines at most.
LEAST, MOST, LONG = 2, 25_000, 200
# A case of so many lines has each allocation refused. A longer one is played so often, and one that is longer than LONG so often.
WHOLE, RUNS, RUNS_OF_LONG = 60, 200, 40
MOST_OF_A_LINE = 1000
REFUSED = re.compile(rb"^line ([0-9]+): M0 no memory$", re.MULTILINE)
BEFORE_ANY_LINE = b"", b"iptsim: no memory\n", 4
# So many runs in which nothing is refused end the runs of a case that can't show by its output that it is over.
UNREFUSED = 8

# Lines that take the memory of their words alone, or of their words and a rule, each beside another that takes as much and asks
# nothing of the table: edits that take memory back or need none, rules that bring no new cut where there is room, listings, and the
# opening of a restore, packets that no rule matches. They come after so many rules of INPUT, each with cuts of its own, and two user
# chains, of which `b` is named.
FRUGAL = [
    (b"iptables -D INPUT 1", b"iptabels -D INPUT 1"),
    (b"iptables -D INPUT 9", b"iptabels -D INPUT 9"),
    (b"iptables -D INPUT -s 1.1.1.1 -j DROP", b"iptables -D INPUX -s 1.1.1.1 -j DROP"),
    (b"iptables -C INPUT -s 1.1.1.1 -j DROP", b"iptables -C INPUX -s 1.1.1.1 -j DROP"),
    (b"iptables -A INPUT", b"iptables -A INPUX"),
    (b"iptables -A INPUT -s 1.1.1.1 -j DROP", b"iptables -A INPUX -s 1.1.1.1 -j DROP"),
    (b"iptables -I INPUT -s 1.1.1.1 -j a", b"iptables -I INPUX -s 1.1.1.1 -j a"),
    (b"iptables -R INPUT 1", b"iptables -R INPUX 1"),
    (b"iptables -F INPUT", b"iptabels -F INPUT"),
    (b"iptables -F", b"iptabels -F"),
    (b"iptables -P INPUT DROP", b"iptabels -P INPUT DROP"),
    (b"iptables -X a", b"iptabels -X a"),
    (b"iptables -X b", b"iptabels -X b"),
    (b"iptables -X", b"iptabels -X"),
    (b"iptables -E b c", b"iptabels -E b c"),
    (b"iptables -S", b"iptabels -S"),
    (b"iptables -S INPUT", b"iptabels -S INPUT"),
    (b"iptables-save", b"iptables-savy"),
    (b"iptables-restore <<E", b"iptables-restorf <<E"),
    (b"lines INPUT", b"linex INPUT"),
    (b"packet INPUT src=1.1.1.1 dst=1.1.1.1", b"packed INPUT src=1.1.1.1 dst=1.1.1.1"),
    (b"packet INPUT src=9.1.1.1 dst=1.1.1.1 proto=47", b"packed INPUT src=9.1.1.1 dst=1.1.1.1 proto=47"),
]
# After the more of them each row of the chain has room for 64 bits.
RULES_BEFORE = 1, 192

# Lines that take no memory at all.
TAKE_NONE = b"", b" \t", b"# x", b"x" * 10_241, b"#" * 10_241

# A table with rules of each match and target, their options and inversions, which a restore copies: in the cases most tables that are
# copied have few rules. The interfaces of FORWARD share a cut. The rule that is put in the place of another takes memory for its
# ports after a cut of them.
COPIED = Play("a table with all kinds of rules, copied", ("session",), rb"""iptables -N a
iptables -N b
iptables -A INPUT ! -s 10.0.0.0/8 -i eth+ -p tcp -m tcp --dport 22:80 --tcp-flags SYN,ACK SYN -j a
iptables -A a -p icmp -m icmp ! --icmp-type 8/0 -m comment --comment "it's a \"comment\"" -j REJECT --reject-with icmp-net-unreachable
iptables -A a -p udp -m multiport ! --ports 5,7:9,1 -m ttl --ttl-lt 5 -j LOG --log-prefix "a b" --log-level 7 --log-uid
iptables -A a -m iprange ! --src-range 1.1.1.1-2.2.2.2 -m conntrack --ctstate NEW,DNAT -m state ! --state NEW -g b
iptables -A FORWARD -i eth+
iptables -A FORWARD -i eti+ -f
iptables -A FORWARD -i lo -j b
iptables -R FORWARD 3 -i lo+ -p udp -m multiport --dports 1,3 -g a
iptables-restore -n <<END
*filter
-A b ! -f -j RETURN
COMMIT
END
iptables-save
""", None)
# The last rule takes memory for wider rows, of which some aren't kept by a part: the packet is looked up in one of these.
WIDENED = Play("rows are widened twice", ("session",), b"iptables -A INPUT -p tcp\niptables -A INPUT -p udp\n" * 256 + b"""iptables -A INPUT -p tcp
packet INPUT src=1.1.1.1 dst=1.1.1.1 proto=17 sport=1 dport=1
""", None)

# Ends a test whose run isn't as is due, and says how, without the way to it.
differs = functools.partial(pytest.fail, pytrace=False)


class SessionLines:
    """A case as lines of one session: the input where one of them is refused, with what is due."""

    def __init__(self, play):
        self.words, self.file, self.lines = play.words, None, lines_of(play.data)
        self.statements = statements(self.lines)
        # A refused line after these is none of the case. Nothing may be refused though lines are served in large tables: there a row is moved where
        # there is no memory for more room.
        self.end, self.may_be_over = len(self.lines), len(self.lines) > LONG

    def given(self, again):
        """The input in which line `again` is refused, with what is due; after its lines comes this line, if it is a number, and what shows the table."""
        told = Told({again})
        told.say(self.lines)
        told.close()
        if again:
            told.show_lines(len(self.lines) > LONG)
            told.say(self.statements[again - 1])
            told.close()
        told.show(len(self.lines) > LONG)
        return told.data(), told.due()

    def due(self, data, line):
        """What is due of such an input where any line is refused, or none."""
        told = Told({line})
        told.say(lines_of(data))
        return told.due()


class WholeInput:
    """A case as the program's own restore, or with a file that is loaded."""

    def __init__(self, play):
        self.words, self.file, self.data, self.lines = play.words, play.file, play.data, lines_of(play.data + (play.file or b""))
        # (after its last allocation nothing is refused any more)
        self.end, self.may_be_over = math.inf, True

    def given(self, again):
        return self.data, self.due(self.data, again)

    def due(self, data, line):
        """The refused line is one of the input, or of the file if its number is below zero."""
        marks = () if line is None else ({line}, {-line})
        return answer(self.words, data, self.file, *marks)


class Refusals:
    """The runs of one case, each with another allocation refused, from the first on that is taken after the program's start."""

    def __init__(self, program, play, first):
        self.program, self.name, self.first = program, play.name, first
        self.played = SessionLines(play) if play.words == ("session",) and play.file is None else WholeInput(play)
        self.refused, self.without, self.unrefused = collections.Counter(), 0, 0
        self.give(None)

    def give(self, line):
        self.last, (self.data, due) = line, self.played.given(line)
        self.dues = {line: due}

    def due(self, line):
        """What is due where this line is refused, or none."""
        if line not in self.dues:
            self.dues[line] = self.played.due(self.data, line)
        return self.dues[line]

    def run(self):
        """What came of the input, and the line that it says was refused: below zero where it was one of the file."""
        came = self.program.run(self.played.words, self.data, self.played.file)
        for output, sign in ((came[0], 1), (came[1], -1)):
            found = REFUSED.search(output)
            if found:
                return came, sign * int(found[1])
        return came, None

    def compare(self, number, came, line):
        if came != self.due(line):
            differs(self.told(number, came, self.due(line)))

    def told(self, number, came, due):
        refused = f"allocation {number} refused" if number else "no allocation refused"
        parts = [f"faults: {self.name}: {refused}, {' '.join(self.played.words)}"]
        for head, each in (("input", self.data), ("what came", came[0] + came[1]), ("what is due", due[0] + due[1])):
            parts += [f"== {head}"] + ["  " + repr(line)[2:-1][:400] for line in each.split(b"\n")]
        return "\n".join([*parts, f"== statuses: {came[2]} came, {due[2]} is due"])

    def refuse(self, number):
        """A run with an allocation refused. Whether the case is over. Each line takes memory twice at least, for its words: where it is
        refused again, it comes once more after the others."""
        self.program.refuse(number)
        came, line = self.run()
        if came == BEFORE_ANY_LINE and (self.last is None or self.last < 0):
            return False
        self.compare(number, came, line)
        if line is not None and line > self.played.end:
            return True
        self.count(number, line)
        if line is not None and line != self.last:
            self.give(line)
        return self.unrefused >= (UNREFUSED if self.refused else 10 * UNREFUSED)

    def count(self, number, line):
        """Counts a run by the line that was refused. Once lines are served, none does without the memory that it takes."""
        if line is not None:
            self.refused[line], self.unrefused = self.refused[line] + 1, 0
        else:
            self.without, self.unrefused = self.without + 1, self.unrefused + 1
            if self.last is not None and not self.played.may_be_over:
                differs(f"faults: {self.name}: allocation {number} refused, {' '.join(self.played.words)}: a line takes memory, and goes "
                        f"on without it: line {self.last} or a later one")

    def is_before(self, line, number):
        """Whether an allocation is taken before a line of the input."""
        self.program.refuse(number)
        came, refused = self.run()
        return came == BEFORE_ANY_LINE or refused is not None and refused < line

    def in_line(self, line):
        """A run with each allocation of a line refused."""
        self.give(line)
        number = first_not(functools.partial(self.is_before, line))
        while self.last == line and not self.refuse(number):
            number += 1

    def none(self):
        self.program.refuse(BUILT_FOR)
        came, line = self.run()
        self.compare(None, came, line)

    def all(self):
        self.none()
        # Every how-manieth allocation is refused.
        number, lines = self.first, len(self.played.lines)
        step = 1 if lines <= WHOLE else max(1, 10 * lines // (RUNS if lines <= LONG else RUNS_OF_LONG))
        while not self.refuse(number):
            if self.last is None:
                self.first = number
            number += step
        commands = [at for at, line in enumerate(self.played.lines, 1) if line.startswith(b"iptables -")]
        if step > 1 and commands and self.played.end < math.inf:
            self.in_line(commands[-1])
        if not self.refused and any(self.played.due(self.data, number) != self.due(None) for number in range(1, len(self.played.lines) + 1)):
            differs(f"faults: {self.name}: no allocation was refused")


def first_not(holds):
    """The first number for which something doesn't hold that does for all before it, by halves."""
    below, number = 0, 64
    while holds(number):
        below, number = number, 2 * number
    while number - below > 1:
        middle = (below + number) // 2
        below, number = (middle, number) if holds(middle) else (below, middle)
    return number


def play_all(path, plays, refuse):
    """The runs of some cases, without a refusal or with each. The program's start takes memory as often for all cases with the same words that load no
    file: of all but the first its allocations are left out."""
    program, firsts = RefusingProgram(path), {}
    for play in plays:
        runs = Refusals(program, play, firsts.get(play.words, 1) if play.file is None else 1)
        if refuse == "none":
            runs.none()
            continue
        if firsts and play.file is None and play.words not in firsts:
            # (the last allocation of the program's start comes first)
            runs.first = max(1, first_not(functools.partial(runs.is_before, 1)) - 1)
        runs.all()
        if play.file is None:
            firsts[play.words] = runs.first


@functools.cache
class Frugal:
    """How often lines take memory after others, so many rules among them; made once for each program and number."""

    def __init__(self, path, rules):
        self.program, self.rules = RefusingProgram(path), rules
        self.before = [b"iptables -N a", b"iptables -N b", b"iptables -A FORWARD -j b"]
        self.before += [b"iptables -A INPUT -s 1.1.1.%d -j DROP" % number for number in range(1, rules + 1)]
        self.place = len(self.before) + 1
        # The first allocation that isn't taken before the line: of a late one nothing is refused.
        self.first = first_not(lambda number: self.refused_line(number, b"x") in range(self.place))

    def refused_line(self, number, line):
        """The line that is refused, if one is: 0 where none was served."""
        self.program.refuse(number)
        output, _, _ = self.program.run(("session",), b"\n".join([*self.before, line, b"iptables -S", b""]))
        found = REFUSED.search(output)
        return int(found[1]) if found else None if output else 0

    def count(self, line):
        """How often a line that comes after them takes memory, whether it says so where that is refused or not."""
        for count in range(MOST_OF_A_LINE):
            refused = self.refused_line(self.first + count, line)
            if refused is not None and refused > self.place:
                return count
        differs(f"faults: after {self.rules} rules `{line.decode()}` takes memory {MOST_OF_A_LINE} times and more")


@functools.cache
def plays(words, refuse):
    lines, size = (LONG, MOST) if refuse == "some" and not words else (None, None)
    cases = [case for case in all_cases(words, lines) if size is None or size_of(case) <= size]
    found = [play for case in cases for play in plays_of(case)]
    more = [play for play in (COPIED, WIDENED) if not words or any(word in play.name for word in words)]
    return more + (chosen(found, LEAST) if refuse == "some" and not words else found)


@pytest.mark.parametrize("file", sorted(name for name in os.listdir(DATA) if name.endswith(".cases")))
def test_model(file):
    """The model answers the cases as their file says."""
    assert [(case.name, run.kind) for case in all_cases([file]) for run in [model_differs(case)] if run] == []


@pytest.mark.parametrize("part", range(PARTS))
def test_refused(part, iptsim, cases, refuse):
    play_all(iptsim.path, plays(cases, refuse)[part::PARTS], refuse)


@pytest.mark.parametrize("rules", RULES_BEFORE)
@pytest.mark.parametrize("lines", [*FRUGAL, *TAKE_NONE], ids=lambda lines: repr(lines if isinstance(lines, bytes) else lines[0])[2:50])
def test_frugal(lines, rules, iptsim, cases, refuse):
    """How often a frugal line takes memory, in a small table and in a larger one."""
    line, other = (lines, None) if isinstance(lines, bytes) else lines
    if refuse == "none" or cases and not any(word.encode() in line for word in cases):
        pytest.skip("others are asked for")
    frugal = Frugal(iptsim.path, rules)
    taken, due = frugal.count(line), frugal.count(other) if other else 0
    if taken != due or other and not due:
        asked = f"and `{other.decode()}` {due} times" if other else "and needs none"
        differs(f"faults: after {rules} rules a line of {len(line)} bytes takes memory {taken} times, {asked}: {line[:80]!r}")
