"""Short cases of crates/cases/data on iptsim, over input that is cut at each byte and over devices that fail: what it writes and its status beside the
plain model of tests/model, to the byte.

Of each case, as a session and as a restore by itself:

- the input ends after each of its bytes;
- it comes in two parts, cut at each byte, line by line, and byte by byte. Each write is noted: replies are handed on before the reader is asked for
  more than it showed, at the end, and else never;
- a read fails after each byte: what was written is the output of the lines that a newline ended, nothing is done at the end, and the
  status is 1, unless the run ended before;
- the output takes only so many bytes, for each number of bytes: what was written is just these, the status is 1, and what comes after
  the lines of the failed reply is left unread, where they come line by line, or in pieces. /dev/full and a closed output are such devices.

Then each case, but for those of more than 3,000 bytes, is damaged at some places: a byte is left out, doubled, or another in its place, as
a fixed seed draws it. Eight damaged sessions after one another make an input.

The short cases are those in which each kind of line and each command comes once, as far as they do in cases of 140 bytes at most.
`--cases WORD` takes the cases whose file or name has the word; `--quick` cuts at every seventh byte, and damages every seventh case, up to a damaged
session with a long walk. How a reader or writer is called otherwise, as one that is interrupted, `devices` shows.
"""

import functools
import re

import pytest

from tests.devices.odd_devices import Devices
from tests.drawn.lots import Lots
from tests.model import printing
from tests.model.faults import Fault
from tests.model.restore import Restore
from tests.model.session import Session, answer, whole
from tests.model.words import lines_of
from tests.shared.case_files import all_cases
from tests.shared.played import Told, chosen, coarse_kinds_of, plays_of, size_of

# How many bytes cases have that are cut, and that are damaged; how many damaged ones make an input; of how many bytes parts are.
SHORT, LONG, DAMAGED, PIECE = 140, 3000, 8, 7
# Where the program is slow, of so many cuts one is made, of so many cases one is damaged, and a walk of more steps is the last.
STRIDE, STEPS = 7, 1000
PARTS = 8
INPUT_FAILED, OUTPUT_FAILED = b"iptsim: input failed\n", b"iptsim: output failed\n"
# Bytes that separate words and lines, or begin them, or none of these.
SIGNS = b"\n\n\n -!#*:<\"\\\t,0z\x00\xff"


def compare(about, play, data, came, due):
    if came != due:
        texts = [f"cut: {play.name}: {about}, {' '.join(play.words)}", "== input"]
        texts += ["  " + repr(line)[2:-1][:400] for line in data.split(b"\n")]
        pytest.fail("\n".join([*texts, f"== what came\n  {came}", f"== what is due\n  {due}"]), pytrace=False)


class Reading:
    """What the model says of a run that reads bytes as they come."""

    def __init__(self, words):
        self.model, self.is_session = Session(), words[0] == "session"
        self.test, self.status, self.rest = "--test" in words, 0, b""
        if not self.is_session:
            self.model.restore = Restore(self.model.table, "--noflush" in words, self.test)

    def has_ended(self):
        """A restore by itself ends at its fault."""
        return not self.is_session and self.model.has_failed

    def take(self, data):
        """The replies to the lines that these bytes end."""
        *lines, self.rest = (self.rest + data).split(b"\n")
        return b"".join(self.line(line) for line in lines)

    def line(self, line):
        return b"" if self.has_ended() else whole(self.model.line(line))

    def end(self):
        """What is written at the end of the input: the reply to a last line without a newline among it."""
        last = self.line(self.rest) if self.rest else b""
        if self.has_ended():
            return last
        if self.is_session:
            return last + whole(self.model.finish())
        try:
            self.model.restore.finish()
        except Fault as fault:
            return last + whole(self.model.fault(fault))
        return last + (b"" if self.test else whole(printing.listing(self.model.table)))


def in_parts_due(words, parts):
    """The writes of a run whose input comes in parts, and the rest."""
    reading = Reading(words)
    writes = [reading.take(part) for part in parts]
    writes.append(reading.end())
    return [each for each in writes if each], b"", reading.model.status


def cut_due(words, data):
    """What is due where a read fails after these bytes."""
    reading = Reading(words)
    output = reading.take(data)
    return (output, b"", reading.model.status) if reading.has_ended() else (output, INPUT_FAILED, 1)


def written_due(words, parts, most):
    """What is due where the output takes so many bytes, on an input that comes in parts. A write that fails leaves the parts after that
    which it replies to."""
    reading, output = Reading(words), b""
    for number, part in enumerate(parts, 1):
        output += reading.take(part)
        if len(output) > most:
            return output[:most], OUTPUT_FAILED, 1, len(parts) - number
        if reading.has_ended():
            return output, b"", reading.model.status, len(parts) - number
    output += reading.end()
    return (output[:most], OUTPUT_FAILED, 1, 0) if len(output) > most else (output, b"", reading.model.status, 0)


def cut_input(devices, play, stride):
    words, data = play.words, play.data
    for count in range(0, len(data), stride):
        head, tail = data[:count], data[count:]
        compare(f"the first {count} bytes", play, head, devices.run(words, input=head), answer(words, head))
        compare(f"a read fails after {count} bytes", play, head, devices.read_fails(words, head), cut_due(words, head))
        parts = [part for part in (head, tail) if part]
        compare(f"in two parts, of {count} bytes and the others", play, data, devices.in_parts(words, parts), in_parts_due(words, parts))


def cut_output(devices, play, stride):
    words, data = play.words, play.data
    lines = re.findall(rb"[^\n]*\n|[^\n]+", data)
    for about, parts in (("line by line", lines), ("byte by byte", [data[at : at + 1] for at in range(len(data))])):
        compare(about, play, data, devices.in_parts(words, parts), in_parts_due(words, parts))
    output, errors, status = answer(words, data)
    pieces = [data[at : at + PIECE] for at in range(0, len(data), PIECE)]
    for most in range(0, len(output) + 1, stride):
        parts = pieces if most % 2 else lines
        compare(f"an output of {most} bytes", play, data, devices.write_fails(words, parts, most), written_due(words, parts, most))
    due = (OUTPUT_FAILED, 1) if output else (errors, status)
    compare("an output that is full", play, data, devices.never_written(words, data, "/dev/full"), due)
    compare("an output that is closed", play, data, devices.never_written(words, data, None), due)


def damaged(dice, data):
    """The same bytes but for one."""
    at = dice.randrange(len(data)) if data else 0
    kept = dice.choice((b"", data[at : at + 1] * 2, bytes([dice.choice(SIGNS)]), bytes([dice.randrange(256)])))
    return data[:at] + kept + data[at + 1 :]


def damage(devices, play, dice, is_slow):
    """Damaged sessions one after another, each on the table that the one before left, but for its rules and chains. Where the program is slow, one with
    a long walk is the last."""
    told = Told()
    for _ in range(DAMAGED):
        told.say(lines_of(damaged(dice, play.data)))
        told.close()
        told.show()
        if is_slow and any(len(trail) > STEPS or verdict == b"TOOLONG" for trail, verdict in told.model.walks):
            break
    compare(f"damaged at {DAMAGED} places", play, told.data(), devices.run(play.words, input=told.data()), told.due())


@functools.lru_cache(maxsize=None)
def plays(words):
    """The cases that are short enough to be cut, and the sessions that are damaged."""
    found = [play for case in all_cases(words, LONG) if size_of(case) <= LONG for play in plays_of(case) if play.file is None]
    short = [play for play in found if len(play.data) <= SHORT]
    return short if words else chosen(short, 1, coarse_kinds_of), [play for play in found if play.words == ("session",)]


@pytest.fixture(scope="module")
def stride(pytestconfig):
    return STRIDE if pytestconfig.getoption("quick") else 1


@pytest.mark.parametrize("part", range(PARTS))
def test_cut(part, iptsim, cases, stride):
    devices = Devices(iptsim.path)
    for play in plays(cases)[0][part::PARTS]:
        cut_input(devices, play, stride)
        cut_output(devices, play, stride)


@pytest.mark.parametrize("part", range(PARTS))
def test_damaged(part, iptsim, cases, seed, stride):
    devices = Devices(iptsim.path)
    for play in plays(cases)[1][part::PARTS][::stride]:
        damage(devices, play, Lots(f"{seed} {play.name}"), stride > 1)
