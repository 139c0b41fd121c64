"""Sessions and restores that are drawn at random, some of them after a file that is loaded, given to iptsim and to the plain model of tests/model: what
they write and their statuses are the same, to the byte.

The run of the gate is some 100,000 lines; there each kind of answer that DUE names has to come often enough, or the run shows less than it says.
`--times N` draws N times as many, and `--seed SEED` others.

Of an input whose answers differ a test shows the few lines that still do, as hypothesis finds them, with its file, both answers and the seed.
"""

import collections
import itertools
import sys

import pytest

from tests import ROOT
from tests.drawn.sessions.inputs import LIMITS, drawn_input, limit_input
from tests.model.faults import TEXTS
from tests.model.session import answer as due
from tests.shared.rows import Command

try:
    import hypothesis
    from hypothesis import strategies
except ImportError:
    hypothesis = None

# With those that come to the limits, so many inputs of the gate's seed have some more than so many lines.
INPUTS, LINES, PARTS, LEAST = 1088, 100_000, 16, 20
VERDICTS = ("ACCEPT by rule", "DROP by rule", "REJECT by rule", "ACCEPT by policy", "DROP by policy")
STEPS = ("jump", "goto", "RETURN", "end of a chain", "LOG", "no target", "RETURN in a built-in chain", "end after a goto")
# Each has to come LEAST times in the run of the gate.
FILES = ("a file", "a file of two sections", "a fault in a file")
DUE = (*TEXTS, *VERDICTS, *STEPS, *FILES)
# How many cases are drawn to find one that fails, and of how many pieces one has. With more pieces hypothesis is slow.
TRIED, PIECES = 500, 200


def smallest(parts, fails):
    """As few of the parts of a case that fails as still do, as far as hypothesis finds them."""
    if not hypothesis:
        return parts
    size = len(parts) // PIECES + 1
    pieces = [parts[at : at + size] for at in range(0, len(parts), size)]
    # Some of the pieces in their order are drawn, mostly nearly all; what is simpler has fewer.
    numbers = strategies.lists(strategies.integers(0, 255), min_size=len(pieces), max_size=len(pieces))
    some = numbers.map(lambda drawn: list(itertools.chain.from_iterable(itertools.compress(pieces, drawn))))
    settings = hypothesis.settings(max_examples=TRIED, database=None, deadline=None, derandomize=True)
    try:
        fewer = hypothesis.find(some, fails, settings=settings)
    except hypothesis.errors.NoSuchExample:
        return parts
    return smallest(fewer, fails) if size > 1 and len(fewer) < len(parts) else fewer


def answer(program, words, data, file):
    """The program's output, what it writes to standard error, and its status. A signal that ended it is a status below zero."""
    words = words if file is None else [*words, "--load", "file"]
    ended = program.run(words, {} if file is None else {"file": file}, data)
    return ended.stdout, ended.stderr, ended.returncode


def answers(program, words, lines, file):
    """What the program answers to an input of these lines, after a file of these, and what is due."""
    data, load = b"\n".join(lines), None if file is None else b"\n".join(file)
    return answer(program, words, data, load), due(words, data, load)


def difference(program, name, each):
    """What is told of an input whose answers differ: a small one that does, with its file, and both answers."""
    def differs(lines, file):
        came, wanted = answers(program, each.words, lines, file)
        return came != wanted

    file = each.file and each.file.split(b"\n")
    lines = smallest(each.data.split(b"\n"), lambda fewer: differs(fewer, file))
    file = file and smallest(file, lambda fewer: differs(lines, fewer))
    came, wanted = answers(program, each.words, lines, file)
    told = [f"the program and the model differ on an input of the seed {name}: {' '.join(each.words)}"]
    texts = {"the file": file or [], "input": lines, "the program": (came[0] + came[1]).split(b"\n"), "the model": (wanted[0] + wanted[1]).split(b"\n")}
    for head, text in texts.items():
        told += [f"== {head}", *("  " + repr(line)[2:-1] for line in text)]
    return "\n".join([*told, f"== statuses: {came[2]} of the program, {wanted[2]} of the model"])


def counted(program, name, each):
    """Compares the answers to an input: how often each kind came, and how many lines there were."""
    if answer(program, each.words, each.data, each.file) != each.due:
        pytest.fail(difference(program, name, each), pytrace=False)
    return {**each.counts, "lines": each.data.count(b"\n")}


@pytest.mark.parametrize("name", LIMITS)
def test_limit(name, iptsim, seed, sum_up):
    expect_often(seed, sum_up("compare", PARTS + len(LIMITS), counted(iptsim, name, limit_input(f"{seed} {name}"))))


@pytest.mark.parametrize("part", range(PARTS))
def test_drawn(part, iptsim, seed, times, sum_up):
    counts = collections.Counter()
    for number in range(1 + part, 1 + INPUTS * times, PARTS):
        name = f"{seed} {number}"
        counts.update(counted(iptsim, name, drawn_input(name)))
    expect_often(seed, sum_up("compare", PARTS + len(LIMITS), counts))


def expect_often(seed, counts):
    """Whether all parts of the gate's run, where they have ended, had each kind of answer often enough."""
    if counts and seed == "1":
        assert counts["lines"] >= LINES and {kind: counts[kind] for kind in DUE if counts[kind] < LEAST} == {}


@pytest.mark.parametrize("number", range(50, INPUTS, 50))
def test_plain(number, seed):
    """tests/model/plain answers as its modules do."""
    name = f"{seed} {number}"
    each, plain = drawn_input(name), Command(sys.executable, PYTHONPATH=ROOT)
    assert answer(plain, ["-m", "tests.model.plain", *each.words], each.data, each.file) == each.due
