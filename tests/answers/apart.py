"""Dumps that are taken apart by the program `dump_cases`: what it makes of them.

- Each match and target of the table of options, with each of its options under each name, and each option of a rule: its own words and its
  conditions are those that the table says.
- Lines that are drawn at random, from one match to many, with options of them in any order: in the same way. Then once more, with a second
  dump that is the first after some edits: which of their conditions are one. `--times N` draws N times as many, and `--seed SEED` others.
- Rows of single lines, and of dumps, which are refused: the line, its fault and the word.
- Rows of two dumps.
- Each allocation of a run refused, one in each run: the run ends with status 4, or as without.
"""

import collections

import pytest

from commands import extensions
from tests.drawn.dumps import Writer
from tests.drawn.lots import Lots
from tests.memory.refusing.program import preloaded
from tests.shared.row_files import rows_in
from tests.shared.rows import same

# Rows of files, which say at their top what they are.
LINES = [(line, own, *conditions) for (line,), (own,), conditions in rows_in("answers/taken_apart/lines.rows", "><?")]
DUMPS = [(first + more, due or first + more) for first, more, due in rows_in("answers/taken_apart/dumps.rows", ">|<")]
REFUSED = [(first + more, fault) for first, more, (fault,) in rows_in("answers/taken_apart/refused.rows", ">|!")]
ADDED = [(option, lines, due) for (option,), lines, due in rows_in("answers/taken_apart/added.rows", ">|<")]
PAIRS = [(first + more, *rest) for first, more, *rest in rows_in("answers/taken_apart/pairs.rows", ">|+<=?")]

DRAWN = 3000
# So many lines are in one dump, so many further allocations are refused after the last that counts, and so many are at most.
TOGETHER, FURTHER, MOST = 500, 100, 20000


def quoted(word):
    if word and not any(byte in b' \t"' for byte in word):
        return word
    return b'"' + word.replace(b"\\", b"\\\\").replace(b'"', b'\\"') + b'"'


def rule_line(chain, words):
    return b" ".join([b"-A", *map(quoted, [chain, *words])])


def dump(lines):
    return b"".join(line + b"\n" for line in [b"*filter", *lines, b"COMMIT"])


class Conditions:
    """The numbers of conditions, as they come, of one dump or several, where targets set what some matches ask."""

    def __init__(self, sets):
        self.sets, self.numbers, self.lines = sets, {}, []

    def number(self, condition, chain, rule, counts):
        text = b" ".join(map(quoted, [condition.name, *condition.words]))
        placed = condition.lasting == "place" or condition.lasting == "set" and condition.asks in self.sets
        key = (text, chain, counts[text]) if placed else text
        counts[text] += placed
        if key not in self.numbers:
            self.numbers[key] = len(self.numbers)
            self.lines.append(b"# %d %s: %s" % (self.numbers[key], condition.name, text) + (b" at %s %d" % (chain, rule) if placed else b""))
        return self.numbers[key]


def written(lines):
    """What targets of lines set, but where the next line of the chain ends the walk of each packet."""
    for at, (chain, line) in enumerate(lines):
        behind = next((other for name, other in lines[at + 1 :] if name == chain), None)
        yield from () if behind and behind.ends else line.sets


def printed(lines, conditions):
    """What the program is to print for a dump of lines, each with its chain: their own lines, and what they need."""
    yield from [b"*filter", *(rule_line(chain, line.own) for chain, line in lines), b"COMMIT"]
    for chain in dict.fromkeys(chain for chain, _ in lines):
        counts = collections.Counter()
        for rule, line in enumerate((line for each, line in lines if each == chain), 1):
            needs = [(b"!" if each.inverted else b"") + b"%d" % conditions.number(each, chain, rule, counts) for each in line.conditions]
            if needs:
                yield b" ".join([b"#", chain, b"%d" % rule, *needs])
        for rule, line in enumerate((line for each, line in lines if each == chain), 1):
            if line.verdict:
                yield b" ".join([b"#", chain, b"%d" % rule, b"-j", *map(quoted, line.verdict)])


def due(*dumps):
    """What it is to print for one dump of lines, or two."""
    conditions = Conditions({name for lines in dumps for name in written(lines)})
    texts = [list(printed(lines, conditions)) for lines in dumps]
    return [*texts[0], *(line for text in texts[1:] for line in (b"# next", *text)), *conditions.lines]


def run(program, data, words=(), **variables):
    """The status, and the lines of what the program writes."""
    ended = program.run([*words], input=data, variables=variables)
    return ended.returncode, ended.stdout.splitlines()


def expect(program, *dumps):
    """Compares what the program makes of dumps of lines, each with its chain."""
    data = b"# next\n".join(dump(rule_line(chain, line.words) for chain, line in lines) for lines in dumps)
    status, lines = run(program, data)
    same((0, b"\n".join(due(*dumps))), (status, b"\n".join(lines)))


def each_option(draw):
    """A line for each match and target, and for each name of each of its options and those of a rule."""
    for row in [*extensions.MATCHES.values(), *extensions.TARGETS.values(), extensions.RULE]:
        begun = [option.names[0] for option in row.options if option.names[0] in (b"-m", b"-j", b"-g")]
        for option in [None, *row.options]:
            for name in option.names if option and option.names[0] not in begun else [None]:
                writer = Writer(draw)
                if row.kind == "match":
                    writer.match(row)
                elif row.kind != "rule":
                    writer.target(row)
                if name:
                    writer.add(row, option._replace(names=(name,)), False)
                yield b"each", writer.line()


def drawn(draw):
    writer = Writer(draw)
    for _ in range(draw.choice((1, 2, 3, 5, 8, 13))):
        draw.choice((writer.rule_option, writer.match, writer.option, writer.option, writer.option, writer.option))()
    if draw.random() < 0.7:
        writer.target()
        for _ in range(draw.choice((0, 1, 3))):
            writer.option()
    return draw.choice((b"INPUT", b"FORWARD", b"user", b"a chain")), writer.line()


def edited(draw, lines):
    """The lines of a dump after some were taken out and others put in, some of them twice."""
    kept = [line for line in lines if draw.random() < 0.9]
    for _ in range(len(lines) // 10):
        kept.insert(draw.randrange(len(kept) + 1), draw.choice((drawn(draw), draw.choice(lines))))
    return kept


def test_refusals(dump_cases, proved, folder):
    data, refused = dump(row[0] for row in LINES), preloaded(folder)
    whole, changed, number, last = run(dump_cases, data), 0, 1, 0
    while number < MOST and number - last < FURTHER:
        status, lines = run(dump_cases, data, REFUSED=str(number), **refused)
        assert status == 4 or (number, status, lines) == (number, *whole)
        if status == 4:
            last, changed = number, changed + 1
        number += 1
    assert changed > 100


def asked_by(chain, conditions):
    """What is printed of the conditions of the only rule of a chain."""
    if conditions:
        yield b" ".join([b"#", chain, b"1", *((b"!" if text[:1] == b"!" else b"") + b"%d" % number for number, text in enumerate(conditions))])
    for number, text in enumerate(conditions):
        text = text.lstrip(b"!")
        place = b" at %s 1" % chain if text.endswith(b"@") else b""
        yield b"# %d %s: %s%s" % (number, text.split(b" ")[0].rstrip(b"@"), text.rstrip(b"@"), place)


@pytest.mark.parametrize("row", LINES, ids=lambda row: repr(row[0])[2:60])
def test_line(row, dump_cases):
    given, own, *conditions = row
    chain = own.split(b" ")[1 + (own[:1] == b"[")]
    assert run(dump_cases, dump([given])) == (0, [b"*filter", own, b"COMMIT", *asked_by(chain, conditions)])


@pytest.mark.parametrize("given, due", DUMPS, ids=lambda lines: repr(lines)[2:40])
def test_dump(given, due, dump_cases):
    assert run(dump_cases, b"".join(line + b"\n" for line in given)) == (0, due)


@pytest.mark.parametrize("given, fault", REFUSED, ids=lambda text: repr(text)[2:40])
def test_refused(given, fault, dump_cases):
    assert run(dump_cases, dump(given)) == (1, [b"line %d: %s" % (1 + len(given), fault)])


@pytest.mark.parametrize("option, given, due", ADDED, ids=lambda text: repr(text)[:40])
def test_added(option, given, due, dump_cases):
    assert run(dump_cases, dump(given), [option]) == (0 if due else 2, due)


@pytest.mark.parametrize("first, second, needs, further, conditions", PAIRS, ids=lambda lines: repr(lines)[2:40])
def test_pair(first, second, needs, further, conditions, dump_cases):
    status, lines = run(dump_cases, dump(first) + b"# next\n" + dump(second))
    assert (status, [line for line in lines if line[:2] == b"# "]) == (0, [*needs, b"# next", *further, *conditions])


def test_each_option(dump_cases, seed):
    expect(dump_cases, list(each_option(Lots(seed))))


@pytest.mark.parametrize("at", range(0, DRAWN, TOGETHER))
def test_drawn(at, dump_cases, seed, times):
    """Lines from one on; and the same, with others among them."""
    for number in range(at, DRAWN * times, DRAWN):
        draw = Lots(f"{seed} {number}")
        first = [drawn(draw) for _ in range(TOGETHER)]
        expect(dump_cases, first)
        expect(dump_cases, first, edited(draw, first))
