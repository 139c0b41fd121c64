"""iptaudit on rows of rulesets: what it writes and its status, to the byte. Each packet that it prints is given to iptsim: with both of two rulesets
the walks have to be those that it prints, and their verdicts two; and a packet of a rule has to have the rule on its walk.
"""

import re

import pytest

from tests.programs.audited.rulesets import CHANGED, COUNTS, COVERED, DEAD, LIKE, SAME, STANDINGS, listed, named, office, ruleset
from tests.shared import read
from tests.shared.rows import Row, each, outcome, same

MORE = b"\nFor more information, try '--help'.\n"
DUMP = office("rules")
OFFICE = re.findall(rb"(?m)^-A .*", DUMP.split(b"*filter\n")[1])
DIFFERS = re.compile(rb"(?m)^(\w+) differs\n(packet .*)\nold:\n((?:.*\n)*?)new:\n((?:.*\n)*?)(?=\w+ (?:same|unclear|differs)\n|\d+ changed rules, )")


@pytest.fixture(scope="module")
def edited(iptsim):
    """The ruleset of the office after its edits."""
    return iptsim.said(["session", "--load", "R"], office("edits") + b"iptables-save\n", {"R": DUMP})


def about(rules):
    return b" ; ".join(rules).decode()


def dead_rows():
    """Rules that no packet can match, and why not, and too few steps to know it."""
    mail = b'dead SERVERS 3 -A SERVERS -d 10.0.2.25/32 -p tcp -m tcp --dport 25 -m comment --comment "mail server" -j ACCEPT\n'
    mail += b"  taken by SERVERS 2 (DROP), FORWARD 1 (DROP), FORWARD 2 (DROP), FORWARD 3 (ACCEPT)\n"
    yield Row("the office", ["dead", "R"], {"R": DUMP}, mail + COUNTS % (20, 1, 0) + STANDINGS % (0, 1), 1)
    without = re.sub(rb"(?m)^-A SERVERS .*mail server.*\n", b"", DUMP)
    yield Row("the office, without its dead rule", ["compare", "O", "N"], {"O": DUMP, "N": without}, SAME + CHANGED % (1, 1, 0), 0)
    yield Row("no rules", ["dead", "R"], {"R": b""}, COUNTS % (0, 0, 0), 0)
    for policy, rules, dead, standings in DEAD:
        names = named(rules)
        lines = b"".join(b"dead %s %s\n%s" % (name, names[name], b"  %s\n" % reason if reason else b"") for name, reason in dead.items())
        counts = COUNTS % (len(rules), len(dead), 0) + (standings if dead else b"")
        yield Row(about(rules), ["dead", "R"], {"R": ruleset(policy, rules)}, lines + counts, 1 if dead else 0)
        # Without these rules each packet gets the same verdict, and just these rules changed.
        files = {"O": ruleset(policy, rules), "N": ruleset(policy, [rule for name, rule in names.items() if name not in dead])}
        yield Row(about(rules) + ", without those", ["compare", "O", "N"], files, SAME + CHANGED % (len(dead), len(dead), 0), 0)
    rules = [b"-A INPUT -p %d -j DROP" % number for number in range(101, 111)]
    yield Row("rules that share no packet are passed at once", ["dead", "--steps", "1", "R"], {"R": ruleset(b"DROP", rules)}, COUNTS % (10, 0, 0), 0)
    # Each packet goes through each rule, and comes to the last one with as many steps.
    files, late = {"R": ruleset(b"DROP", [b"-A INPUT -j LOG"] * 10)}, [b"unclear INPUT %d -A INPUT -j LOG\n" % number for number in range(2, 11)]
    yield Row("a step for each rule", ["dead", "--steps", "10", "R"], files, COUNTS % (10, 0, 0), 0)
    yield Row("a step less", ["dead", "--steps", "9", "R"], files, late[-1] + COUNTS % (10, 0, 1), 3)
    yield Row("one step, for the first rule", ["dead", "--steps", "1", "R"], files, b"".join(late) + COUNTS % (10, 0, 9), 3)
    # Boxes of packets don't get past these hosts within the steps, and a packet does.
    hosts = [b"-A INPUT -s %d.%d.0.1/32 -j DROP" % divmod(number, 256) for number in range(256, 1670)]
    yield Row("a rule behind a list of hosts", ["dead", "R"], {"R": ruleset(b"DROP", hosts + [b"-A INPUT -p tcp -j ACCEPT"])}, COUNTS % (1415, 0, 0), 0)
    names = named(OFFICE)
    order = [b"INPUT", b"FORWARD", b"OUTPUT", b"OFFICE", b"REFUSE", b"SERVERS"]
    lines = [b"unclear %s %s\n" % (name, rule) for chain in order for name, rule in names.items() if name.split()[0] == chain]
    yield Row("no step", ["dead", "--steps", "0", "R"], {"R": DUMP}, b"".join(lines) + COUNTS % (20, 0, 20), 3)


def test_dead_after_edits(edited, iptaudit):
    iptaudit.check(Row("", ["dead", "R"], {"R": edited}, COUNTS % (20, 0, 0), 0))


def walks(iptsim, data, packets):
    """The rules on the walk of each packet line, by iptsim."""
    output = iptsim.said(["session", "--load", "R"], b"".join(packet + b"\n" for packet in packets), {"R": data})
    return [walk.splitlines() for walk in re.split(rb"(?m)^verdict .*\n", output)[:-1]]


def checked(ended, iptsim, data, sign, status, due):
    """Compares what came of a run, but for the packet after each line that begins with a sign. It is given to iptsim: the rule of that line has to
    be on its walk."""
    found = re.findall(rb"(?m)^" + sign + rb"(\S+ \d+) .*\n(packet .*)\n", ended.stdout)
    came = walks(iptsim, data, [packet for _, packet in found])
    assert len(came) == len(found) and [packet for (name, packet), walk in zip(found, came) if name not in walk] == []
    rest = re.sub(rb"(?m)^(" + sign + rb"\S+ \d+ .*\n)packet .*\n", rb"\1", ended.stdout)
    same((status, due, b""), (ended.returncode, rest, ended.stderr))
    return ended


CASES = [("the office", DUMP, OFFICE, {b"SERVERS 3"}), ("no rules", b"", [], {})]
CASES += [(about(rules), ruleset(policy, rules), rules, dead) for policy, rules, dead, _ in DEAD]


@each(CASES)
def test_tests(row, iptsim, iptaudit):
    """Sessions with a packet for each rule, and of each that has none a comment. What such a session asks covers the rules."""
    _, data, rules, dead = row
    due = b"".join(b"# %s%s %s\n" % (b"dead " if name in dead else b"", name, rule) for name, rule in listed(rules))
    ended = checked(iptaudit.run(["tests", "R"], {"R": data}), iptsim, data, b"# ", 1 if dead else 0, due)
    lines = b"".join(b"dead %s %s\n" % (name, rule) for name, rule in listed(rules) if name in dead)
    counts = COVERED % (len(rules), len(rules) - len(dead), 0, len(dead), 0)
    iptaudit.check(Row("covered", ["cover", "R"], {"R": data}, lines + counts, 0, input=ended.stdout))


PARTED = [b"-A INPUT -p tcp -j a", b"-A INPUT -p udp -j DROP", b"-A INPUT -p udp -j ACCEPT", b"-A a -p tcp -m tcp --dport 22 -j ACCEPT"]
PACKET = b"packet INPUT src=10.0.0.1 dst=10.0.0.2 proto=%s sport=4000 dport=%d\n"
# What is given, and the rules that it leaves out.
GIVEN = [
    ("no packet", b"", [b"INPUT 1", b"INPUT 2", b"a 1"]),
    ("one of a chain", PACKET % (b"tcp", 23), [b"INPUT 2", b"a 1"]),
    ("one of two chains", PACKET % (b"tcp", 22), [b"INPUT 2"]),
    ("all", PACKET % (b"tcp", 22) + PACKET % (b"udp", 22), []),
    ("all, with comments", b"\n# one\n \t\n" + PACKET % (b"tcp", 22) + b"\t# two \"\n  " + PACKET % (b"udp", 22), []),
    ("quotes, and a last line without its end", b'"packet" "INPUT"' + (PACKET % (b"udp", 1))[12:-1], [b"INPUT 1", b"a 1"]),
    ("a packet of another chain", b"packet OUTPUT src=10.0.0.1 dst=10.0.0.2 proto=47\n", [b"INPUT 1", b"INPUT 2", b"a 1"]),
]


@each(GIVEN)
def test_cover(row, iptsim, iptaudit):
    _, given, missed = row
    data, words = ruleset(b"DROP", PARTED), {name: b"missed" for name in missed} | {b"INPUT 3": b"dead"}
    due = b"".join(b"%s %s %s\n" % (words[name], name, rule) for name, rule in listed(PARTED) if name in words)
    due += COVERED % (4, 3 - len(missed), len(missed), 1, 0)
    checked(iptaudit.run(["cover", "R"], {"R": data}, given), iptsim, data, b"missed ", 1 if missed else 0, due)


def test_cover_of_the_office(iptsim, iptaudit):
    packets = re.sub(rb"(?m)^(?!packet ).*\n", b"", office("packets"))
    met = set().union(*walks(iptsim, DUMP, packets.splitlines()))
    missed = [row for row in listed(OFFICE) if row[0] not in met]
    due = b"".join(b"%s %s %s\n" % ((b"dead" if row[0] == b"SERVERS 3" else b"missed",) + row) for row in missed)
    due += COVERED % (20, len(met), len(missed) - 1, 1, 0)
    checked(iptaudit.run(["cover", "R"], {"R": DUMP}, office("packets")), iptsim, DUMP, b"missed ", 1, due)


def test_lines_that_are_no_packets(iptsim, iptaudit):
    """What is said of them is what a session says, and nothing is answered."""
    packet = b"packet INPUT src=10.0.0.1 dst=10.0.0.2 proto=udp sport=1 dport=1"
    given = [b"boom", packet, b"packets INPUT", b"packet", b"packet INPUT colour=red", b"packet INPUT src=10.0.0.1", packet + b" ttl=256",
             packet + b" out=eth0", packet + b' "', b'"', b"# a comment " + b"x" * 10229, b"", packet + b" " * 10240, b"\xff", b'"" x']
    said = iptsim.said(["session"], b"\n".join(line for line in given if line != packet))
    said = re.sub(rb"(?m)^line (\d+):", lambda line: b"line %d:" % (int(line[1]) + (int(line[1]) > 1)), said)
    iptaudit.check(Row("", ["cover", "R"], {"R": ruleset(b"DROP", PARTED)}, b"", 2, said, input=b"\n".join(given)))
    assert said.count(b"\n") == 13


def compared(iptsim, iptaudit, old, new, due, *words):
    """Compares two rulesets: what is said but for packets; returns the whole answer. Each packet is given to iptsim with both rulesets: the walks that
    were printed come, and two verdicts."""
    files = {"O": old, "N": new}
    ended = iptaudit.run(["compare", *words, "O", "N"], files)
    same((1 if b" differs\n" in due else 0, due, b""), (ended.returncode, DIFFERS.sub(rb"\1 differs\n", ended.stdout), ended.stderr))
    for _, packet, *printed in DIFFERS.findall(ended.stdout):
        came = [iptsim.said(["session", "--load", name], packet + b"\n", files) for name in ("O", "N")]
        assert came == printed
        assert len({walk.splitlines()[-1].split(b" by ")[0] for walk in came}) == 2
    return ended.stdout


@pytest.mark.parametrize("row", LIKE, ids=[" / ".join(about(lines) or "no rules" for lines in row[1:4:2]) for row in LIKE])
def test_compare(row, iptsim, iptaudit):
    """Rulesets that are alike, and those that aren't; and how many rules changed."""
    before, old, after, new, word, counts = row
    due = SAME.replace(b"same", *word, 1) + b"%s\n" % counts[0]
    compared(iptsim, iptaudit, ruleset(*before, old), ruleset(*after, new), due)


@pytest.mark.parametrize("is_back, dead", [(False, 0), (True, 1)], ids=["there", "back"])
def test_compare_after_edits(is_back, dead, edited, iptsim, iptaudit):
    """Of two rules that are turned about, the first one of the old ruleset counts as changed, in both: the rule about mail is dead behind the other."""
    old, new = (edited, DUMP) if is_back else (DUMP, edited)
    due = SAME.replace(b"FORWARD same", b"FORWARD differs") + CHANGED % (2, dead, 0)
    packet = DIFFERS.search(compared(iptsim, iptaudit, old, new, due)).group(2)
    assert {b"dst=10.0.2.25", b"dport=25"} < set(packet.split())


@pytest.mark.parametrize("is_back", [False, True], ids=["there", "back"])
@pytest.mark.parametrize("words", [["compare"], ["compare", "--steps", "0"]], ids=" ".join)
def test_compare_with_listing(words, is_back, iptsim, iptaudit):
    """A dump and its listing are the same, also without a step."""
    files = dict(zip("NO" if is_back else "ON", (DUMP, iptsim.said(["restore"], DUMP))))
    iptaudit.check(Row("", [*words, "O", "N"], files, SAME + CHANGED % (0, 0, 0), 0))


def test_compare_in_few_steps(edited, iptsim, iptaudit):
    iptaudit.check(Row("", ["compare", "--steps", "0", "O", "N"], {"O": DUMP, "N": edited}, SAME.replace(b"same", b"unclear") + CHANGED % (2, 0, 2), 3))
    logs, turned = [b"-A INPUT -j LOG"] * 3, [b"-A INPUT -p tcp -j DROP", b"-A INPUT -p udp -j DROP"]
    old, new = ruleset(b"DROP", logs + turned + [b"-A FORWARD -j DROP"]), ruleset(b"DROP", logs + turned[::-1])
    compared(iptsim, iptaudit, old, new, b"INPUT unclear\nFORWARD differs\nOUTPUT same\n" + CHANGED % (3, 0, 2), "--steps", "3")


CANNOT = b"line 2: T11 target chain missing\niptaudit: cannot restore B\n"
MISSING = b"error: the following required arguments were not provided:\n  <%s>\n\nUsage: iptaudit %s\n" + MORE
# Words and files that are refused, and what is said: something else than help, where nothing stands here.
REFUSED = [
    *((words, CANNOT) for words in (["dead", "B"], ["compare", "B", "R"], ["compare", "R", "B"], ["tests", "B"], ["dead", "--json", "B"], ["cover", "B"])),
    *((words, b"iptaudit: cannot open nothing\n") for words in (
        ["dead", "nothing"], ["compare", "R", "nothing"], ["compare", "--json", "R", "nothing"], ["cover", "nothing"])),
    (["dead", "."], b"iptaudit: cannot read .\n"),
    (["reach", "--json", "R", "INPUT"], b"iptaudit: by=FIELD is missing\n"),
    ([], b"iptaudit: no subcommand\n"),
    *(([name], MISSING % (b"FILE", name.encode() + b" <FILE>")) for name in ("dead", "tests", "cover")),
    (["compare", "R"], MISSING % (b"NEW", b"compare <OLD> <NEW>")),
    (["dead", "--steps", "many", "R"], b"iptaudit: no number of steps: many\n"),
    (["cover", "--steps", "1.5", "R"], b"iptaudit: no number of steps: 1.5\n"),
    *((words, None) for words in (
        ["dead", "--steps", "-1", "R"], ["dead", "R", "R"], ["tests", "R", "R"], ["boom"], ["reach", "--when", "limit", "R", "INPUT", "by=dport"],
        ["reach", "--unknown", "colour", "R", "INPUT", "by=dport"], ["--help"])),
    (["dead", b"\xff"], b"iptaudit: a word is not UTF-8\n"),
]


@pytest.mark.parametrize("words, messages", REFUSED, ids=[repr(row[0]) for row in REFUSED])
def test_refused(words, messages, iptaudit):
    ended = iptaudit.run(words, {"R": DUMP, "B": b"*filter\n-A INPUT -j nowhere\nCOMMIT\n"})
    same((2, b"", ended.stderr if messages is None and ended.stderr else messages), outcome(ended))


def other_rows():
    """Too few steps, no rules, and no input; a full device; and the version, which is no fault, and that of the file VERSION."""
    due = b"".join(b"# unclear %s %s\n" % (name, rule) for name, rule in listed(OFFICE))
    yield Row("tests, no step", ["tests", "--steps", "0", "R"], {"R": DUMP}, due, 3)
    clear = b"".join(b"unclear %s %s\n" % row for row in listed(PARTED) if row[0] not in (b"INPUT 1", b"INPUT 2"))
    yield Row("cover, no step", ["cover", "--steps", "0", "R"], {"R": ruleset(b"DROP", PARTED)}, clear + COVERED % (4, 2, 0, 0, 2), 3,
              input=PACKET % (b"tcp", 23) + PACKET % (b"udp", 22))
    yield Row("cover, no rules", ["cover", "R"], {"R": b""}, COVERED % (0, 0, 0, 0, 0), 0)
    yield Row("cover, a folder as input", ["cover", "R"], {"R": ruleset(b"DROP", PARTED)}, b"", 2, b"iptaudit: input failed\n", input=".")
    for question in ("dead", "tests", "cover"):
        for words in ([question, "R"], [question, "--json", "R"]):
            yield Row(f"a full device: {' '.join(words)}", words, {"R": DUMP}, b"", 2, b"iptaudit: output failed\n", stdout="/dev/full")
    for word in ("--version", "-V"):
        yield Row(word, [word], {}, b"iptaudit %s (not released)\n" % read("VERSION").strip(), 0)
    yield Row("--version to a full device", ["--version"], {}, b"", 2, b"iptaudit: output failed\n", stdout="/dev/full")
    yield Row("compare, no rules", ["compare", "O", "N"], {"O": b"", "N": b""}, SAME + CHANGED % (0, 0, 0), 0)


@each(dead_rows, other_rows)
def test_audit(row, iptaudit):
    iptaudit.check(row)
