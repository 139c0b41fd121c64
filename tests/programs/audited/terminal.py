"""What iptaudit shows at a terminal while it waits: which question is asked, once a second."""

import os
import re

import pytest

from tests.programs.audited.rulesets import CHANGED, COUNTS, SAME, ruleset
from tests.shared.rows import same

CHAINS, TARGETS = (b"INPUT", b"FORWARD", b"OUTPUT"), (b"ACCEPT", b"ACCEPT", b"ACCEPT")


def is_told(iptaudit, words, files, answer, questions):
    """Runs the program at a terminal, and compares its answer and what the terminal shows: whether it shows anything."""
    lead, end = os.openpty()
    ended = iptaudit.run(words, files, stderr=end)
    os.write(end, b"END")
    os.close(end)
    # What the terminal shows comes in parts, as the kernel hands it over.
    said = b""
    while not said.endswith(b"END"):
        said += os.read(lead, 4096)
    os.close(lead)
    due = [b"\riptaudit: question %d of %d" % (int(number), questions) for number in re.findall(rb"question (\d+) of", said)]
    same((0, answer, b"".join(due) + b"\r\x1b[K" * bool(due) + b"END"), (ended.returncode, ended.stdout, said))
    return bool(due)


def crossing_rule(chain, number, target):
    """A rule of a source or of a port, by turns, so that it has some packet in common with every other rule of its chain."""
    source, port = b" -s 10.%d.%d.0/24" % (number // 256, number % 256), b" -m tcp --dport %d" % number
    return b"-A %s%s -p tcp%s -j %s" % (chain, b"" if number % 2 else source, port if number % 2 else b"", target)


def card_rule(chain, number, target):
    """A rule of one network card: whether a packet comes to it hangs on all those ahead."""
    return b"-A %s -m mac --mac-source 02:00:00:00:%02x:%02x -j %s" % (chain, number // 256, number % 256, target)


OF_DEAD, OF_COMPARE = COUNTS + b"%d conditions open: mac %d\n", SAME + CHANGED


@pytest.mark.parametrize("words, rule, targets, answer, more", [
    (["dead", "R"], card_rule, TARGETS, OF_DEAD, 0),
    (["compare", "O", "R"], crossing_rule, (b"DROP", *TARGETS[1:]), OF_COMPARE, 3)], ids=["dead", "compare"])
def test_terminal(words, rule, targets, answer, more, iptaudit):
    """A small ruleset takes no second; the largest fill the built-in chains one after another. `compare` asks about each built-in chain and about
    each changed rule: here all rules, which do what the policy of their chain does."""
    for count in (10, 100, 400, 800, 1600, 3200, 6400, 8000, 12000, 24000):
        places = [(number // 8000, number % 8000) for number in range(count)]
        rules = [rule(CHAINS[place], number, targets[place]) for place, number in places]
        files = {"R": ruleset(b"DROP", rules), "O": ruleset(b"DROP", [])}
        if is_told(iptaudit, words, files, answer % (count, 0, 0, *[count] * (answer.count(b"%d") - 3)), count + more):
            break
    else:
        pytest.fail("no ruleset took a second")
    assert count > 10
