"""Rulesets of ordinary kinds, of which `dead` of iptaudit may leave no rule unclear. Which rules are dead follows from how the rulesets are made."""

import re

import pytest

from tests.shared.rows import same

POLICIES = b"*filter\n:INPUT DROP [0:0]\n:FORWARD DROP [0:0]\n:OUTPUT ACCEPT [0:0]\n"
LOGIN = b"-p tcp -m tcp --dport 22"
# All packets that are left, and none.
ENDS = [b"-A INPUT -j ACCEPT", b"-A INPUT -j DROP"]
PACKET = b"packet INPUT src=10.8.0.1 dst=10.0.0.2 in=eth0 proto=tcp sport=4000 dport=22"


def banned(sets):
    """A jump for each set of banned hosts, to a chain that rejects some of them and comes back."""
    return (
        [b"-A INPUT %s -m set --match-set f2b-%d src -j f2b-%d" % (LOGIN, number, number) for number in range(sets)]
        + [b"-A INPUT %s -j ACCEPT" % LOGIN, b"-A INPUT %s -j DROP" % LOGIN]
        + [rule % number for number in range(sets) for rule in (b"-A f2b-%d -s 10.9.0.0/24 -j REJECT", b"-A f2b-%d -j RETURN")])


# Rulesets, and which of their rules are dead.
RULESETS = {
    # Each to a chain that drops a host.
    "jumps on conditions": (
        [b"-A INPUT -m statistic --mode nth --every %d --packet 0 -j k%d" % (number + 2, number) for number in range(60)] + ENDS
        + [b"-A k%d -s 10.9.0.%d -j DROP" % (number, number) for number in range(60)], [b"INPUT 62"]),
    # The chain's last rule comes after a RETURN.
    "jumps on conditions to one chain": (
        [b"-A INPUT -m limit --limit %d/sec -j k" % number for number in range(1, 13)] + ENDS
        + [b"-A k -s 10.9.0.1 -j DROP", b"-A k -j RETURN", b"-A k -s 10.9.0.2 -j DROP"], [b"INPUT 14", b"k 3"]),
    # Each with a chain that comes back.
    "sets of banned hosts": (banned(60), [b"INPUT 62"]),
    "network cards": (
        [b"-A INPUT -m mac --mac-source 02:00:00:00:00:%02x -j ACCEPT" % number for number in range(60)] + ENDS, [b"INPUT 62"]),
    # And one whose ports another has.
    "rules that ask both ports": (
        [b"-A INPUT -p tcp -m multiport --ports %d,%d -j ACCEPT" % (number, number + 1) for number in range(1, 120, 2)]
        + [b"-A INPUT -p tcp -m multiport --ports 2 -j DROP", b"-A INPUT -p tcp -j DROP"], [b"INPUT 61"]),
    # One host of each is named twice.
    "chains for networks": (
        [b"-A FORWARD -d 10.0.%d.0/24 -j n%02d" % (number, number) for number in range(25)]
        + [b"-A n%02d -d 10.0.%d.%d %s -j ACCEPT" % (number, number, host % 30, LOGIN) for number in range(25) for host in range(31)],
        [b"n%02d 31" % number for number in range(25)]),
    # Jumps enter each, and a goto, which doesn't come back, also one of them: nothing is left for the rule behind it.
    "chains that are gone to": (
        [b"-A INPUT %s -j g%d" % (LOGIN, number) for number in range(9)] + [b"-A INPUT -p udp -g g0", b"-A INPUT -p udp -j DROP"]
        + [b"-A g%d -s 10.9.0.%d -j DROP" % (number, number) for number in range(9)], [b"INPUT 11"]),
}


def test_answers(iptaudit):
    """Runs `tests` on sets of banned hosts: a packet that none of their chains names comes to the rule behind them, whatever the sets have."""
    rules, _dead = RULESETS["sets of banned hosts"]
    behind = next(number for number, rule in enumerate(rules, 1) if rule.endswith(b"-j ACCEPT"))
    ended = iptaudit.run(["tests", "R"], {"R": dump_of(rules)})
    came = re.findall(rb"(?m)^# INPUT %d .*\n(#   if|packet)" % behind, ended.stdout)
    assert (ended.returncode, came, ended.stderr) == (1, [b"packet"], b"")


def test_walk(iptaudit):
    """Runs `walk` on sets of banned hosts: a packet of no chain comes back from all 60, whatever the sets have."""
    rules, _dead = RULESETS["sets of banned hosts"]
    said = iptaudit.said(["walk", "R"], PACKET, {"R": dump_of(rules)})
    same([b"  ACCEPT by INPUT 61"], said.splitlines()[1:2])


def test_cover(iptaudit):
    """Runs `cover` on twenty sets of banned hosts: a packet of no chain comes to each jump, and back from there, if its own set has the packet."""
    rules = banned(20)
    ended = iptaudit.run(["cover", "R"], {"R": dump_of(rules)}, PACKET)
    came = re.findall(rb"(?m)^if (\S+ \d+) -A .*\n  if set --match-set f2b-(\d+) src$", ended.stdout)
    due = [(name % number, b"%d" % jail) for jail in range(20) for name, number in ((b"INPUT %d", jail + 1), (b"f2b-%d 2", jail))]
    counts = b"62 rules, 41 covered (40 if conditions hold), 20 missed, 1 dead, 0 unclear"
    assert (ended.returncode, sorted(came), counts in ended.stdout.splitlines(), ended.stderr) == (1, sorted(due), True, b"")


def dump_of(rules):
    """A dump with these rules, which name all its chains."""
    chains = sorted({rule.split()[1] for rule in rules} - {b"INPUT", b"FORWARD"})
    return POLICIES + b"".join(b":%s - [0:0]\n" % chain for chain in chains) + b"".join(rule + b"\n" for rule in rules) + b"COMMIT\n"


@pytest.mark.parametrize("about", RULESETS)
def test_clear(about, iptaudit):
    rules, dead = RULESETS[about]
    ended = iptaudit.run(["dead", "R"], {"R": dump_of(rules)})
    came = re.findall(rb"(?m)^(?:dead|unclear) \S+ \d+|^\d+ rules, .*", ended.stdout)
    due = [b"dead " + name for name in dead] + [b"%d rules, %d dead, 0 unclear" % (len(rules), len(dead))]
    same((1, b"\n".join(due), b""), (ended.returncode, b"\n".join(came), ended.stderr))


def test_changed(iptaudit):
    """Runs `compare` on a ruleset and on one with another verdict behind 60 jumps on conditions, which all come back: a packet gets both."""
    rules, _dead = RULESETS["jumps on conditions"]
    edited = [b"-A INPUT -j REJECT" if rule == b"-A INPUT -j ACCEPT" else rule for rule in rules]
    ended = iptaudit.run(["compare", "O", "N"], {"O": dump_of(rules), "N": dump_of(edited)})
    came = re.findall(rb"(?m)^(?:INPUT|FORWARD|OUTPUT) [a-z]+$|^verdict .*|^\d+ changed rules, .*", ended.stdout)
    due = [b"INPUT differs", b"verdict ACCEPT by rule", b"verdict REJECT icmp-port-unreachable by rule", b"FORWARD same", b"OUTPUT same"]
    assert (ended.returncode, came, ended.stderr) == (1, due + [b"2 changed rules, 0 dead, 0 unclear"], b"")
