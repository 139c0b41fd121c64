"""Rulesets about which iptaudit is asked: which of their rules are dead, and which of them give each packet the same verdict. And how they and
its answers are written.
"""

from tests.drawn.rulesets.ruleset import numbered
from tests.shared import read
from tests.shared.row_files import rows_in

POLICIES = b"*filter\n:INPUT %s [0:0]\n:FORWARD ACCEPT [0:0]\n:OUTPUT ACCEPT [0:0]\n"
SAME = b"INPUT same\nFORWARD same\nOUTPUT same\n"
COUNTS = b"%d rules, %d dead, %d unclear\n"
STANDINGS = b"%d redundant, %d shadowed\n"
COVERED = b"%d rules, %d covered, %d missed, %d dead, %d unclear\n"
CHANGED = b"%d changed rules, %d dead, %d unclear\n"


def ruleset(policy, rules):
    return POLICIES % policy + b":a - [0:0]\n:b - [0:0]\n" + b"".join(rule + b"\n" for rule in rules) + b"COMMIT\n"


def office(suffix):
    """A file of the example of an office."""
    return read("examples", "office." + suffix)


def named(rules):
    """The rules by the names that the program prints."""
    return {b"%s %d" % (chain, number): rule for chain, number, rule in numbered(rules)}


def listed(rules):
    """The rules of `named` in the order of a listing."""
    names = named(rules)
    chains = [b"INPUT", b"FORWARD", b"OUTPUT"]
    chains += sorted({name.split()[0] for name in names} - set(chains))
    return [(name, names[name]) for chain in chains for name in names if name.split()[0] == chain]


# The policy of INPUT, rules of INPUT and of a chain, and the rules that no packet can match, with the reason. Last, how many of these are redundant, and
# how many shadowed.
DEAD = [(policy, rules, {name: why for name, _, why in (line.partition(b": ") for line in dead)}, standings + b"\n")
        for (policy,), rules, dead, (standings,) in rows_in("programs/audited/dead.rows", ">|<=")]

# The policy of INPUT and the rules of a ruleset, and those of another one; whether packets of INPUT get the same verdicts; and the counts of changed rules.
LIKE = rows_in("programs/audited/like.rows", ">|+-=!")
