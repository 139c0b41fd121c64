"""What the plain model of tests/model says of packets that walk a ruleset."""

import collections
import re

from tests.drawn.rulesets.ruleset import target_of
from tests.model.matching import matches
from tests.model.packets import packet_of
from tests.model.session import Session, loaded, whole
from tests.model.table import walk
from tests.model.words import words_of

# The names of the rules that are on the walk, the verdict, and the name of the rule that decides, or "the policy".
Walk = collections.namedtuple("Walk", "trail verdict by")


def packets_of(lines):
    return [packet_of(words_of(line.encode())[1:]) for line in lines]


def table_of(ruleset):
    table, said, _ = loaded(ruleset.text().encode())
    if said:
        raise ValueError(f"the model refuses a line: {said.decode()}")
    return table


def walks(ruleset, packets):
    table, found = table_of(ruleset), []
    for packet in packets:
        steps, end = walk(table, packet)
        trail = [f"{chain.decode()} {number}" for chain, number in steps]
        verdict, _, by = end.decode().partition(" by ")
        found.append(Walk(trail, verdict, "the policy" if by == "policy" else trail[-1]))
    return found


def reply(ruleset, line):
    return whole(Session(table_of(ruleset)).line(line.encode())).decode()


def verdict_in(said):
    """The verdict of such a reply."""
    return said.splitlines()[-1].removeprefix("verdict ").partition(" by ")[0]


def matched(ruleset, rule, packets):
    words = re.sub(r" -[jg] \S+$", "", rule).split()[2:]
    alone, = table_of(ruleset._replace(chains=[], rules=[" ".join(["-A INPUT", *words])])).rules(b"INPUT")
    return [matches(alone, packet) for packet in packets]


def comes_to(ruleset, chain, packets):
    """Of each packet whether it may come to a chain: to that of the hook each does, to another one where a rule leads there of which each field allows it:
    each port, where it asks for both at once, but no fragment."""
    if chain == "INPUT":
        return [True] * len(packets)
    calls = [re.sub(r"(! )?--ports \S+", "--dports 0:65535", rule) for rule in ruleset.rules if target_of(rule) == chain]
    columns = [matched(ruleset, rule, packets) for rule in calls]
    return [any(column[at] for column in columns) for at in range(len(packets))]


def dead_of(ruleset, found):
    """The names of the rules that are on none of some walks, in their order."""
    met = set().union(*(each.trail for each in found))
    return [name for name in ruleset.named() if name not in met]
