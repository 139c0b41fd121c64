"""The table: chains as lists of rules. Each edit is done or refused by the first fault, and then changes nothing."""

import functools

from . import printing, values
from .faults import need
from .matching import matches

MOST_RULES = 8192
MOST_CHAINS = 1024
MOST_STEPS = 65536
# The interface that a packet of the chain doesn't have.
NOT_ALLOWED = {b"INPUT": b"-o", b"OUTPUT": b"-i"}


class Table:
    def __init__(self):
        self.policies = {name: b"ACCEPT" for name in values.BUILT_IN}
        self.chains = {name: [] for name in values.BUILT_IN}

    def copy(self):
        other = Table()
        other.policies, other.chains = dict(self.policies), {name: list(rules) for name, rules in self.chains.items()}
        return other

    def user_chains(self):
        return sorted(name for name in self.chains if name not in self.policies)

    def in_order(self):
        """The names as they are listed: INPUT, FORWARD and OUTPUT, then the others by their bytes."""
        return [*values.BUILT_IN, *self.user_chains()]

    def rules(self, chain):
        need(chain in self.chains, "T1")
        return self.chains[chain]

    # Rules.

    def ask_rule(self, chain, rule):
        need(chain not in NOT_ALLOWED or not rule.has(NOT_ALLOWED[chain]), "T13")
        target = rule.chain()
        if target is not None:
            need(target in self.chains, "T11")
            need(target not in self.policies, "T12")
            need(not self.leads(target, chain), "T10")

    def leads(self, start, end):
        """Whether jumps and gotos lead from one chain to another, or they are the same."""
        seen, left = set(), [start]
        while left:
            name = left.pop()
            if name == end:
                return True
            if name not in seen:
                seen.add(name)
                left += [rule.chain() for rule in self.chains[name] if rule.chain() is not None]
        return False

    def append(self, chain, rule):
        self.insert(chain, len(self.rules(chain)) + 1, rule)

    def insert(self, chain, number, rule):
        rules = self.rules(chain)
        need(1 <= number <= len(rules) + 1, "T4")
        self.ask_rule(chain, rule)
        need(len(rules) < MOST_RULES, "T14")
        rules.insert(number - 1, rule)

    def replace(self, chain, number, rule):
        rules = self.rules(chain)
        need(1 <= number <= len(rules), "T4")
        self.ask_rule(chain, rule)
        rules[number - 1] = rule

    def delete(self, chain, number):
        rules = self.rules(chain)
        need(1 <= number <= len(rules), "T4")
        del rules[number - 1]

    def place_of(self, chain, rule):
        """Where the first rule is that is listed as this one."""
        text = printing.rule(rule)
        place = next((place for place, each in enumerate(self.rules(chain)) if printing.rule(each) == text), None)
        need(place is not None, "T5")
        return place

    def flush(self, chain=None):
        for name in list(self.chains) if chain is None else [chain]:
            self.rules(name).clear()

    # Chains.

    def new_chain(self, name):
        need(values.is_chain_name(name), "T3")
        need(name not in self.chains, "T2")
        need(len(self.user_chains()) < MOST_CHAINS, "T15")
        self.chains[name] = []

    def delete_chains(self, chain=None):
        """One chain, or all of the user's, of which none is deleted where one can't be."""
        if chain is not None:
            self.rules(chain)
        names = self.user_chains() if chain is None else [chain]
        need(chain not in self.policies, "T8")
        need(not any(self.chains[name] for name in names), "T6")
        need(not any(rule.chain() in names for rules in self.chains.values() for rule in rules), "T7")
        for name in names:
            del self.chains[name]

    def rename(self, old, new):
        self.rules(old)
        need(old not in self.policies, "T8")
        need(values.is_chain_name(new), "T3")
        need(new not in self.chains, "T2")
        self.chains[new] = self.chains.pop(old)
        for rules in self.chains.values():
            rules[:] = [rule.to(new) if rule.chain() == old else rule for rule in rules]

    def set_policy(self, chain, policy):
        self.rules(chain)
        need(chain in self.policies, "T9")
        need(policy in (b"ACCEPT", b"DROP"), "T16")
        self.policies[chain] = policy

    def clear(self):
        """Takes all rules and user chains away; the policies stay."""
        self.chains = {name: [] for name in values.BUILT_IN}


def walk(table, packet):
    """What becomes of a packet: the trail, as (chain, number), and the verdict. Rests of chains to come back to are kept as where
    they begin. A rule to which the packet comes again isn't compared with it again."""
    chain, at, rests, trail = packet.hook, 0, [], []
    matched = functools.cache(lambda rule: matches(rule, packet))
    while True:
        rules = table.chains[chain]
        if at == len(rules):
            if not rests:
                return trail, b"%s by policy" % table.policies[packet.hook]
            chain, at = rests.pop()
            continue
        rule, at = rules[at], at + 1
        if not matched(rule):
            continue
        if len(trail) == MOST_STEPS:
            return [], b"TOOLONG"
        trail.append((chain, at))
        # (a rule without a target hands on as one with LOG does)
        how, name = rule.target or (None, b"LOG")
        if name in (b"ACCEPT", b"DROP"):
            return trail, b"%s by rule" % name
        if name == b"REJECT":
            kind = next((each.value for each in rule.settings.conditions), b"icmp-port-unreachable")
            return trail, b"REJECT %s by rule" % kind
        if name == b"RETURN":
            at = len(rules)
        elif name != b"LOG":
            if how == b"-j":
                rests.append((chain, at))
            chain, at = name, 0
