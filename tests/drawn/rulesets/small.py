"""Rulesets of INPUT and one user chain."""

from .ruleset import Interfaces, Ruleset

# The packets of a field: the value that is written for each, and the one that asks `reach` for all that it stands for.
SOURCES = {"10.0.0.1": "10.0.0.0/8", "192.0.2.1": "128.0.0.0/1"}
PORTS = range(6)
OTHERS = 5
FLAGS = {"NONE": 0, "SYN": 2, "ACK": 16}
TYPES = {"8/0": 2048, "0/0": 0}


class Small:
    """What is drawn for one ruleset: lots, and the interfaces that its rules ask for."""

    def __init__(self, draw):
        self.draw = draw
        self.interfaces = Interfaces(draw)

    def maybe_not(self):
        return self.draw.choice(("", "! "))

    def matching(self):
        kind = self.draw.random()
        if kind < 0.2:
            return []
        if kind < 0.3:
            return ["-p icmp", *(["-m icmp --icmp-type 8"] if self.draw.random() < 0.7 else [])]
        if kind < 0.45:
            return ["-p tcp", *([f"-m tcp {self.maybe_not()}--syn"] if self.draw.random() < 0.7 else [])]
        words = ["-p udp"]
        for _ in range(self.draw.choice((0, 1, 1, 2))):
            option, inverted = self.draw.choice(("--ports", "--ports", "--sports", "--dports")), self.maybe_not()
            ports = sorted(self.draw.sample(range(1, OTHERS), self.draw.randint(1, 3)))
            words.append(f"-m multiport {inverted}{option} {','.join(map(str, ports))}")
        return words

    def rule(self, chain, targets):
        words = [f"-A {chain}"]
        if self.draw.random() < 0.3:
            words.append(self.maybe_not() + "-s 10.0.0.0/8")
        if self.draw.random() < 0.3:
            words.append(self.maybe_not() + "-i " + self.draw.choice(self.interfaces.asked))
        words += [self.maybe_not() + "-f"] if self.draw.random() < 0.1 else self.matching()
        return " ".join([*words, self.draw.choice(targets)]).rstrip()

    def ruleset(self):
        ends = ("-j ACCEPT", "-j DROP", "-j REJECT", "-j RETURN", "-j LOG", "")
        rules = [self.rule("INPUT", (*ends, "-j a", "-g a", "-j a")) for _ in range(self.draw.randint(1, 6))]
        return Ruleset("DROP", ["a"], rules + [self.rule("a", ends) for _ in range(self.draw.randint(0, 5))])

    def listed(self, most):
        """Up to so many rules that match the same packets, and give a verdict or jump to a chain that drops one network and returns; then rules that
        match all. How many are in the list, and the ruleset."""
        matching, count = " ".join(self.matching()), self.draw.randint(2, most)
        ends = self.draw.choice((("-j ACCEPT", "-j DROP"), ("-j a",), ("-j a", "-j ACCEPT", "-j RETURN", "-g a")))
        rules = [" ".join(f"-A INPUT {matching} {self.draw.choice(ends)}".split()) for _ in range(count)]
        return count, Ruleset("DROP", ["a"], rules + ["-A INPUT -j ACCEPT", "-A INPUT -j DROP", "-A a -s 10.0.0.0/8 -j DROP", "-A a -j RETURN"])

    def edited(self, ruleset):
        """The ruleset with one rule left out, one put in, or two beside each other turned about."""
        rules, at = list(ruleset.rules), self.draw.randrange(len(ruleset.rules))
        kind = self.draw.randrange(3)
        if kind == 0:
            del rules[at]
        elif kind == 1:
            rules.insert(at, self.rule("INPUT", ("-j ACCEPT", "-j DROP")))
        else:
            rules[at : at + 2] = reversed(rules[at : at + 2])
        return ruleset._replace(rules=rules)

    def packets(self):
        """Lines of packets, and beside each the packets that it stands for, by their numbers and the fields that they carry: no rule asks for
        the ports of another protocol than udp."""
        every = [(first, last) for first in PORTS for last in PORTS]
        kinds = [("proto=47", [{"proto": 47, "frag": 0}])]
        kinds += [(f"proto={number} frag=1", [{"proto": number, "frag": 1}]) for number in (1, 6, 17, 33, 47)]
        kinds += [(f"proto=17 sport={first} dport={last}", [{"proto": 17, "frag": 0, "sport": first, "dport": last}]) for first, last in every]
        kinds.append(("proto=33 sport=1 dport=1", [{"proto": 33, "frag": 0, "sport": first, "dport": last} for first, last in every]))
        kinds += [(f"proto=6 sport=1 dport=1 flags={name}", [{"proto": 6, "frag": 0, "sport": first, "dport": last, "flags": number} for first, last in every])
                  for name, number in FLAGS.items()]
        kinds += [(f"proto=1 icmp={name}", [{"proto": 1, "frag": 0, "icmp": number}]) for name, number in TYPES.items()]
        for source in SOURCES:
            for interface in self.interfaces.names:
                for words, meant in kinds:
                    line = f"packet INPUT src={source} dst=192.0.2.9 in={interface} {words}"
                    yield line, [{"src": source, "in": interface, **numbers} for numbers in meant]
