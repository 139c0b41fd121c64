"""Rulesets of 30 to 200 rules in INPUT and three or four user chains."""

import collections

from .model import dead_of, walks
from .ruleset import Interfaces, Ruleset

SIZES = (30, 200)
CHAINS = ("WAN", "LAN", "DMZ", "SSH", "WEB")
# Two networks, one in the other; and an address outside of both, one in the first alone, and one in both.
NETWORKS = ("10.0.0.0/8", "10.1.0.0/16")
SOURCES = ("192.0.2.1", "10.0.0.1", "10.1.0.1")
# Ports that rules name alone, four of them in a ruleset. Ranges begin and end there, or beside them.
PORTS = (0, 1, 22, 23, 53, 80, 443, 1023, 8080, 65534, 65535)
FLAGS = ("NONE", "SYN", "ACK")
FLAG_OPTIONS = ("--syn", "--tcp-flags ALL ACK")
TYPES = ("8/0", "0/0")
PROTOCOLS = {"tcp": 6, "udp": 17, "icmp": 1, "another": 47}
# What a rule asks of the transport header, most rules and wide ones, which many packets match; and what becomes of the packets that it matches.
KINDS = {"tcp": 40, "udp": 34, "icmp": 6, "another": 2, "fragment": 6}
WIDE_KINDS = {"tcp": 10, "udp": 10, "icmp": 3, "another": 6, "fragment": 2, "": 25}
ENDS = {"-j ACCEPT": 26, "-j DROP": 26, "-j REJECT": 6, "-j REJECT --reject-with icmp-admin-prohibited": 4, "-j RETURN": 8, "-j LOG": 12, "": 8}
WAYS = {"-j": 9, "-g": 2}


def port_text(ends):
    first, last = ends
    return f"{first}" if first == last else f"{first}:{last}"


class Ports:
    """The ports that a ruleset's rules ask for: ranges of the ports between some bounds. For source ports there are fewer."""

    def __init__(self, draw):
        self.draw = draw
        alone = sorted(draw.sample(PORTS, 4))
        self.bounds = {side: sorted({0, 65536}.union(*({port, port + 1} for port in ports)))
                       for side, ports in (("source", alone[1:2]), ("destination", alone))}

    def pieces(self, side):
        """The ranges that no rule parts."""
        bounds = self.bounds[side]
        return [(first, end - 1) for first, end in zip(bounds, bounds[1:])]

    def range_of(self, side):
        bounds = self.bounds[side]
        first, end = sorted(self.draw.sample(range(len(bounds)), 2))
        # Often one that no rule parts, which may be a port alone.
        return port_text(self.draw.choice((self.draw.choice(self.pieces(side)), (bounds[first], bounds[end] - 1))))

    def one_each(self, side):
        """A port of each range that no rule parts: one of its ends."""
        return [self.draw.choice(piece) for piece in self.pieces(side)]


class Large:
    """What is drawn for one ruleset: lots, and the interfaces and ports that its rules ask for."""

    def __init__(self, draw):
        self.draw = draw
        self.interfaces, self.ports = Interfaces(draw), Ports(draw)

    def maybe_not(self):
        return self.draw.choice(("", "", "", "", "", "! "))

    def headed(self, kind):
        """What a rule asks of ports and flags, with the match that its protocol has."""
        words, lot = [f"-p {kind}"], self.draw.random()
        if lot < 0.65:
            side = "source" if lot < 0.1 else "destination"
            words.append(f"-m {kind} {self.maybe_not()}--{side[0]}port {self.ports.range_of(side)}")
        if kind == "tcp" and self.draw.random() < 0.3:
            words.append(f"-m tcp {self.maybe_not()}{self.draw.choice(FLAG_OPTIONS)}")
        if lot > 0.55:
            option, side = self.draw.choice((("--ports", "source"), ("--sports", "source"), ("--dports", "destination"), ("--dports", "destination")))
            pieces, inverted = self.ports.pieces(side), self.maybe_not()
            listed = sorted(self.draw.sample(pieces, self.draw.randint(1, min(3, len(pieces) - 1))))
            words.append(f"-m multiport {inverted}{option} {','.join(map(port_text, listed))}")
        return words

    def matching(self, kind):
        if kind in ("tcp", "udp"):
            return self.headed(kind)
        if kind == "icmp":
            return ["-p icmp", *([f"-m icmp {self.maybe_not()}--icmp-type 8"] if self.draw.random() < 0.6 else [])]
        if kind == "another":
            return [f"! -p {self.draw.choice(('tcp', 'udp', 'icmp'))}"]
        return [f"{self.maybe_not()}-f"] if kind == "fragment" else []

    def conditions(self, wide):
        """What a rule asks, at least one thing."""
        kind, words = self.draw.weighted(WIDE_KINDS if wide else KINDS), []
        if self.draw.random() < (0.4 if wide else 0.75):
            words.append(f"{self.maybe_not()}-s {self.draw.choice(NETWORKS)}")
        if self.draw.random() < (0.4 if wide else 0.75) or not kind and not words:
            words.append(f"{self.maybe_not()}-i {self.draw.choice(self.interfaces.asked)}")
        return [*words, *self.matching(kind)]

    def rule(self, chain, later, wide=False):
        """A rule of a chain, which may lead to later ones; one that does so is wide."""
        leads = later and self.draw.random() < (0.2 if chain == "INPUT" else 0.12)
        end = f"{self.draw.weighted(WAYS)} {self.draw.choice(later)}" if leads else self.draw.weighted(ENDS)
        return " ".join([f"-A {chain}", *self.conditions(wide or leads), end]).rstrip()

    def drawn(self, size):
        """A ruleset of this many rules, as they come: its chains in their order, each with a share of the rules."""
        chains = self.draw.sample(CHAINS, self.draw.randint(3, 4))
        ways = ["INPUT", *chains]
        sizes = collections.Counter({chain: 4 for chain in ways})
        sizes.update(self.draw.choices(ways, [2] + [1] * len(chains), k=size - 4 * len(ways)))
        rules = [self.rule(chain, chains[place:]) for place, chain in enumerate(ways) for _ in range(sizes[chain])]
        return Ruleset(self.draw.choice(("ACCEPT", "DROP")), chains, rules)

    def ruleset(self, packets):
        """A ruleset with few dead rules: more are drawn than it has, and of those that none of the packets comes to some are left out."""
        size = self.draw.randint(*SIZES)
        drawn = self.drawn(2 * size)
        dead = dead_of(drawn, walks(drawn, packets))
        return drawn.without(set(self.draw.sample(dead, min(len(dead), len(drawn.rules) - size))))

    def packets(self):
        """Lines of packets, of which one stands for all that no rule tells from it."""
        kinds = ["proto=47", *(f"proto={number} frag=1" for number in PROTOCOLS.values()), *(f"proto=1 icmp={name}" for name in TYPES)]
        ends = [(source, last) for source in self.ports.one_each("source") for last in self.ports.one_each("destination")]
        kinds += [f"proto=17 sport={source} dport={last}" for source, last in ends]
        kinds += [f"proto=6 sport={source} dport={last} flags={name}" for source, last in ends for name in FLAGS]
        for source in SOURCES:
            for interface in self.interfaces.names:
                yield from (f"packet INPUT src={source} dst=192.0.2.9 in={interface} {words}" for words in kinds)
