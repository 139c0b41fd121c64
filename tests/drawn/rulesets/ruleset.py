"""A ruleset: the policy of INPUT, the user chains, and the rules; which rules only one of two has; and the names of interfaces that its rules ask
for, and those that packets have."""

import collections
import itertools
import re

# The bytes of interfaces' names.
LEGAL = "".join(chr(byte) for byte in range(33, 127) if chr(byte) not in '/"\\\'#+!')


def numbered(rules):
    """Each rule, `-A CHAIN ..`, after its chain and its number there, from 1."""
    counts = collections.Counter()
    for rule in rules:
        chain = rule.split()[1]
        counts[chain] += 1
        yield chain, counts[chain], rule


def target_of(rule):
    """The chain to which a rule jumps or goes, if it is a user chain that it names."""
    words = rule.split()
    named = words[-1] if len(words) > 1 and words[-2] in ("-j", "-g") else ""
    return None if named in ("", "ACCEPT", "DROP", "REJECT", "RETURN", "LOG") else named


def verdict_of(rule):
    target = re.search(r"-j (ACCEPT|DROP|REJECT)(?: --reject-with (\S+))?$", rule)
    if target and target[1] == "REJECT":
        return f"REJECT {target[2] or 'icmp-port-unreachable'}"
    return target and target[1]


class Ruleset(collections.namedtuple("Ruleset", "policy chains rules")):
    """Rules are written `-A CHAIN ..`, those of a chain in their order. Jumps and gotos lead from INPUT to the user chains, and from these
    to later ones."""

    def text(self):
        lines = ["*filter", f":INPUT {self.policy} [0:0]", ":FORWARD ACCEPT [0:0]", ":OUTPUT ACCEPT [0:0]"]
        lines += [f":{chain} - [0:0]" for chain in self.chains]
        return "".join(f"{line}\n" for line in (*lines, *self.rules, "COMMIT"))

    def named(self):
        """The rules by the names that the program prints."""
        return {f"{chain} {number}": rule for chain, number, rule in numbered(self.rules)}

    def without(self, names):
        return self._replace(rules=[rule for name, rule in self.named().items() if name not in names])

    def leading_to(self, chain, without=()):
        """The chains from which jumps and gotos, but for those of these names, lead to a chain, which is one of them."""
        leading, ways = {chain}, [(name.split()[0], target_of(rule)) for name, rule in self.named().items() if name not in without]
        while more := {start for start, end in ways if end in leading} - leading:
            leading |= more
        return leading


def left(ruleset, gone):
    """The rules of each chain in turn, without some of them."""
    names = ruleset.named()
    return [[rule for name, rule in names.items() if name.split()[0] == chain and name not in gone] for chain in ("INPUT", *ruleset.chains)]


def ways(old, new, count):
    """The ways to take so many rules out of two small rulesets with the same chains that both are left with the same, as the names of those of each."""
    for gone in range(count + 1):
        pairs = itertools.product(itertools.combinations(old.named(), gone), itertools.combinations(new.named(), count - gone))
        yield from ((went, came) for went, came in pairs if left(old, went) == left(new, came))


class Interfaces:
    """`asked` are a name and a beginning of it; `names` those of packets, which stand for all others."""

    def __init__(self, draw):
        length = draw.choice((1, 2, 4, 14, 15, 15))
        name = "".join(draw.choice(LEGAL) for _ in range(length))
        other = ("a" if name[0] != "a" else "b") + "".join(draw.choice(LEGAL) for _ in range(draw.randrange(15)))
        stem = name[: draw.randint(1, length - 1)] if length > 1 else name
        # An interface that the beginning stands for, other than the name: the stem itself where it is shorter, else a longer name.
        longer = stem if stem != name else (name + "x")[:15]
        self.names = sorted({name, other, longer})
        self.asked = [name, stem + "+" if len(stem) < 15 else stem]
