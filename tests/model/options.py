"""The table of options, and rules read from words."""

import collections

from . import values
from .faults import Fault, need

# An option: what it belongs to, its names (the first is the one that is listed), the readers of its values, and whether `!` may
# stand before it. Options with the same `slot` count as one.
Option = collections.namedtuple("Option", "owners names readers inverts slot")


def option(owners, names, *readers, inverts=False, slot=None):
    names = names.encode().split()
    return Option(owners.split(), names, readers, inverts, slot or names[0])


# In the order in which they are listed.
OPTIONS = [
    option("rule", "-s --source --src", values.address, inverts=True),
    option("rule", "-d --destination --dst", values.address, inverts=True),
    option("rule", "-i --in-interface", values.interface, inverts=True),
    option("rule", "-o --out-interface", values.interface, inverts=True),
    option("rule", "-p --protocol", values.protocol, inverts=True),
    option("rule", "-f --fragment", inverts=True),
    option("rule", "-m --match", bytes),
    option("rule", "-j --jump", values.target),
    option("rule", "-g --goto", values.chain),
    option("tcp udp", "--sport --source-port", values.port, inverts=True),
    option("tcp udp", "--dport --destination-port", values.port, inverts=True),
    option("tcp", "--tcp-flags", values.flags, values.flags, inverts=True, slot="flags"),
    option("tcp", "--syn", inverts=True, slot="flags"),
    option("icmp", "--icmp-type", values.icmp_type, inverts=True),
    option("multiport", "--sports --source-ports", values.ports, inverts=True, slot="ports"),
    option("multiport", "--dports --destination-ports", values.ports, inverts=True, slot="ports"),
    option("multiport", "--ports", values.ports, inverts=True, slot="ports"),
    option("iprange", "--src-range", values.host_range, inverts=True),
    option("iprange", "--dst-range", values.host_range, inverts=True),
    option("conntrack", "--ctstate", values.states, inverts=True),
    option("state", "--state", lambda word: values.states(word, values.STATES[:5]), inverts=True),
    option("ttl", "--ttl-eq", values.below(255), inverts=True, slot="ttl"),
    option("ttl", "--ttl-gt", values.below(255), slot="ttl"),
    option("ttl", "--ttl-lt", values.below(255), slot="ttl"),
    option("comment", "--comment", values.text(256)),
    option("REJECT", "--reject-with", values.one_of(values.REJECT_TYPES)),
    option("LOG", "--log-prefix", values.text(29)),
    option("LOG", "--log-level", lambda word: values.LEVELS.index(word) if word in values.LEVELS else values.number(word, 7)),
    option("LOG", "--log-tcp-sequence"),
    option("LOG", "--log-tcp-options"),
    option("LOG", "--log-ip-options"),
    option("LOG", "--log-uid"),
]
BY_NAME = {name: each for each in OPTIONS for name in each.names}
PLACES = {each.names[0]: place for place, each in enumerate(OPTIONS)}

# The protocols of which each match needs one, and the matches that need an option.
TCP, UDP, ICMP = 6, 17, 1
NEEDS = {"tcp": (TCP,), "udp": (UDP,), "icmp": (ICMP,), "multiport": (TCP, UDP, 136, 33, 132)}
STARTED_BY = {TCP: "tcp", UDP: "udp", ICMP: "icmp"}
WITH_OPTION = ("multiport", "iprange", "conntrack", "state", "ttl", "comment")
MATCHES = ("tcp", "udp", "icmp", *WITH_OPTION)
MOST_MATCHES = 16

# Values that are no condition, unless they are inverted; nor is an address of which no bit is asked.
ALL = {b"-i": b"+", b"-o": b"+", b"-p": 0, b"--sport": (0, 65535), b"--dport": (0, 65535), b"--tcp-flags": (0, 0)}

# A condition: the option's first name, whether it is inverted, and its value. Settings of targets have the same form.
Condition = collections.namedtuple("Condition", "name inverted value")
# A match, or the rule itself or its target: its name and its conditions in the order of a listing.
Part = collections.namedtuple("Part", "name conditions")


class Rule:
    """The rule's own conditions, the matches in the order in which they were started, and the target with its settings. The
    target is (b"-j" or b"-g", name), or None."""

    def __init__(self, own, matches, target, settings):
        self.own, self.matches, self.target, self.settings = own, matches, target, settings
        # What `matching` makes of the conditions, once it is asked.
        self.asked = None

    def chain(self):
        """The chain that the rule names, or None."""
        return self.target[1] if self.target and self.target[1] not in values.TARGETS else None

    def has(self, name):
        return any(each.name == name for each in self.own.conditions)

    def to(self, chain):
        return Rule(self.own, self.matches, (self.target[0], chain), self.settings)


class Given:
    """A rule, a match or a target while its options are read: the slots that were given, and the conditions."""

    def __init__(self, name):
        self.name, self.slots, self.conditions = name, set(), []

    def part(self):
        return Part(self.name, sorted(self.conditions, key=lambda each: PLACES[each.name]))

    def value(self, name):
        """The value of an option that isn't inverted, or None."""
        return next((each.value for each in self.conditions if each.name == name and not each.inverted), None)


class Reader:
    def __init__(self, words):
        self.words, self.at = words, 0
        self.own, self.matches, self.target, self.settings = Given("rule"), [], None, Given("target")

    def read(self):
        while self.at < len(self.words):
            self.read_option()
        self.ask_needs()
        matches = [each.part() for each in self.matches]
        return Rule(self.own.part(), matches, self.target, self.settings.part())

    def read_option(self):
        """One option with what belongs to it, asked in the order of the faults."""
        inverted = self.words[self.at] == b"!"
        if inverted:
            self.at += 1
            need(self.at < len(self.words), "P2")
        word = self.words[self.at]
        found = BY_NAME.get(word)
        need(not inverted or found and found.inverts, "P5")
        if not found:
            raise Fault("P1", word)
        taken = self.words[self.at + 1 : self.at + 1 + len(found.readers)]
        need(len(taken) == len(found.readers), "P2")
        self.at += 1 + len(taken)
        owner = self.owner_of(found)
        if found.names[0] == b"-m":
            return self.start_match(taken[0])
        need(found.slot not in owner.slots, "P4")
        need({b"-j", b"-g"} != {found.names[0], *(self.target or ())[:1]}, "P9")
        owner.slots.add(found.slot)
        read = [reader(word) for reader, word in zip(found.readers, taken)]
        return self.take(owner, found.names[0], inverted, read)

    def owner_of(self, found):
        """What an option belongs to: of the matches that have it the one that was started last."""
        if found.owners == ["rule"]:
            return self.own
        if found.owners[0] in ("REJECT", "LOG"):
            need(self.target == (b"-j", found.owners[0].encode()), "P11")
            return self.settings
        begun = [match for match in self.matches if match.name in found.owners]
        if begun:
            return begun[-1]
        need(any(owner in STARTED_BY.values() for owner in found.owners), "P1")
        started = STARTED_BY.get(self.own.value(b"-p"))
        need(started in found.owners, "P6")
        return self.start_match(started.encode())

    def start_match(self, word):
        need(word.decode("latin-1") in MATCHES, "P7")
        need(len(self.matches) < MOST_MATCHES, "P8")
        self.matches.append(Given(word.decode()))
        return self.matches[-1]

    def take(self, owner, name, inverted, read):
        if name in (b"-j", b"-g"):
            self.target = (name, read[0])
            return
        if name == b"--syn":
            name, read = b"--tcp-flags", [values.flags(b"SYN,RST,ACK,FIN"), values.flags(b"SYN")]
        value = read[0] if len(read) == 1 else tuple(read)
        need(not (name == b"-p" and inverted and value == 0), "P3")
        is_all = value[1] == 0 if name in (b"-s", b"-d") else ALL.get(name) == value
        if inverted or not is_all:
            owner.conditions.append(Condition(name, inverted, value))

    def ask_needs(self):
        """After the last word: what each match needs, and then the target."""
        protocol = self.own.value(b"-p")
        for match in self.matches:
            need(match.name not in NEEDS or protocol in NEEDS[match.name], "P6")
            need(match.name not in WITH_OPTION or match.slots, "P12")
        need(self.settings.value(b"--reject-with") != b"tcp-reset" or protocol == TCP, "P6")


def rule_of(words):
    return Reader(words).read()
