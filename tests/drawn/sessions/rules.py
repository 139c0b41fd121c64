"""The words of rules."""

from tests.model.options import BY_NAME
from tests.model.values import BUILT_IN

from . import values


def options_of(*rows):
    """Options, each by its first name, the kinds of its values, and how often it is drawn; with all of its names, as the model has them."""
    return tuple((tuple(BY_NAME[name.encode()].names), tuple(kinds), int(weight)) for name, *kinds, weight in map(str.split, rows))


# The options of a rule, of matches and of targets.
OWN = options_of("-s address 5", "-d address 4", "-i interface 3", "-o interface 2", "-f 2")
PROTOCOL_NAMES = (b"-p", b"--protocol")
PORTS = options_of("--sport port 3", "--dport port 5")
MATCHES = {
    b"tcp": (*PORTS, *options_of("--tcp-flags flags flags 3", "--syn 2")),
    b"udp": PORTS,
    b"icmp": options_of("--icmp-type icmp-type 1"),
    b"multiport": options_of("--sports ports 2", "--dports ports 2", "--ports ports 3"),
    b"iprange": options_of("--src-range range 1", "--dst-range range 1"),
    b"conntrack": options_of("--ctstate states 1"),
    b"state": options_of("--state plain-states 1"),
    b"ttl": options_of("--ttl-eq time 3", "--ttl-gt time 2", "--ttl-lt time 2"),
    b"comment": options_of("--comment comment 1"),
}
MATCH_WEIGHTS = {b"tcp": 8, b"udp": 4, b"icmp": 4, b"multiport": 6, b"iprange": 2, b"conntrack": 3, b"state": 2, b"ttl": 4, b"comment": 2}
NEEDED = {b"tcp": (b"tcp", b"6"), b"udp": (b"udp", b"17"), b"icmp": (b"icmp", b"1"),
          b"multiport": (b"tcp", b"udp", b"sctp", b"dccp", b"udplite", b"6", b"33")}
# Where `!` may not stand.
NOT_INVERTED = (b"--ttl-gt", b"--ttl-lt", b"--comment")
LOG_OPTIONS = options_of("--log-prefix prefix 3", "--log-level level 3", "--log-tcp-sequence 1", "--log-tcp-options 1", "--log-ip-options 1",
                         "--log-uid 1")
TARGETS = {"chain": 30, "goto": 14, b"RETURN": 12, b"ACCEPT": 14, b"DROP": 14, b"REJECT": 8, b"LOG": 6, "none": 6}
LIGHT_TARGETS = {"chain": 34, "goto": 8, b"RETURN": 9, b"ACCEPT": 7, b"DROP": 7, b"REJECT": 6, b"LOG": 12, "none": 14}
# What is done to make a rule bad, and what may stand behind many matches.
MORE = ([], [b"-m", b"state"], [b"--syn"], [b"-m", b"x"])
WRONGS = {"out": 3, "end": 3, "option": 8, "unknown": 2, "command": 2, "!": 3, "twice": 3, "many": 2, "match": 2, "target": 2, "bare": 2}
OPTIONS = [*OWN, *(option for match in MATCHES.values() for option in match), *LOG_OPTIONS,
           *options_of("--reject-with reject-type 1", "-m match 1", "-j chain 1", "-g chain 1", "-p protocol 1")]
UNKNOWN = (b"--limit", b"-v", b"--dport=22", b"-sx", b"--sy", b"x", b"--DPORT", b"-t", b"-", b"--fragments", b"--mac-source", b"-L", b"",
           b"INPUT", b"--tcp-option", b"-S")
COMMANDS = (b"-A", b"-F", b"--flush", b"-S", b"-D", b"--list-rules", b"-X", b"-P", b"-E", b"--new-chain", b"-C", b"-I", b"-R", b"-N")


class RuleDraw:
    """Draws rules. `chains` are the names that there are, and `wrong` how often something is made bad."""

    def __init__(self, dice, chains, wrong, light=False):
        self.dice, self.chains, self.wrong, self.light = dice, chains, wrong, light

    def value(self, kind):
        good, bad = values.KINDS[kind]
        return (bad if self.dice.chance(self.wrong / 3) else good)(self.dice)

    def option(self, names, kinds, may_invert=True):
        """The words of an option: now and then with a longer name, and with `!`."""
        name = names[0] if self.dice.chance(0.7) else self.dice.choice(names)
        words = [name, *(self.value(kind) for kind in kinds)]
        inverts = may_invert and name not in NOT_INVERTED
        share = 0.22 if inverts else self.wrong / 8
        return [b"!", *words] if self.dice.chance(share) else words

    def some_of(self, options, most):
        """Different ones of some options, in any order."""
        drawn = {}
        for _ in range(self.dice.randint(1, most)):
            names, kinds, _ = self.dice.weighted({each: each[2] for each in options})
            drawn[names] = kinds
        return list(drawn.items())

    def match(self, name):
        """(options of a match, whether it is begun by -m)."""
        one_slot = name in (b"multiport", b"ttl")
        chosen = self.some_of(MATCHES[name], 1 if one_slot else 3)
        if name == b"tcp" and len(chosen) > 1:
            chosen = [each for each in chosen if each[0] != (b"--syn",)]
        if self.dice.chance(0.12 if name in (b"tcp", b"udp", b"icmp") else self.wrong / 6):
            chosen = []
        words = [word for names, kinds in chosen for word in self.option(names, kinds)]
        begun = name not in (b"tcp", b"udp", b"icmp") or not words or self.dice.chance(0.5)
        return [self.dice.choice((b"-m", b"-m", b"--match")), name, *words] if begun else words

    def target(self):
        kind = self.dice.weighted(LIGHT_TARGETS if self.light else TARGETS)
        jump, goto = self.dice.choice((b"-j", b"-j", b"--jump")), self.dice.choice((b"-g", b"-g", b"--goto"))
        if kind in ("chain", "goto") and not self.chains and not self.dice.chance(0.1 + self.wrong):
            kind = self.dice.choice((b"ACCEPT", b"DROP", b"RETURN"))
        if kind in ("chain", "goto"):
            # Mostly a chain that there is.
            is_there = self.chains and not self.dice.chance(self.wrong / 3)
            name = self.dice.choice(self.chains) if is_there else self.dice.choice(BUILT_IN) if self.dice.chance(0.2) else self.value("chain")
            return [jump if kind == "chain" else goto, name]
        if kind == "none":
            return []
        words = [jump, kind]
        if kind == b"REJECT" and self.dice.chance(0.6):
            words += [b"--reject-with", self.value("reject-type")]
        if kind == b"LOG" and self.dice.chance(0.7):
            for names, kinds in self.some_of(LOG_OPTIONS, 4):
                words += self.option(names, kinds, may_invert=False)
        return words

    def parts(self):
        """The parts of a rule, those of a protocol first or, now and then, last."""
        dice = self.dice
        own = self.some_of(OWN, 1 if self.light else 2) if dice.chance(0.3 if self.light else 0.6) else ()
        parts = [self.option(names, kinds) for names, kinds in own]
        counts = {0: 8, 1: 2} if self.light else {0: 4, 1: 6, 2: 3, 3: 1, 5: 0.3}
        drawn = [dice.weighted(MATCH_WEIGHTS) for _ in range(dice.weighted(counts))]
        needed = [protocol for match in drawn for protocol in NEEDED.get(match, ())]
        due = []
        if needed and not dice.chance(self.wrong / 4):
            due = [dice.choice(PROTOCOL_NAMES), dice.choice(NEEDED[next(match for match in drawn if match in NEEDED)])]
        elif dice.chance(0.15):
            due = self.option(PROTOCOL_NAMES, ("protocol",))
        # (a second match of another protocol lacks what it needs)
        kept = [each for each in drawn if each not in NEEDED or due and due[-1] in NEEDED[each] or dice.chance(self.wrong / 4)]
        matches = [self.match(each) for each in kept]
        return [due, *parts, *matches] if dice.chance(0.95) else [*parts, *matches, due]

    def wronged(self, words):
        """The words with one of them taken out, put in or changed."""
        dice, at = self.dice, self.dice.randrange(len(words) + 1)
        names, kinds, _ = dice.choice(OPTIONS)
        some, last = [dice.choice(names), *(self.value(kind) for kind in kinds)], min(at, len(words) - 1)

        def put(place, word):
            return [*words[:place], word, *words[place:]]

        changed = {
            "out": lambda: words[:last] + words[last + 1 :],
            "end": lambda: words[:at],
            "option": lambda: words + some if dice.chance(0.6) else words[:at] + some + words[at:],
            "unknown": lambda: put(at if dice.chance(0.5) else len(words), dice.choice(UNKNOWN)),
            "command": lambda: put(at if dice.chance(0.5) else len(words), dice.choice(COMMANDS)),
            "!": lambda: put(at, b"!"),
            "twice": lambda: words + words[: dice.randint(1, 4)],
            "many": lambda: words + [b"-m", b"comment", b"--comment", b"x"] * dice.randint(14, 17) + dice.choice(MORE),
            "bare": lambda: [*words, dice.choice(names)],
            "match": lambda: [*words, b"-m", self.value("match")],
            "target": lambda: [*words, dice.choice((b"-g", b"-j")), self.value("chain")],
        }
        return changed[dice.weighted(WRONGS)]()

    def rule(self):
        parts = [*self.parts(), self.target()]
        words = [word for part in (self.dice.shuffled(parts) if self.dice.chance(0.15) else parts) for word in part]
        while self.dice.chance(self.wrong):
            words = self.wronged(words)
        return words
