"""Large rulesets, edited."""

from .ruleset import target_of, verdict_of

MOST = 10
# How often each edit, a method of Edits, is drawn; and the same of those after which packets mostly get the verdicts that they got.
KINDS = {"delete": 5, "insert": 5, "decide": 3, "swap": 3, "move": 2, "add_chain": 1, "remove_chain": 1}
QUIET_KINDS = {"dead": 4, "log": 2, "again": 2, "swap": 2, "add_chain": 1}
# How often an edit is a quiet one, in all edits of one ruleset; and how often the policy is changed last.
QUIET, POLICY = (0, 0, 0.5, 0.9, 1), 0.12
NEW_CHAIN = "VPN"
VERDICTS = ("-j ACCEPT", "-j DROP", "-j REJECT")


class Edits:
    """Edits of a ruleset, each of which gives a ruleset without loops. Where one can't be done, nothing is."""

    def __init__(self, large, ruleset):
        self.large, self.draw, self.ruleset = large, large.draw, ruleset

    def place(self):
        return self.draw.randrange(len(self.ruleset.rules))

    def later(self, chain):
        """The chains to which a chain may lead."""
        ways = ["INPUT", *self.ruleset.chains]
        return ways[ways.index(chain) + 1 :]

    def chain_at(self, place):
        return self.ruleset.rules[place].split()[1]

    def put(self, first, end, *rules):
        kept = self.ruleset.rules
        self.ruleset = self.ruleset._replace(rules=[*kept[:first], *rules, *kept[end:]])

    def delete(self):
        if len(self.ruleset.rules) > 1:
            place = self.place()
            self.put(place, place + 1)

    def insert(self):
        place = self.place()
        chain = self.chain_at(place)
        self.put(place, place, self.large.rule(chain, self.later(chain), self.draw.random() < 0.5))

    def decide(self):
        decides = [place for place, rule in enumerate(self.ruleset.rules) if verdict_of(rule)]
        if decides:
            place = self.draw.choice(decides)
            head = self.ruleset.rules[place].partition(" -j ")[0]
            others = [end for end in VERDICTS if verdict_of(end) != verdict_of(self.ruleset.rules[place])]
            self.put(place, place + 1, f"{head} {self.draw.choice(others)}")

    def swap(self):
        there = [place for place in range(1, len(self.ruleset.rules)) if self.chain_at(place - 1) == self.chain_at(place)]
        if there:
            place = self.draw.choice(there)
            self.put(place - 1, place + 1, *self.ruleset.rules[place - 1 : place + 1][::-1])

    def move(self):
        place = self.place()
        rule, chain = self.ruleset.rules[place], self.chain_at(place)
        self.put(place, place + 1)
        there = [other for other in range(len(self.ruleset.rules)) if self.chain_at(other) == chain]
        to = self.draw.choice(there) if there else place
        self.put(to, to, rule)

    def policy(self):
        self.ruleset = self.ruleset._replace(policy="DROP" if self.ruleset.policy == "ACCEPT" else "ACCEPT")

    def add_chain(self):
        """Adds a chain with one to three rules, and a rule that jumps to it."""
        if NEW_CHAIN in self.ruleset.chains:
            return
        place = self.place()
        chain, chains = self.chain_at(place), list(self.ruleset.chains)
        chains.insert(self.draw.randint(len(chains) - len(self.later(chain)), len(chains)), NEW_CHAIN)
        self.ruleset = self.ruleset._replace(chains=chains)
        self.put(place, place, f"-A {chain} {' '.join(self.large.conditions(True))} -j {NEW_CHAIN}")
        rules, end = [self.large.rule(NEW_CHAIN, self.later(NEW_CHAIN)) for _ in range(self.draw.randint(1, 3))], len(self.ruleset.rules)
        self.put(end, end, *rules)

    def remove_chain(self):
        chain = self.draw.choice(self.ruleset.chains)
        left = [rule for rule in self.ruleset.rules if chain not in (rule.split()[1], target_of(rule))]
        if left and len(self.ruleset.chains) > 1:
            self.ruleset = self.ruleset._replace(chains=[each for each in self.ruleset.chains if each != chain], rules=left)

    def log(self):
        """Puts in a rule that hands all packets on."""
        place, wide = self.place(), self.draw.random() < 0.5
        words = [f"-A {self.chain_at(place)}", *self.large.conditions(wide), self.draw.choice(("-j LOG", ""))]
        self.put(place, place, " ".join(words).rstrip())

    def again(self):
        place = self.place()
        self.put(place, place, self.ruleset.rules[place])


def edited(large, ruleset, dead):
    """A ruleset with one to ten edits, of which some take out dead rules, those of these names, first."""
    draw, quiet = large.draw, large.draw.choice(QUIET)
    kinds = [draw.weighted(QUIET_KINDS if draw.random() < quiet else KINDS) for _ in range(draw.choice((1, 1, 2, draw.randint(3, MOST))))]
    if draw.random() < POLICY:
        kinds[-1] = "policy"
    edits = Edits(large, ruleset.without(draw.sample(dead, min(len(dead), kinds.count("dead")))))
    for kind in kinds:
        if kind != "dead":
            getattr(edits, kind)()
    return edits.ruleset
