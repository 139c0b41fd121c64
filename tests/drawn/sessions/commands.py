"""Commands, steered by the table that the model has come to: most edits find their chain and their rule."""

from tests.model import printing
from tests.model.commands import COMMANDS
from tests.model.values import BUILT_IN
from tests.model.words import words_of

from . import values
from .rules import RuleDraw

KINDS = {"-A": 30, "-I": 13, "-R": 8, "-D": 11, "-C": 7, "-F": 3, "-N": 8, "-X": 4, "-P": 4, "-E": 5, "-S": 5, "none": 1}
# Where packets are asked; and in a restore, where a fault ends all.
LIGHT_KINDS = {"-A": 45, "-I": 12, "-R": 5, "-D": 5, "-C": 3, "-F": 2, "-N": 10, "-X": 2, "-P": 5, "-E": 4, "-S": 1, "none": 0.2}
SECTION_KINDS = {"-A": 60, "-I": 10, "-R": 2, "-D": 2, "-C": 1, "-F": 2, "-N": 6, "-X": 0.5, "-P": 4, "-E": 1, "-S": 0.05, "none": 0.05}
LONG = {short: name.encode() for short, name in (names.split() for names, _ in COMMANDS)}
NO_COMMANDS = ((), (b"-L",), (b"-Z",), (b"--add", b"a"), (b"-a", b"INPUT"), (b"A", b"INPUT"), (b"-s", b"1.1.1.1", b"-A", b"INPUT"), (b"!", b"-F"),
               (b"COMMIT",), (b"",), (b"-v", b"-S"))
HEADS = ((b"-t", b"nat"), (b"--table", b"mangle"), (b"-t",), (b"-t", b"filter", b"-t", b"filter"), (b"-t", b"filter", b"-t"),
         (b"-t", b"filter", b"--table", b"nat"), (b"-t", b"nat", b"-t"), (b"-t", b"Filter"), (b"-t", b""))
OTHER_NAMES = {b"-s": b"--source", b"-d": b"--dst", b"-p": b"--protocol", b"-i": b"--in-interface", b"-j": b"--jump",
               b"--dport": b"--destination-port"}


class CommandDraw:
    """Draws commands for a table. `wrong` is how often something is made bad."""

    def __init__(self, dice, table, wrong, light=False):
        self.dice, self.table, self.wrong, self.light = dice, table, wrong, light

    def bad(self, share):
        return self.dice.chance(self.wrong * share)

    def user_chain(self):
        """One that there is, if there is one; else any name."""
        there = self.table.user_chains()
        return self.dice.choice(there) if there and not self.bad(0.25) else self.any_name()

    def any_name(self):
        return self.dice.choice(values.BAD_CHAINS if self.bad(0.3) else values.CHAINS)

    def new_name(self):
        """A name that no chain has yet, most of the time."""
        free = [name for name in values.CHAINS if name not in self.table.chains]
        return self.dice.choice(free) if free and not self.bad(0.6) and self.dice.chance(0.9) else self.any_name()

    def chain(self, has_rules=False):
        """Any chain that there is, now and then another."""
        if self.bad(0.2):
            return self.any_name()
        filled = [name for name, rules in self.table.chains.items() if rules]
        if has_rules and filled and self.dice.chance(0.85):
            return self.dice.choice(sorted(filled))
        there = self.table.user_chains()
        return self.dice.choice(there) if there and self.dice.chance(0.5) else self.dice.weighted({b"INPUT": 6, b"FORWARD": 3, b"OUTPUT": 2})

    def number(self, chain, more=0):
        """The number of a rule, or one past the last."""
        there = len(self.table.chains.get(chain, ())) + more
        if self.bad(0.3) or not there:
            return self.dice.choice(values.BAD_NUMBERS if self.bad(0.6) else values.NUMBERS)
        return b"%d" % self.dice.randint(1, there)

    def rule(self, chain):
        """The words of a rule. Its target is mostly a chain that stands after this one, so that most don't make a loop."""
        there = self.table.user_chains()
        after = [name for name in there if name > chain or chain in BUILT_IN]
        targets = there if self.dice.chance(0.05 + self.wrong / 3) else after
        words = RuleDraw(self.dice, targets, self.wrong, self.light).rule()
        other = {b"INPUT": (b"-o", b"--out-interface"), b"OUTPUT": (b"-i", b"--in-interface")}.get(chain)
        if other and self.dice.chance(0.01):
            # (a rule that is refused for its interface, and perhaps for its target)
            return [other[0], b"lo", b"-j", self.dice.choice(BUILT_IN + values.CHAINS)]
        return words if other is None or self.dice.chance(0.15 + self.wrong / 2) else without(words, other)

    def rule_there(self, chain):
        """The words of a rule of the chain, as it is listed or nearly so."""
        rules = self.table.chains.get(chain)
        if not rules or self.bad(0.3):
            return self.rule(chain)
        words = words_of(printing.rule(self.dice.choice(rules)))
        if self.dice.chance(0.3):
            words = [OTHER_NAMES.get(word, word) for word in words]
        if self.dice.chance(0.15):
            words = [word.removesuffix(b"/32") for word in words]
        return words

    def words(self, kind):
        dice, chain = self.dice, self.chain(has_rules=kind in ("-R", "-D", "-C"))
        if kind in ("-A", "-I", "-R"):
            has_number = kind == "-R" or kind == "-I" and dice.chance(0.7)
            return [chain, *([self.number(chain, more=kind == "-I")] if has_number else []), *self.rule(chain)]
        if kind == "-D":
            return [chain, self.number(chain)] if dice.chance(0.5) else [chain, *self.rule_there(chain)]
        if kind == "-C":
            return [chain, *self.rule_there(chain)]
        if kind in ("-F", "-S"):
            return [chain] if dice.chance(0.9 if kind == "-F" else 0.6) else []
        if kind == "-N":
            return [self.new_name()]
        if kind == "-X":
            if dice.chance(0.2):
                return []
            empty = [name for name in self.table.user_chains() if not self.table.chains[name]]
            if empty and dice.chance(0.6):
                return [dice.choice(empty)]
            return [self.user_chain() if dice.chance(0.85) else self.chain()]
        if kind == "-P":
            policy = dice.choice((b"REJECT", b"accept", b"", b"-", b"RETURN")) if self.bad(0.2) else dice.choice((b"ACCEPT", b"DROP"))
            return [chain if dice.chance(0.06 + self.wrong / 4) else dice.choice(BUILT_IN), policy]
        return [self.chain() if dice.chance(0.1) else self.user_chain(), self.new_name()]

    def command(self, kinds):
        """The words of a command, with what may stand before it."""
        kind = self.dice.weighted(kinds)
        if kind == "none":
            return list(self.dice.choice(NO_COMMANDS))
        name = kind.encode() if self.dice.chance(0.85) else LONG[kind]
        words = [name, *self.words(kind)]
        if self.bad(0.04):
            words = words[: self.dice.randint(1, 2)]
        if self.bad(0.03):
            words.append(self.dice.choice((b"x", b"1", b"", b"-j", b"INPUT")))
        if self.bad(0.06):
            words = [*self.dice.choice(HEADS), *(words if self.dice.chance(0.7) else ())]
        elif self.dice.chance(0.04):
            words = [self.dice.choice((b"-t", b"--table")), b"filter", *words]
        return words


def without(words, names):
    """The words without the option of these names, which has one value."""
    kept, left = [], iter(words)
    for word in left:
        if word not in names:
            kept.append(word)
            continue
        next(left, None)
        if kept[-1:] == [b"!"]:
            kept.pop()
    return kept
