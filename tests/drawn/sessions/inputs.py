"""Whole sessions and restores, drawn line by line, each line with the model's reply; files that are loaded before them; and inputs that come to the
limits of the table, which no short session does."""

import collections
import re

from tests.drawn.lots import Lots
from tests.model.restore import FILTER, OUTSIDE, Restore
from tests.model.session import Session, answer, loaded, whole
from tests.model.values import BUILT_IN
from tests.model.words import lines_of

from . import values
from .aims import aimed
from .commands import KINDS, LIGHT_KINDS, CommandDraw
from .packets import packet
from .sections import listed_lines, restore_line
from .values import spelled

FAULT = re.compile(rb"line [0-9]+: ([A-Z][0-9]+) .*")
# What is drawn, by its weight: how often each kind of line comes in a session, how often something is made bad, and whether rules
# have few conditions, so that many match.
Theme = collections.namedtuple("Theme", "weight kinds wrong light lines")
# The program's words but for the file, the file, if one is loaded, the input, what is due, and how often each kind of answer came.
Input = collections.namedtuple("Input", "words file data due counts")
# How often a file is loaded.
LOADED = 0.2
THEMES = {
    "edits": Theme(30, {"command": 80, "save": 4, "lines": 3, "packet": 8, "restore": 1, "other": 3}, 0.15, False, 100),
    "walks": Theme(25, {"command": 20, "lines": 1, "packet": 75, "restore": 0.5}, 0.03, True, 110),
    "fields": Theme(15, {"command": 50, "lines": 8, "packet": 45, "restore": 0.5}, 0.05, False, 90),
    "words": Theme(12, {"command": 75, "packet": 20, "lines": 2, "other": 8, "restore": 1}, 0.6, False, 80),
    "restores": Theme(14, {"command": 12, "packet": 8, "save": 6, "restore": 14, "lines": 1}, 0.08, True, 100),
    "whole": Theme(8, {}, 0.06, True, 40),
}
OTHER_LINES = (b"", b"  ", b"# iptables -F", b" \t# \"", b"boom", b"iptables-save x", b"lines", b"lines INPUT x", b"COMMIT", b"*filter", b"iptables",
               b'"iptables-save"', b'"# x"', b"IPTABLES -F", b"iptables-restore", b"E", b"lines \"\"", b'iptables -A "x', b'a"b', b"#" * 10240,
               b"#" * 10241, b"iptables -A INPUT -m comment --comment " + b"x" * 10250, b" " * 10241, b"iptables" + b" " * 10230 + b"-F", b"-A INPUT")
END_WORDS = {b"E": 12, b"END": 2, b"COMMIT": 1, b"*filter": 1, b"# x": 1, b"": 0.3, b"a b": 0.5, b"w" * 64: 0.5, b"w" * 65: 0.3, b" x": 0.3}
BAD_RESTORES = ((b"-n", b"-n"), (b"-x",), (b"--noflush", b"-n"), (b"-t", b"-t"), (b"filter",), (b"",), (b"<<E",))


class Talk:
    """An input while it is drawn: its lines, the model's replies, and how often each kind of answer came."""

    def __init__(self, dice, theme, table=None):
        self.dice, self.theme, self.run = dice, THEMES[theme], Session(table)
        self.wrong = dice.choice((self.theme.wrong, self.theme.wrong / 5))
        self.lines, self.replies, self.counts, self.walks = [], [], collections.Counter(), 0

    def say(self, line):
        self.lines.append(line)
        self.take(self.run.line(line))

    def take(self, replies):
        self.replies += replies
        self.counts.update(code[1].decode() for code in map(FAULT.fullmatch, replies) if code)
        if self.run.walks[self.walks :]:
            self.count_walk(*self.run.walks[-1])
        self.walks = len(self.run.walks)

    def count_walk(self, trail, verdict):
        verdict = verdict.decode()
        self.counts["REJECT by rule" if verdict.startswith("REJECT") else verdict] += 1
        steps = set() if trail else {"no rule"}
        for (chain, number), after in zip(trail, [*trail[1:], (None, 0)]):
            how, name = self.run.table.chains[chain][number - 1].target or (None, b"no target")
            if name in (b"RETURN", b"LOG", b"no target"):
                steps.add(name.decode() + (" in a built-in chain" if name == b"RETURN" and chain in BUILT_IN else ""))
                if name != b"RETURN" and after[0] not in (chain, None):
                    steps.add("end of a chain")
            elif name not in (b"ACCEPT", b"DROP", b"REJECT"):
                steps.add("jump" if how == b"-j" else "goto")
        if "goto" in steps and verdict.endswith("policy"):
            steps.add("end after a goto")
        self.counts.update(steps)

    def command(self):
        words = CommandDraw(self.dice, self.run.table, self.wrong, self.theme.light).command(LIGHT_KINDS if self.theme.light else KINDS)
        self.say(spelled([b"iptables", *words], self.dice))

    def packet(self):
        """A packet, mostly one that is aimed at a rule."""
        table, hook, aim = self.run.table, None, {}
        chains = BUILT_IN if self.dice.chance(0.8) else table.user_chains()
        filled = [chain for chain in chains if table.chains[chain]]
        if filled and self.dice.chance(0.85):
            chain = self.dice.choice(filled)
            hook = chain if chain in BUILT_IN else None
            aim = aimed(self.dice.choice(table.chains[chain]), self.dice)
        self.say(spelled(packet(self.dice, self.wrong, hook, aim), self.dice))

    def restore(self, has_end=True):
        """A restore with its end line, if it has one."""
        dice = self.dice
        options = dice.shuffled([dice.choice(names) for names in ((b"-n", b"--noflush"), (b"-t", b"--test")) if dice.chance(0.35)])
        if dice.chance(self.wrong / 3):
            options += dice.choice(BAD_RESTORES)
        end = dice.weighted(END_WORDS)
        self.say(spelled([b"iptables-restore", *options, b"<<" + end], dice))
        if self.run.restore:
            self.section_lines(dice.randint(1, 40))
            if has_end and not dice.chance(0.02):
                self.say(self.run.end if self.run.restore else b"")

    def section_lines(self, most):
        """Lines of the open restore; after its fault a few more."""
        dice = self.dice
        if dice.chance(0.15):
            for line in listed_lines(dice, self.run.table):
                if self.run.restore:
                    self.say(line)
        for left in range(most, 0, -1):
            if not self.run.restore or self.run.has_failed and dice.chance(0.5):
                return
            line = restore_line(dice, self.run.restore, self.wrong, may_end=left < most / 2)
            if self.run.has_failed and dice.chance(0.4):
                line = dice.choice(OTHER_LINES)
            if line is None or left == 1 and dice.chance(0.9):
                # The open section ends, most of the time.
                if self.run.restore and self.run.restore.where != OUTSIDE and not dice.chance(0.1):
                    self.say(b"COMMIT")
                return
            self.say(line)

    def session(self):
        """A session: first some chains and rules, then lines of all kinds."""
        dice, theme = self.dice, self.theme
        for name in values.CHAINS[: dice.randint(0, 6)]:
            self.say(b"iptables -N " + name)
        for _ in range(dice.randint(0, 40) if theme.light else dice.randint(0, 8)):
            self.command()
        draws = {"command": self.command, "packet": self.packet, "save": lambda: self.say(b"iptables-save"),
                 "lines": lambda: self.say(spelled([b"lines", CommandDraw(dice, self.run.table, self.wrong).chain()], dice)),
                 "other": lambda: self.say(dice.choice(OTHER_LINES)), "restore": self.restore}
        while len(self.lines) < theme.lines:
            draws[dice.weighted(theme.kinds)]()
        if dice.chance(0.25):
            self.restore(has_end=False)
        self.take(self.run.finish())
        return self.data(), (whole(self.replies), b"", self.run.status)

    def whole_restore(self, words, file):
        """An input that is one restore."""
        self.run.restore = Restore(self.run.table, "--noflush" in words, "--test" in words)
        self.section_lines(self.dice.randint(1, 60))
        data = self.data()
        due = answer(words, data, file)
        if not any(FAULT.fullmatch(reply) for reply in self.replies):
            self.take(due[0].splitlines())
        return data, due

    def data(self):
        """The input's bytes. The last line may lack its newline."""
        last = b"" if self.lines and self.lines[-1] and self.dice.chance(0.2) else b"\n"
        return b"\n".join(self.lines) + last


def sections_in(file):
    """How many filter sections of a file are put in place, where it has no fault."""
    run, count = Restore(Session().table, False, False), 0
    for line in lines_of(file):
        was = run.where
        run.line(line)
        count += was == FILTER and run.where == OUTSIDE
    return count


def drawn_file(dice):
    """A file that is loaded: a restore without options, and mostly without a fault."""
    talk = Talk(dice, "whole")
    talk.wrong = dice.choice((0, 0, talk.wrong))
    talk.run.restore = Restore(talk.run.table, False, False)
    talk.section_lines(dice.randint(5, 60))
    return talk.data()


def drawn_input(seed):
    dice = Lots(seed)
    theme = dice.weighted({name: each.weight for name, each in THEMES.items()})
    words = ["restore", *(word for word in ("--noflush", "--test") if dice.chance(0.3))] if theme == "whole" else ["session"]
    file, table, counts = None, None, collections.Counter()
    if dice.chance(LOADED):
        # A file with a fault is mostly drawn again.
        for _ in range(dice.randint(1, 4)):
            file = drawn_file(dice)
            table, said, status = loaded(file)
            if not said:
                break
        if said:
            return Input(words, file, b"iptables-save\n", (b"", said, status), {"a fault in a file": 1})
        counts["a file"] += 1
        counts["a file of two sections"] += sections_in(file) > 1
    talk = Talk(dice, theme, table)
    data, due = talk.whole_restore(words, file) if theme == "whole" else talk.session()
    return Input(words, file, data, due, counts + talk.counts)


def filled_chain(talk):
    """A chain of 8,192 rules, and edits of it."""
    say, dice = talk.say, talk.dice
    rules = [b"-A INPUT -j LOG" if number % 1024 else b"-A INPUT -s 10.0.%d.%d -j DROP" % divmod(number, 256) for number in range(1, 8191)]
    for line in (b"iptables -N a", b"iptables-restore -n <<E", b"*filter", *rules, b"COMMIT", b"E"):
        say(line)
    edits = (b"-A INPUT", b"-I INPUT", b"-I INPUT 8193 -j a", b"-I INPUT 8192 -s 1.1.1.1", b"-A INPUT -j a", b"-I INPUT 4000 -j RETURN")
    others = (b"-I INPUT 8194 -j a", b"-A INPUT -o lo", b"-A INPUT -j nowhere", b"-A INPUT -g OUTPUT", b"-R INPUT 8192 -j a", b"-R INPUT 8193",
              b"-A a -j DROP", b"-D INPUT 8192", b"-D INPUT 1")
    for _ in range(32):
        say(b"iptables " + dice.choice(edits))
        if dice.chance(0.3):
            say(b"iptables " + dice.choice(others))
    for line in (b"iptables-restore -n <<E", b"*filter", b"-D INPUT 8192", b"-A INPUT -j DROP", b"-A INPUT -j DROP", b"COMMIT", b"E"):
        say(line)


def many_chains(talk):
    """1,024 user chains, and more."""
    say, dice = talk.say, talk.dice
    for line in (b"iptables-restore <<E", b"*filter", *(b":k%d - [0:0]" % number for number in range(1, 1021)), b"COMMIT", b"E"):
        say(line)
    edits = (b"-N x%d", b"-N y%d", b"-N k%d", b"-X k%d", b"-E k%d z", b"-E z k%d", b"-A k%d -j k1020", b"-A INPUT -j k%d")
    for number in range(80):
        say(b"iptables " + dice.choice(edits[:2] if number < 24 else edits) % dice.randint(1, 1020))
    for line in (b"iptables-restore -n <<E", b"*filter", b":k7 -", b":one -", b":two -", b":three -", b":four -", b":five -", b"COMMIT", b"E"):
        say(line)


def long_walks(talk):
    """Walks with as many rules as one has at most, which are 65,536, and with some more or less."""
    say, dice = talk.say, talk.dice
    for line in (b"iptables-restore <<E", b"*filter", b":a -", *[b"-A a"] * 256, *[b"-A INPUT -j a"] * 255, b"COMMIT", b"E"):
        say(line)
    # Each of the 255 jumps matches, and the 256 rules behind it: 65,535 rules.
    packet = b"packet INPUT src=1.2.3.4 dst=1.2.3.4 proto=47"
    for edit in (b"# 65,535", b"iptables -A INPUT -j ACCEPT", b"iptables -I INPUT 1", b"iptables -D INPUT 1", b"iptables -R INPUT 256", b"iptables -A INPUT -j DROP"):
        say(edit)
        say(packet)
    edits = (b"-A a", b"-D a 1", b"-I INPUT 1", b"-D INPUT 1", b"-A INPUT -j ACCEPT", b"-A INPUT -j RETURN", b"-P INPUT DROP")
    for _ in range(4):
        say(b"iptables " + dice.choice(edits))
        say(packet)


LIMITS = {draw.__name__: draw for draw in (filled_chain, many_chains, long_walks)}


def limit_input(name):
    """The input of a name, whose last word is one of these, as `drawn_input` gives it."""
    talk = Talk(Lots(name), "edits")
    LIMITS[name.split()[-1]](talk)
    return Input(["session"], None, talk.data(), (whole(talk.replies), b"", talk.run.status), talk.counts)
