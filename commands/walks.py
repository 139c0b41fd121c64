"""What bin/expect and bin/explain share: a ruleset as iptsim lists it, and the walks of packets through it; and those through a ruleset that iptsim refuses,
whose rules need conditions, as iptaudit tells them."""

import collections
import functools
import json
import os
import re
import subprocess
import tempfile

from commands import json_documents
from commands.at_fault import explained
from commands.kinds import for_ipv4
from commands.places import command
from commands.program import Session, complain, ended, lines_of, read, words_of

REPLY = re.compile(rb"verdict (\S+)(?: (\S+))??(?: by (rule|policy))?")
STEP = re.compile(rb"(\S+) ([0-9]+)")
WITHOUT_VALUE = (b"!", b"-f", b"--log-tcp-sequence", b"--log-tcp-options", b"--log-ip-options", b"--log-uid")
TOO_LONG = b"more than 65536 rules, which are not listed"
UNCLEAR = b"unclear within the steps that iptaudit may take: --steps N allows more"
# The options that are handed on to iptaudit: what each takes, and its help.
HANDED_ON = {"--when": ("CONDITION", "a condition that holds, or after '! ' doesn't, as iptaudit takes it"),
             "--local": ("ADDRESSES", "the machine's addresses, as iptaudit takes them"),
             "--unknown": ("MATCH", "a match that iptaudit is to read as a condition"),
             "--steps": ("N", "how many steps iptaudit may take for a packet")}
# What iptaudit says first of an input, but for what a file says that was assumed: of a line, or another sentence.
SAID = re.compile(rb"(?m)^(?:line ([0-9]+): |iptaudit: )?([^#\n].*)")

# `by` is b"policy", b"rule", a step, or None; a step is a chain and a number. What is due may have None for any.
Verdict = collections.namedtuple("Verdict", "name kind by")
Rule = collections.namedtuple("Rule", "text on_states jump goto")
# A packet line, the steps of its walk, and the verdict. Of a walk that iptaudit tells, the texts of the answers that it needs; of its steps the last alone
# is known, if a rule decides.
Walk = collections.namedtuple("Walk", "line steps verdict answers", defaults=(None,))
# Packets, each with its number, of which iptaudit is asked with more words; the number is that of the line in which these begin, if there are any.
Group = collections.namedtuple("Group", "words packets number")
# What is wrong with an input: the whole message, and where it is known the file and the number of the line.
Complaint = collections.namedtuple("Complaint", "text file line", defaults=(None, None))


class Unfit(Exception):
    """Why an input can't be used, as complaints."""


class Refused(Unfit):
    """Why iptsim refuses a ruleset."""


def bail_out(trouble, is_json):
    """Says why an input can't be used, or of other trouble, also as JSON where that is asked for. Returns what is said, and the status."""
    complaints, status = (trouble.args[0], 1) if isinstance(trouble, Unfit) else ([Complaint(str(trouble))], 2)
    for each in complaints:
        complain(each.text)
    if is_json:
        json_documents.write(json_documents.error_objects(complaints))
    return [each.text for each in complaints], status


def add_options(reader):
    """Has a parser of words take the options that are handed on."""
    for option, (value, about) in HANDED_ON.items():
        reader.add_argument(option, metavar=value, action="append", default=[], help=about)


def handed_on(words):
    """The words that are handed on, of those that were parsed."""
    return [word for option in HANDED_ON for value in getattr(words, option[2:]) for word in (option, value)]


def packet_lines(lines):
    """The lines of an input but blank ones and comments, without blanks around them and with their numbers."""
    stripped = ((number, line.strip(b" \t\r")) for number, line in enumerate(lines, 1))
    return [(number, line) for number, line in stripped if line[:1] not in (b"", b"#")]


def values(line):
    return [word.value for word in words_of(line)]


def rule_of(line):
    """The chain of a rule as `-S` lists it, and what the walk asks of it."""
    words = values(line)
    options, at = {}, 2
    while at < len(words):
        options[words[at]] = words[at + 1:at + 2]
        at += 1 if words[at] in WITHOUT_VALUE else 3 if words[at] == b"--tcp-flags" else 2
    on_states = b"--ctstate" in options or b"--state" in options
    return words[1], Rule(line, on_states, options.get(b"-j", [None])[0], options.get(b"-g", [None])[0])


def has_filter(lines):
    """Whether a restore of the lines comes to a section `*filter`."""
    section = None
    for line in lines:
        if section is None:
            words = words_of(line)
            section = words[0].value if words and words[0].value.startswith(b"*") else None
            if section == b"*filter":
                return True
        elif line.strip(b" \t") == b"COMMIT":
            section = None
    return False


def text_of(verdict):
    by = verdict.by and (b"by " + verdict.by if isinstance(verdict.by, bytes) else b"by %s %d" % verdict.by)
    return b" ".join(filter(None, [verdict.name, verdict.kind, by]))


def read_walks(lines, packets):
    """The walks of packet lines of which none was refused."""
    left, steps = iter(packets), []
    for line in (line for line in lines if not line.startswith(b"-")):
        step, reply = STEP.fullmatch(line), REPLY.fullmatch(line)
        if step:
            steps.append((step.group(1), int(step.group(2))))
        elif reply:
            name, kind, by = reply.groups()
            yield Walk(next(left), steps, Verdict(name, kind, steps[-1] if by == b"rule" else by))
            steps = []


@functools.lru_cache(maxsize=1)
def rule_lines(name):
    """The lines of a ruleset's file, which is read once, since it may be standard input."""
    return for_ipv4(lines_of(read(name)))


def stop_at_refused(session, asked, place, file, chains):
    """Complains of packet lines that were refused: they are asked as the session's lines at some places."""
    refused = [(number, os.fsdecode(explained(packet, session.fault(places).text, chains))) for number, packet, places in asked if session.fault(places)]
    if refused:
        raise Unfit([Complaint(f"{place}{number}: {why}", file, number) for number, why in refused])


class Answers:
    """What the program says of a ruleset: its chains, their rules, and the walk of each of the packet lines, which have their numbers. What is said
    of one that is refused begins with `place` and its number; `file` is where it stands, if it is a file."""

    def __init__(self, name, packets, place, file=None):
        lines = rule_lines(name)
        session = Session()
        restore = session.restore(lines)
        session.ask(b"iptables -S")
        asked = [(number, packet, session.ask(packet)) for number, packet in packets]
        written = session.run()
        if session.fault(restore):
            number = min(next(place for place in restore if place in session.faults) - 1, len(lines))
            text = f"{name} doesn't load: line {number}: {session.fault(restore).text.decode()}"
            raise Refused([Complaint(text, name, number)])
        if not has_filter(lines):
            raise Unfit([Complaint(f"{name} has no section *filter that iptsim reads: {command('check')} says why", name)])
        self.read_listing(written)
        stop_at_refused(session, asked, place, file, self.chains)
        self.walks = list(read_walks(written, [packet for _, packet in packets]))

    def of_packets(self):
        """The walks of each packet: one."""
        return [[walk] for walk in self.walks]

    def read_listing(self, lines):
        self.chains, self.rules = [], {}
        for line in lines:
            if line.startswith(b"-A "):
                chain, rule = rule_of(line)
                self.rules.setdefault(chain, []).append(rule)
            elif line.startswith(b"-"):
                self.chains.append(line.split(b" ")[1])

    def rule(self, step):
        return self.rules[step[0]][step[1] - 1]

    def passed(self, walk):
        """Each rule that a packet came to, whether it matched or not."""
        stack, chain, number = [], values(walk.line)[1], 1
        for step in walk.steps:
            while chain != step[0]:
                yield from self.rest(chain, number)
                chain, number = stack.pop()
            yield from ((chain, place) for place in range(number, step[1] + 1))
            rule, number = self.rule(step), step[1] + 1
            target = rule.goto or rule.jump
            if target == b"RETURN" and stack:
                chain, number = stack.pop()
            elif target == b"RETURN":
                return
            elif target in self.rules:
                stack += [] if rule.goto else [(chain, number)]
                chain, number = target, 1
        if walk.verdict.by == b"policy":
            for chain, number in [(chain, number), *reversed(stack)]:
                yield from self.rest(chain, number)

    def rest(self, chain, number):
        return ((chain, place) for place in range(number, len(self.rules.get(chain, [])) + 1))

    def unmatched(self):
        matched = {step for walk in self.walks for step in walk.steps}
        steps = ((chain, number) for chain, rules in self.rules.items() for number in range(1, len(rules) + 1))
        return [step for step in steps if step not in matched]

    def invalid_at(self, walk):
        """The first rule on states that a packet came to which is INVALID for want of `ct`; None where there is none."""
        if any(word.startswith(b"ct=") for word in values(walk.line)):
            return None
        return next((step for step in self.passed(walk) if self.rule(step).on_states), None)


# What iptaudit writes as JSON.
def step_of(found):
    return found["chain"].encode(), found["number"]


def answer_of(found, is_placed=True):
    """The text of a condition, after `! ` where it doesn't hold, and with its place where it has one."""
    place = b" at %s %d" % step_of(found) if is_placed and "chain" in found else b""
    return (b"" if found["holds"] else b"! ") + found["condition"].encode() + place


def walk_of(line, found):
    name, _, kind = found["verdict"].encode().partition(b" ")
    by = found.get("by", {})
    step = step_of(by) if "number" in by else None
    verdict = Verdict(name, kind or None, step or (b"policy" if by else None))
    return Walk(line, [step] if step else [], verdict, [answer_of(each) for each in found.get("answers", ())])


class WholeAnswers:
    """What iptaudit, given some words, says of a ruleset whose rules need conditions: the walks of each packet line of some groups, of which one has answers
    that are right, and the rules that none of the packets matches. What is said of a line that is refused begins with `place` and its number; `file`
    is where it stands, if it is a file."""

    def __init__(self, name, words, groups, place, file=None):
        self.name, self.words, self.groups, self.place, self.file = name, words, groups, place, file
        session = Session()
        asked = [(number, packet, session.ask(packet)) for group in groups for number, packet in group.packets]
        session.run()
        stop_at_refused(session, asked, place, file, [])
        self.found = [walks for group in groups for walks in self.walks_of(group)]

    def ask(self, words, packets, number=None):
        """The document that iptaudit writes of packet lines. What it refuses is the ruleset, or words, which stand in a line of this number."""
        with tempfile.TemporaryDirectory() as folder:
            rules = os.path.join(folder, "rules")
            with open(rules, "wb") as file:
                file.write(b"\n".join(rule_lines(self.name)) + b"\n")
            data = b"".join(packet + b"\n" for _, packet in packets)
            said = ended([*words, *self.words, "--json", rules], data, "iptaudit", subprocess.PIPE)
        if said.returncode == 2:
            at, why = SAID.search(said.stderr).groups()
            if at:
                raise Unfit([Complaint(f"{self.name} doesn't load: line {int(at)}: {os.fsdecode(why)}", self.name, int(at))])
            place = f"{self.place}{number}: " if number else ""
            raise Unfit([Complaint(place + os.fsdecode(why), self.file if number else None, number)])
        return json.loads(said.stdout)

    def walks_of(self, group):
        """The walks of each packet of a group; none of one whose walks aren't found out."""
        found = self.ask(["walk", *group.words], group.packets, group.number)["packets"]
        return [[walk_of(packet, walk) for walk in each.get("walks", ())] for (_, packet), each in zip(group.packets, found)]

    def of_packets(self):
        return self.found

    @functools.cached_property
    def rules(self):
        """The rules by their steps, each with its text, what it needs, and whether a packet matches it."""
        found = self.ask(["cover"], [packet for group in self.groups for packet in group.packets])["rules"]
        return {step_of(each): each for each in found}

    def rule(self, step):
        rule = self.rules[step]
        needs = b" and ".join(answer_of(each, False) for each in rule.get("needs", ()))
        return Rule(rule["rule"].encode() + (b" if " + needs if needs else b""), False, None, None)

    def unmatched(self):
        return [step for step, rule in self.rules.items() if rule["life"] != "covered"]

    def invalid_at(self, _walk):
        """That isn't known: of a walk the last step alone is."""
        return None
