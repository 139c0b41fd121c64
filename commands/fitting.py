"""What bin/fit, whose head says what that means, makes of the lines of a dump that are refused."""

import collections
import itertools
import os
import re

from commands import extensions
from commands.findings import visible
from commands.places import command
from commands.program import Trouble, words_of
from commands.refused import BUILT_IN, filter_lines
from commands.rule_parts import Rule, Unclear, quoted
from commands.spelling import KINDS, port_range, refused_values

HEAD, HEAD_LIMIT = b"# iptsim-fit: for trials", 1000
NEVER = b"! -s 0.0.0.0/0"
PORTS = {b"--sport": b"--sports", b"--dport": b"--dports"}
OF_TARGETS = (b"ACCEPT", b"DROP", b"RETURN")

# What a match tests that the program lacks: the words that an assumption may name, and whether `!` stands before it.
Condition = collections.namedtuple("Condition", "name words inverted")


class Wrong(Trouble):
    """Why an assumption can't be used."""


class Assumption:
    """WORDS=VALUE: the name of a match and some of its words, or all where the match isn't in the table, with true or false; or a target
    with what it does."""

    def __init__(self, text):
        self.text, self.used = text, False
        self.shown = os.fsencode(text)
        left, _, value = self.shown.rpartition(b"=")
        words = [word.value for word in words_of(left) or ()]
        self.name, self.value = words[0] if words else b"", value
        extension = extensions.MATCHES.get(self.name)
        if self.name and self.name not in extensions.TARGETS and value in (b"true", b"false"):
            extension = extension or extensions.unknown_match(self.name)
            # (of an option its first name)
            found = [extensions.exact(word, [extension]) for word in words[1:]]
            self.words = [option[1].names[0] if option else word for option, word in zip(found, words[1:])]
        elif len(words) == 1 and self.name in extensions.TARGETS and value in OF_TARGETS:
            extension, self.words = extensions.TARGETS[self.name], []
        else:
            raise Wrong(f"--assume '{text}' is not MATCH=true, MATCH=false or TARGET=ACCEPT, with a target that {command('fit')} knows")
        if extension.kind in ("ends", "passes") or extension.options and all(option.place == "=" for option in extension.options):
            why = "gives no verdict" if extension.kind == "passes" else "is known to the program"
            raise Wrong(f"--assume '{text}': {self.name.decode()} {why}")
        self.is_exact = not extension.options

    def is_on(self, condition):
        """Whether its words stand in the condition one after another, or are all of it where the match isn't in the table."""
        count = len(condition.words) if self.is_exact else len(self.words)
        places = range(len(condition.words) - count + 1)
        return self.name == condition.name and any(condition.words[at:at + count] == self.words for at in places)


def assumed(assumptions, condition):
    """The assumption on a condition: of several that with most words."""
    found = [each for each in assumptions if each.is_on(condition)]
    most = max((len(each.words) for each in found), default=0)
    found = [each for each in found if len(each.words) == most]
    for each in found:
        if each.value != found[0].value:
            raise Wrong(f"--assume '{found[0].text}' and '{each.text}' are on the same words")
        each.used = True
    return found[0] if found else None


def words_of_part(part):
    return [part.option.names[0], *(word.value for word in part.values)]


def conditions(match):
    """What a match tests that the program lacks."""
    name, unknown = match.extension.name, match.unknown_options()
    asked = [part for part in unknown if part.option.place == "+"]
    more = [word for part in unknown if part.option.place == "." for word in words_of_part(part)]
    turned = sum(part.option.place == "^" for part in unknown) % 2 == 1
    if asked:
        return [Condition(name, words_of_part(part) + more, part.inverted != turned) for part in asked]
    return [] if match.spelled or extensions.is_known(match.extension) else [Condition(name, more, turned)]


class Edits:
    """Changes of one rule: what stands in place of pieces of its line, and what is said of them. A piece may have several texts."""

    def __init__(self, rule):
        self.rule, self.pieces, self.notes, self.lists, self.loses = rule, {}, [], {b"-s": None, b"-d": None}, False

    def say(self, text):
        self.notes.append(text)

    def put(self, part, texts):
        """Other texts in place of an option; a rule for each."""
        place = (self.rule.words[part.first].start, self.rule.words[part.last].end)
        self.pieces[place] = texts
        if part.option.names[0] in self.lists:
            self.lists[part.option.names[0]] = place

    def remove(self, part):
        end = self.rule.words[part.last].end
        self.pieces.pop((self.rule.words[part.first].start, end), None)
        self.pieces[self.rule.words[part.first - 1].end, end] = [b""]

    def never(self):
        """Makes the rule one that matches no packet: its source is no address."""
        sources = [part for part in self.rule.parts if part.option.names[0] == b"-s"]
        if sources:
            self.say(b"never matches now: %s -> %s" % (self.rule.text(sources[0].first, sources[0].last), NEVER))
            self.put(sources[0], [NEVER] * len(self.pieces.get(self.lists[b"-s"], [b""])))
        else:
            end = self.rule.words[self.rule.head - 1].end
            self.pieces[end, end] = [b" " + NEVER]

    def lines(self):
        """The rules, by each source and, of each, by each destination."""
        places = [place for place in self.lists.values() if place]
        for texts in itertools.product(*(self.pieces[place] for place in places)):
            chosen, line, at = dict(zip(places, texts)), b"", 0
            for (start, end), alternatives in sorted(self.pieces.items()):
                line += self.rule.line[at:start] + chosen.get((start, end), alternatives[0])
                at = end
            yield line + self.rule.line[at:]


class Fitting:
    """The rules of a dump: what is written in place of the refused ones, what is said of each, and which assumptions are missing. `place`
    says how a line is named."""

    def __init__(self, lines, refused, names, assumptions, place):
        self.names, self.assumptions, self.place = names, assumptions, place
        self.exact = [(each.name, each.words) for each in assumptions if each.is_exact]
        self.lines = dict(filter_lines(lines))
        self.rules = {number: self.rule_of(line) for number, line in self.lines.items()}
        self.refused = [number for number in refused if self.rules.get(number)]
        self.changes, self.missing, self.loses, self.dropped = [], {}, False, {}
        self.find_quiet()
        values = {(kind, self.rules[number].text(part.at + place, part.at + place))
                  for number in self.refused for part in self.rules[number].parts if part.option.place == "="
                  for place, kind in enumerate(part.option.values, 1) if kind in KINDS}
        self.untaken = refused_values(values)

    def rule_of(self, line):
        try:
            return Rule(line, self.names, self.exact)
        except Unclear:
            return None

    def find_quiet(self):
        """The user chains from which no packet gets a verdict, and what the rules set that a match may ask."""
        loud, rules = set(), []
        self.chains = {words[0].value[1:] for words in map(words_of, self.lines.values()) if words and words[0].value[:1] == b":"}
        self.sets = {}
        for number, rule in self.rules.items():
            if rule and rule.whole:
                rules.append(rule)
                for name in extensions.set_by(rule.target.extension) if rule.target else ():
                    self.sets.setdefault(name, (number, rule.target.extension.name))
            elif self.lines[number][:1] != b":":
                loud.update(re.split(rb'[ \t"]+', self.lines[number]))
        self.quiet = self.chains - loud - set(BUILT_IN)
        while loud := {rule.chain for rule in rules if rule.chain in self.quiet and self.is_loud(rule)}:
            self.quiet -= loud

    def is_loud(self, rule):
        """Whether a rule of a user chain gives a verdict, or leads to one."""
        target = rule.target.extension if rule.target else None
        if target and target.name in self.chains:
            return target.name not in self.quiet
        return bool(target) and target.kind != "passes" and target.name != b"RETURN"

    def decides(self, rule):
        """Whether a packet's verdict may depend on whether it matches the rule."""
        if rule.chain in self.quiet or not rule.target:
            return False
        return rule.target.part.option.names[0] == b"-g" or rule.target.extension.name == b"RETURN" or self.is_loud(rule)

    def fitted(self, number):
        """What is written in place of a line: one line or several."""
        rule = self.rules[number]
        edits = Edits(rule)
        self.spell(edits)
        if not rule.whole:
            return [self.lines[number]] if rule.requoted else list(edits.lines())
        if self.decides(rule):
            self.assume(number, edits)
        else:
            self.take_out(edits)
        if edits.loses and rule.command in (b"-D", b"-C"):
            return [self.lines[number]]
        self.loses = self.loses or edits.loses
        self.changes += [(number, note) for note in edits.notes]
        return list(edits.lines())

    def spell(self, edits):
        """Options and values in the spelling that the program takes."""
        rule = edits.rule
        for old, new in rule.requoted:
            edits.say(b"quotes written out: %s -> %s" % (old, new))
        if rule.value(rule.command_at)[:2] == b"--" and not extensions.exact(rule.value(rule.command_at), [extensions.COMMAND]):
            word = rule.words[rule.command_at]
            edits.pieces[word.start, word.end] = [rule.command]
            edits.say(b"option written out: %s -> %s" % (word.value, rule.command))
        for part in rule.parts:
            if part.option.names[0] == b"-4":
                edits.remove(part)
                edits.say(b"no effect here, taken out: " + rule.text(part.first, part.last))
            elif part.option.place == "=":
                self.spell_part(edits, part)
        for match in rule.matches:
            if match.extension.name in (b"sctp", b"dccp"):
                self.spell_ports(edits, match)

    def spell_part(self, edits, part):
        """One option with its values; of a list of addresses each."""
        rule, label = edits.rule, None
        typed = rule.value(part.at)
        name = typed if typed in part.option.names and typed not in extensions.OTHER_NAMES else part.option.names[0]
        glued = rule.glued.get(part.at)
        if name != typed or glued:
            label = "option written out"
        values = []
        for place, kind in enumerate(part.option.values, 1):
            text = rule.text(part.at + place, part.at + place)
            spelled = self.spelled(rule, part, kind, part.at + place)
            label = label if spelled == [text] else KINDS[kind][0] + (" list, a rule for each" if len(spelled) > 1 else "")
            values.append(spelled)
        if label:
            texts = [b" ".join([b"!"] * part.inverted + [name, *each]) for each in itertools.product(*values)]
            old = b"! " * part.inverted + glued if glued else rule.text(part.first, part.last)
            edits.put(part, texts)
            edits.say(b"%s: %s -> %s" % (label.encode(), old, b", ".join(texts)))

    def spell_ports(self, edits, match):
        """A match that tests only ports, and whose protocol is one of multiport's."""
        name = match.extension.name
        ranges = [port_range(self.names, part.values[0].value, name) for part in match.options if part.option.names[0] in PORTS]
        if match.options and len(ranges) == len(match.options) and None not in ranges:
            old = edits.rule.text_of(match)
            texts = [b"! " * part.inverted + PORTS[part.option.names[0]] + b" " + each for part, each in zip(match.options, ranges)]
            for part, text in zip(match.options, texts):
                edits.put(part, [b"-m multiport " + text])
            if match.part:
                edits.remove(match.part)
            edits.say(b"ports by multiport: %s -> %s" % (old, b" ".join(b"-m multiport " + text for text in texts)))
            match.spelled = True

    def spelled(self, rule, part, kind, at):
        """The spellings of a value, as it stands in the line or as the program takes it: one, or those of a list of addresses."""
        text = rule.text(at, at)
        if (kind, text) not in self.untaken:
            return [text]
        several = kind == "addresses" and not part.inverted and rule.command != b"-R"
        items = rule.value(at).split(b",") if several else [rule.value(at)]
        found = [KINDS[kind][2](self.names, item, rule.protocol_for(part)) for item in items]
        return [text] if None in found else [quoted(item) for item in found]

    def take_out(self, edits):
        """Takes what the program lacks out of a rule that gives no verdict."""
        target = edits.rule.target
        for match in edits.rule.matches:
            if conditions(match):
                self.leave_out(edits, match, b"the rule gives no verdict, taken out: ")
                self.drop(match)
        if target and target.extension.kind == "passes":
            known = extensions.is_known(target.extension)
            parts = target.unknown_options() if known else [target.part, *target.options]
            if parts:
                self.remove(edits, parts, b"the rule gives no verdict, taken out: ")
                self.drop(target)

    def drop(self, owner):
        """Notes what is taken out for the head of the dump: a match or a target, or options where it stays."""
        name = (b"-m " if owner.extension.kind == "match" else b"-j ") + owner.extension.name
        known = extensions.is_known(owner.extension)
        self.dropped.update(dict.fromkeys([part.option.names[0] for part in owner.unknown_options()] if known else [name]))

    def remove(self, edits, parts, why):
        for part in parts:
            edits.remove(part)
        edits.say(why + edits.rule.text_of_parts(parts))
        edits.loses = True

    def leave_out(self, edits, match, why):
        """Takes a match out, or its options that the program doesn't know. Where `-p` began it, and it loses all, its name stays."""
        unknown = match.unknown_options()
        keeps = len(unknown) < len(match.options) or match.extension.name in extensions.WITHOUT_OPTION
        if keeps and not match.part and len(unknown) == len(match.options):
            edits.say(why + edits.rule.text_of_parts(unknown) + b" -> -m " + match.extension.name)
            edits.put(unknown[0], [b"-m " + match.extension.name])
            for part in unknown[1:]:
                edits.remove(part)
            edits.loses = True
        else:
            self.remove(edits, ([] if keeps or not match.part else [match.part]) + unknown, why)

    def assume(self, number, edits):
        """Puts assumptions in place of what a rule with a verdict tests or does and the program lacks."""
        asked = [(match, condition, assumed(self.assumptions, condition))
                 for match in edits.rule.matches for condition in conditions(match)]
        failed = [(match, found) for match, condition, found in asked if found and (found.value == b"true") == condition.inverted]
        missing = [] if failed else [match for match, _, found in asked if not found]
        for match in dict.fromkeys(match for match, _, _ in asked):
            stated = b", ".join(dict.fromkeys(found.shown for each, _, found in asked if found and each is match))
            why = b"never matches now, taken out: " if failed else b"assumed %s, taken out: " % stated
            if failed and match is failed[0][0]:
                why = b"assumed %s, never matches by %s: " % (failed[0][1].shown, NEVER)
            self.leave_out(edits, match, why)
        if failed or missing:
            edits.never()
        for match in dict.fromkeys(missing):
            name, text = match.extension.name, edits.rule.text_of(match)
            stated = name if match.extension.options else edits.rule.text(match.part.last, (match.options or [match.part])[-1].last)
            self.miss(number, name, b"'%s=true' or '%s=false'" % (stated, stated), text)
        self.assume_target(number, edits, bool(failed))

    def assume_target(self, number, edits, never):
        """What a target does that the program doesn't know."""
        target, name = edits.rule.target, edits.rule.target.extension.name
        if target.extension.kind not in ("decides", "may-decide") or name in self.chains:
            return
        found = assumed(self.assumptions, Condition(name, [], False))
        text = edits.rule.text_of(target)
        if never or not found:
            self.remove(edits, [target.part, *target.options], b"never matches now, taken out: ")
        else:
            for part in target.options:
                edits.remove(part)
            edits.put(target.part, [b"-j " + found.value])
            edits.say(b"assumed %s: %s -> -j %s" % (found.shown, text, found.value))
            edits.loses = True
        if not never and not found:
            self.miss(number, name, b"'%s=ACCEPT', '%s=DROP' or '%s=RETURN'" % (name, name, name), text)

    def miss(self, number, name, stated, text):
        """Notes an assumption that is missing, once for all lines that ask the same."""
        line, target = self.sets.get(name, (None, None))
        sets = b", which %s sets by -j %s" % (self.place(line), target) if target else b""
        first = self.missing.setdefault((name, text), [number, b"state --assume %s: %s%s" % (stated, text, sets), 0])
        first[2] += 1

    def head(self):
        """The comment at the top of a dump that is for trials; nothing where all that was changed means the same."""
        said = [(b"assumed ", dict.fromkeys(each.shown for each in self.assumptions if each.used)), (b"taken out ", self.dropped)]
        text = b"; ".join([HEAD, *(what + b", ".join(words) for what, words in said if words)])
        return [visible(text if len(text) <= HEAD_LIMIT else text[:HEAD_LIMIT] + b" ..")] if self.loses else []

    def by_words(self):
        """Commands that name a rule by its words, where rules lost some: they might name another one now."""
        named = [number for number, rule in self.rules.items() if rule and rule.whole and rule.command in (b"-D", b"-C") and not rule.numbered]
        return [(number, b"names a rule by its words, and other rules lost some: give its number instead") for number in named if self.loses]
