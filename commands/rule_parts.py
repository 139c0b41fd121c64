"""The parts of a rule, as iptables reads its words, for bin/fit; and quotes within a word, written round the whole word."""

import collections
import re

from commands import extensions
from commands.program import words_of
from commands.refused import COUNTERS, TABLE_OPTIONS

# Blanks, a word up to the quote that closes it, which ends the word, or a word without quotes.
PIECE = re.compile(rb'(?P<blank>[ \t]+)|(?P<before>[^ \t"]*)"(?P<within>(?:[^"\\]|\\.)*)"|[^ \t"]+', re.DOTALL)
# An option of a rule: its words are those from `first`, which may be `!`, to `last`; its name stands at `at`.
Part = collections.namedtuple("Part", "option owner inverted first at last values")


class Unclear(Exception):
    """Why the parts of a line can't be told."""


def quoted(value):
    if re.fullmatch(rb"[A-Za-z0-9_.,:/+!-]+", value):
        return value
    return b'"' + re.sub(rb'(["\\])', rb"\\\1", value) + b'"'


def whole_word(before, within):
    """A word with a quote in it as the program takes it: of an option with `=` of a match or target the option and its value."""
    name, value = before[:-1], re.sub(rb"(?s)\\(.)", rb"\1", within)
    if before.startswith(b"--") and before.endswith(b"=") and not extensions.begun(name, [extensions.RULE, extensions.COMMAND]):
        return name + b" " + quoted(value)
    return quoted(before + value)


def written_out(line):
    """The line with quotes round whole words, and the words that were changed, as they stood and as they are; None where a quote isn't closed."""
    words, changes, at = [], [], 0
    while at < len(line):
        found = PIECE.match(line, at)
        if not found:
            return None
        if found["before"]:
            changes.append((found.group(), whole_word(found["before"], found["within"])))
            words.append(changes[-1][1])
        elif not found["blank"]:
            words.append(found.group())
        at = found.end()
    return b" ".join(words), changes


class Owner:
    """A match that a rule has begun, or its target: its words from `first` on, or none where `-p` began it, and its options."""

    def __init__(self, extension, part):
        self.extension, self.part, self.options = extension, part, []
        self.spelled = False

    def unknown_options(self):
        """Those of its options that the program doesn't know, where they aren't spelled as others."""
        return [] if self.spelled else [part for part in self.options if part.option.place != "="]


class Rule:
    """The parts of a line that has a command with a rule; Unclear where it has none. It isn't `whole` where only the parts before some
    word can be told. `exact` has the words that matches which aren't in the table are known to have, by their names."""

    def __init__(self, line, names, exact=()):
        self.names, self.exact = names, exact
        self.line, self.requoted = (line, []) if words_of(line) is not None else written_out(line) or (line, [])
        self.words = words_of(self.line)
        self.parts, self.matches, self.glued = [], [], {}
        self.target, self.protocol = None, None
        if not self.words:
            raise Unclear
        self.read_head()
        try:
            while self.parts_end() < len(self.words):
                self.read_part(self.parts_end())
            self.whole = True
        except Unclear:
            self.whole = False

    def parts_end(self):
        return self.parts[-1].last + 1 if self.parts else self.head

    def value(self, at):
        if at >= len(self.words):
            raise Unclear
        return self.words[at].value

    def read_head(self):
        """The command with its chain and number: `head` is the place of the first word after them."""
        at = 1 if COUNTERS.fullmatch(self.words[0].value) else 0
        at += 2 if self.value(at) in TABLE_OPTIONS else 0
        name = self.value(at)
        found = extensions.exact(name, [extensions.COMMAND]) or extensions.begun(name, [extensions.RULE, extensions.COMMAND])
        self.command = found[1].names[0] if found else None
        if self.command not in (b"-A", b"-I", b"-R", b"-D", b"-C"):
            raise Unclear
        self.command_at, self.chain = at, self.value(at + 1)
        self.numbered = at + 2 < len(self.words) and self.words[at + 2].value.isdigit() and self.command in (b"-I", b"-R", b"-D")
        self.head = at + 2 + self.numbered

    def read_part(self, first):
        at = first + (self.value(first) == b"!")
        owner, option = self.option_at(at)
        extension = owner.extension if isinstance(owner, Owner) else owner
        if extension is extensions.COMMAND:
            raise Unclear
        last = at + len(option.values)
        self.value(last)
        part = Part(option, owner, at > first, first, at, last, self.words[at + 1:last + 1])
        self.parts.append(part)
        if isinstance(owner, Owner):
            owner.options.append(part)
        else:
            self.take(part)

    def take(self, part):
        """An option that is no match's and no target's own."""
        name = part.option.names[0]
        if part.inverted and name in (b"-m", b"-j", b"-g", b"-4"):
            raise Unclear
        if name == b"-m":
            match = part.values[0].value
            self.matches.append(Owner(extensions.MATCHES.get(match) or extensions.unknown_match(match), part))
            if not self.matches[-1].extension.options:
                self.read_unknown(part.last + 1)
        elif name in (b"-j", b"-g"):
            target = part.values[0].value
            self.target = Owner(extensions.TARGETS.get(target) or extensions.Extension("chain", target, (), ()), part)
        elif name == b"-p" and not part.inverted:
            self.protocol = self.names.protocol(part.values[0].value)

    def read_unknown(self, first):
        """The words of a match that isn't in the table: all up to an option that is known, or more that are known to be its own."""
        values = [word.value for word in self.words[first:]]
        counts = [len(words) for name, words in self.exact if name == self.words[first - 1].value and words == values[:len(words)]]
        known = [place for place in range(first, len(self.words)) if self.is_known_at(place)]
        count = max([(known or [len(self.words)])[0] - first, *counts])
        if count:
            option = extensions.Option((values[0],), ("word",) * (count - 1), "+")
            part = Part(option, self.matches[-1], False, first, first, first + count - 1, self.words[first + 1:first + count])
            self.parts.append(part)
            self.matches[-1].options.append(part)

    def is_known_at(self, place):
        """Whether at a place stands the full name of an option of the rule, of what it has started or of what `-p` starts, or `!` before one."""
        at = min(place + (self.value(place) == b"!"), len(self.words) - 1)
        begun = [owner.extension for owner in [*self.matches, self.target] if owner]
        implied = extensions.MATCHES.get(extensions.OF_PROTOCOL.get(self.protocol))
        return extensions.exact(self.value(at), filter(None, [extensions.RULE, extensions.COMMAND, *begun, implied])) is not None

    def option_at(self, at):
        """The owner of the option that stands at a place, and the option. A value that is written onto it by `=` becomes a word."""
        word = self.value(at)
        started = [owner for owner in [*reversed(self.matches), self.target] if owner]
        found = self.resolve(word, started)
        if not found and word.startswith(b"--") and b"=" in word and self.line[self.words[at].start:self.words[at].end] == word:
            found = self.resolve(word[:word.index(b"=")], started)
            if found and isinstance(found[0], Owner):
                self.glued[at] = word
                place = self.words[at].start + word.index(b"=")
                self.line = self.line[:place] + b" " + self.line[place + 1:]
                self.words = words_of(self.line)
        if not found or not self.words:
            raise Unclear
        return found

    def resolve(self, name, started):
        """An option by its name or, where it is the only one, by a beginning of it: of what was started, and else of what `-p` starts."""
        owners = {}
        for owner in started:
            owners.setdefault(owner.extension, owner)
        known = [extensions.RULE, *owners, extensions.COMMAND]
        found = extensions.exact(name, known) or extensions.begun(name, known)
        implied = extensions.MATCHES.get(extensions.OF_PROTOCOL.get(self.protocol))
        if not found and implied and implied not in owners:
            found = extensions.exact(name, [implied]) or extensions.begun(name, [implied])
            if found:
                self.matches.append(Owner(implied, None))
                owners[implied] = self.matches[-1]
        return found and (owners.get(found[0], found[0]), found[1])

    def protocol_for(self, part):
        """The name of the protocol by which names of ports are looked up; None where there is none yet: for multiport that of `-p` before it."""
        name = part.owner.extension.name if isinstance(part.owner, Owner) else b""
        if name != b"multiport":
            return name
        found = [each.values[0].value for each in self.parts if each.option.names[0] == b"-p" and not each.inverted and each.first < part.first]
        return extensions.PROTOCOLS.get(self.names.protocol(found[-1])) if found else None

    def text(self, first, last):
        return self.line[self.words[first].start:self.words[last].end]

    def text_of_parts(self, parts):
        return b" ".join(self.text(part.first, part.last) for part in parts)

    def text_of(self, owner):
        """The words of a target, or of what the program doesn't know of a match and, where that is all, its name."""
        known = extensions.is_known(owner.extension)
        parts = owner.unknown_options() if known else owner.options
        return self.text_of_parts(parts if known or not owner.part else [owner.part, *parts])
