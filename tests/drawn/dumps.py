"""Lines of rules that are drawn at random by the table of options, each with what is to be made of it: its own words, and its conditions."""

import collections
import itertools

from commands import extensions

# A condition: the name of its match, what it asks, its words after the name, whether it is inverted, and how long an answer lasts.
Condition = collections.namedtuple("Condition", "name asks words inverted lasting")
# A part: whose its option is, the option, the name by which it is written, its values, whether `!` stands before it, and the words that are
# due where the program reads it.
Part = collections.namedtuple("Part", "owner option name values inverted own")
# A line: its words, those that are due, its conditions, what its target sets, whether it ends the walk of each packet, and the words of its own verdict.
Line = collections.namedtuple("Line", "words own conditions sets ends verdict")

# Values that stand anywhere, some of them like options.
WORDS = (b"7", b"eth0", b"3/min", b"LOCAL", b"a b", b"-m", b"--limit", b"!", b"", b'say "x"',
         b"back\\slash", b"\\", b"10.0.0.0/8", b"x\ty", b"-j", b"DROP")
# Values of ports, with what is due in their place; nothing where a name isn't known.
PORTS = ((b"22", b"22"), (b"ssh", b"22"), (b"http:https", b"80:443"), (b"1:", b"1:"), (b":ntp", b":123"), (b"22,domain,80:https", b"22,53,80:443"),
         (b"nobody-knows", None), (b"22,nobody-knows", None), (b"ssh:nobody-knows", None), (b"", b""), (b"80 ", b"80 "))
TYPES = ((b"8", b"8"), (b"3/1", b"3/1"), (b"echo-request", b"echo-request"), (b"any", b"any"), (b"router-advertisement", b"9"),
         (b"network-unknown", b"3/6"), (b"no-such-type", None))
PROTOCOLS = ((b"tcp", b"tcp"), (b"6", b"6"), (b"udp", b"udp"), (b"17", b"17"), (b"icmp", b"icmp"), (b"sctp", b"sctp"), (b"dccp", b"dccp"),
             (b"esp", b"esp"), (b"ah", b"ah"), (b"all", b"all"), (b"gre", b"gre"), (b"ipencap", None), (b"TCP", None))
READ = {"port": PORTS, "ports": PORTS, "type": TYPES, "protocol": PROTOCOLS}
BEGINS = (b"-m", b"-j", b"-g")
# The kinds of targets whose verdict is their own.
DECIDING = ("decides", "may-decide")


class Writer:
    def __init__(self, draw):
        self.draw = draw
        # The extensions that the line has begun, the newest last; the parts; and what stands for the protocol's match.
        self.begun, self.parts, self.protocol = [], [], None

    def values(self, option):
        """Values for an option, with the words that are due in their place; None where the program doesn't read them."""
        if option.place == "=" and option.values and option.values[0] in READ:
            given, due = self.draw.choice(READ[option.values[0]])
            return [given], None if due is None else [due]
        values = [self.draw.choice(WORDS) for _ in option.values]
        return values, values if option.place == "=" else None

    def add(self, owner, option, inverted):
        values, own = self.values(option)
        self.parts.append(Part(owner, option, self.draw.choice(option.names), values, inverted, own))
        return self.parts[-1]

    def begin(self, extension, option, name):
        self.parts.append(Part(None, option, self.draw.choice(option.names), [name], False, None))
        self.begun += [extension] if extension else []

    def owner_of(self, name):
        """Whose an option of this name is: the newest that has it, and else the protocol's."""
        found = [extension for extension in reversed(self.begun) if extensions.exact(name, [extension])]
        return found[0] if found else self.protocol if self.protocol and extensions.exact(name, [self.protocol]) else None

    def option(self):
        """An option of a match or target that has begun, or of the protocol's match."""
        owners = [owner for owner in [*self.begun, self.protocol] if owner and owner.options]
        if owners:
            name = self.draw.choice(self.draw.choice(self.draw.choice(owners).options).names)
            whose = self.owner_of(name)
            option = extensions.exact(name, [whose])[1]
            values, own = self.values(option)
            self.parts.append(Part(whose, option, name, values, self.draw.random() < 0.3, own))

    def rule_option(self):
        option = self.draw.choice([option for option in extensions.RULE.options if option.names[0] not in BEGINS])
        part = self.add(extensions.RULE, option, self.draw.random() < 0.2)
        if option.names[0] == b"-p" and not part.inverted:
            found = [row for row in extensions.MATCHES.values() if part.values[0] in row.protocols]
            self.protocol = found[0] if found else self.protocol

    def match(self, extension=None):
        extension = extension or self.draw.choice(list(extensions.MATCHES.values()))
        self.begin(extension, extensions.exact(b"-m", [extensions.RULE])[1], extension.name)

    def target(self, extension=None):
        """A target, or a chain."""
        extension = extension or self.draw.choice([*extensions.TARGETS.values(), None])
        way = b"-g" if extension is None and self.draw.random() < 0.3 else b"-j"
        self.begin(extension, extensions.exact(way, [extensions.RULE])[1], extension.name if extension else b"chain")

    def line(self):
        words = [word for part in self.parts for word in [b"!"] * part.inverted + [part.name, *part.values]]
        conditions = [found for found in (condition_at(at, self.parts) for at in range(len(self.parts))) if found]
        named = [part.values[0] for part in self.parts if part.option.names[0] == b"-j"]
        target = next(filter(None, map(extensions.TARGETS.get, reversed(named))), None)
        sets = {*(target.sets if target else ()), *things_of(part for part in self.parts if part.option.place == ".")}
        bare = all(part.option.names[0] == b"-j" or part.owner is target for part in self.parts)
        ends = target is not None and target.kind in ("ends", "decides") and target.name != b"RETURN" and bare
        verdict = [target.name, *words_of(target, self.parts)] if target and target.kind in DECIDING else []
        if target and target.kind == "may-decide":
            conditions.append(Condition(target.name, target.name, verdict[1:], False, "place"))
        return Line(words, own_words(self.parts), conditions, sets, ends, verdict)


def words_of(owner, parts):
    """The words of an owner's options."""
    return [word for part in parts if part.owner is owner for word in [b"!"] * part.inverted + [part.name, *part.values]]


def things_of(parts):
    """The things that parts name which are asked or set."""
    return [(part.values[0],) for part in parts if part.owner and part.option.names[0] in part.owner.things]


def parts_of(match, at, parts):
    """The parts of a match that begins at a place, up to where it begins anew."""
    behind = itertools.takewhile(lambda part: found_begin(part) != match.name, parts[at + 1 :])
    return [part for part in (parts[at], *behind) if part.owner is match]


def found_begin(part):
    """The name of the match that a part begins."""
    return part.values[0] if part.option.names[0] == b"-m" else None


def begins_own(at, parts):
    """Whether `-m` or `-j` at a place is the program's."""
    part = parts[at]
    if part.option.names[0] == b"-m":
        match = extensions.MATCHES[part.values[0]]
        of_match = parts_of(match, at, parts)
        goes = "alone" not in match.notes and of_match and not any(each.own is not None for each in of_match)
        return extensions.is_known(match) and not goes
    target = extensions.TARGETS.get(part.values[0])
    return part.option.names[0] == b"-g" or not target or target.kind != "passes" or extensions.is_known(target)


def given(part):
    """The value of `-m`, `-j` or `-g`: in place of a target with a verdict of its own stands DROP."""
    target = part.option.names[0] == b"-j" and extensions.TARGETS.get(part.values[0])
    return [b"DROP"] if target and target.kind in DECIDING else part.values


def own_words(parts):
    found = []
    for at, part in enumerate(parts):
        if part.owner is None and begins_own(at, parts):
            found += [part.name, *given(part)]
        elif part.owner is not None and part.own is not None:
            found += [b"!"] * part.inverted + [part.name, *part.own]
    return found


def condition_of(match, parts):
    """The condition that a match asks by some parts; None where it always holds."""
    asking = [part for part in parts if part.option.place in "+="]
    name = asking[0].option.names[0] if len(asking) == 1 else None
    # (`!` before a port that the program doesn't read doesn't ask the opposite, since a later fragment has none)
    opposed = name is not None and asking[0].option.place == "+" and name not in asking[0].owner.unopposed
    inverted = (opposed and asking[0].inverted) != any(part.option.place == "^" for part in parts)
    if name in match.always and not inverted:
        return None
    words = [word for part in parts if part.option.place != "^"
             for word in [b"!"] * (part.inverted and not (opposed and part in asking)) + [part.name, *part.values]]
    asks = [*things_of(parts), match.name][0]
    placed = extensions.is_known(match) or any(part.option.names[0] in match.counted for part in parts)
    return Condition(match.name, asks, words, inverted, "place" if placed else match.notes[0])


def condition_at(at, parts):
    """The condition of the match that begins at a place, by `-m` or by the protocol, or of a protocol that isn't known."""
    part = parts[at]
    if part.option.values == ("protocol",) and part.owner is extensions.RULE and part.own is None:
        return Condition(b"protocol", b"protocol", part.values, part.inverted, "text")
    name = found_begin(part)
    if part.owner is not None and part.owner.kind == "match":
        before = [each for each in parts[:at] if each.owner is part.owner or found_begin(each) == part.owner.name]
        name = part.owner.name if not before else None
    if not name:
        return None
    match = extensions.MATCHES[name]
    of_match = parts_of(match, at, parts)
    foreign = any(each.own is None for each in of_match)
    return condition_of(match, of_match) if foreign or not extensions.is_known(match) else None
