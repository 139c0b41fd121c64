"""Packet lines."""

from . import values
from .values import cased

HOOKS = {b"INPUT": 6, b"FORWARD": 3, b"OUTPUT": 2}
PACKET_PROTOCOLS = (b"tcp",) * 8 + (b"udp",) * 5 + (b"icmp",) * 4 + values.PROTOCOLS
PORTED = (b"tcp", b"udp", b"sctp", b"dccp", b"udplite", b"6", b"17", b"33")
TRANSLATIONS = (b"", b"", b",SNAT", b",DNAT", b",SNAT,DNAT")
BAD = {
    b"src": values.BAD_HOSTS + (b"10.0.0.0/8",), b"dst": values.BAD_HOSTS, b"proto": values.BAD_PROTOCOLS + (b"all",) * 3,
    b"in": values.BAD_NAMES, b"out": values.BAD_NAMES, b"frag": (b"2", b"2", b"00", b"yes"), b"sport": values.BAD_PORTS + (b"65536",) * 4,
    b"dport": values.BAD_PORTS + (b"65536",) * 4, b"flags": values.BAD_FLAGS,
    b"icmp": (b"8", b"8/256", b"256/0", b"8/256", b"256/0", b"8/", b"ping", b"", b"08/0", b"8/0/0"),
    b"ct": values.BAD_STATES + (b"NEW,DNAT,SNAT", b"INVALID,SNAT", b"UNTRACKED,DNAT", b"SNAT", b"NEW,NEW", b"NEW,SNAT,"),
    b"ttl": values.BAD_TIMES,
}
UNKNOWN = (b"mark=1", b"SRC=1.1.1.1", b"src", b"=", b"=1", b"tos=0", b"src:1.1.1.1", b"", b"in-interface=lo", b"-s=1.1.1.1")
BAD_HOOKS = (b"input", b"PREROUTING", b"", b"a", b"src=1.1.1.1", b"-A")


def parts_of(protocol, dice):
    """What a first fragment of a protocol carries."""
    given = {key: dice.choice(values.PORTS) for key in (b"sport", b"dport") if protocol in PORTED}
    if protocol in (b"tcp", b"6") and dice.chance(0.6):
        given[b"flags"] = values.names_of(values.FLAGS)(dice)
    if protocol in (b"icmp", b"1"):
        given[b"icmp"] = dice.choice((b"8/0", b"8/0", b"3/0", b"3/1", b"3/2", b"3/255", b"0/0", b"11/0", b"11/1", b"255/0", b"254/255", b"4/0", b"13/0"))
    return given


def given_by(hook, dice, aim):
    """A good packet's keys with their values: those of the aim that it carries, and others."""
    protocol = aim.get(b"proto") or dice.choice(PACKET_PROTOCOLS)
    given = {b"src": dice.choice(values.HOSTS), b"dst": dice.choice(values.HOSTS), b"proto": protocol}
    for key, lacking in ((b"in", b"OUTPUT"), (b"out", b"INPUT")):
        if hook != lacking and dice.chance(0.6):
            given[key] = dice.choice(values.NAMES)
    frag = aim.get(b"frag") or dice.weighted({b"": 9, b"0": 1, b"1": 1})
    if frag:
        given[b"frag"] = frag
    if frag != b"1":
        given.update(parts_of(protocol, dice))
    if dice.chance(0.5):
        state = dice.choice(values.STATES)
        state += dice.choice(TRANSLATIONS) if state in values.STATES[1:4] else b""
        given[b"ct"] = cased(state, dice) if dice.chance(0.2) else state
    if dice.chance(0.6):
        given[b"ttl"] = dice.choice(values.TIMES)
    may_have = {b"in": hook != b"OUTPUT", b"out": hook != b"INPUT", b"frag": True, b"ct": True, b"ttl": True}
    given.update((key, value) for key, value in aim.items() if key in given or may_have.get(key))
    return given


def packet(dice, wrong, hook, aim):
    """The words of a packet line, which has the keys of the aim."""
    hook = hook or dice.weighted(HOOKS)
    words = [key + b"=" + value for key, value in given_by(hook, dice, aim).items()]
    words = dice.shuffled(words) if dice.chance(0.4) else words
    while dice.chance(wrong):
        what = dice.weighted({"out": 5, "bad": 6, "unknown": 3, "twice": 2, "more": 6, "hook": 1})
        at = dice.randrange(len(words) + 1)
        if what == "out" and words:
            del words[min(at, len(words) - 1)]
        elif what == "bad" and words:
            place = dice.randrange(len(words))
            key = words[place].partition(b"=")[0]
            words[place] = key + b"=" + dice.choice(BAD.get(key, (b"",)))
        elif what == "unknown":
            words.insert(at, dice.choice(UNKNOWN))
        elif what == "twice" and words:
            words.insert(at, dice.choice(words))
        elif what == "more":
            more = {**given_by(b"FORWARD", dice, {}), **parts_of(b"tcp", dice), **parts_of(b"icmp", dice)}
            words.insert(at, dice.choice([key + b"=" + value for key, value in more.items()]))
        elif what == "hook":
            hook = dice.choice(BAD_HOOKS)
    return [b"packet", hook, *words] if not dice.chance(wrong / 40) else [b"packet"]
