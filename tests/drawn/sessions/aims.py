"""Packets aimed at a rule: keys with values at the ends of what its conditions say, and beside them."""

from tests.model import printing

from . import values


def beside(number, top, dice):
    return min(max(number + dice.choice((0, 0, 0, 0, 1, -1)), 0), top)


def host(text):
    return sum(int(part) << shift for part, shift in zip(text.split(b"."), (24, 16, 8, 0)))


def shown(number):
    return b".".join(b"%d" % (number >> shift & 255) for shift in (24, 16, 8, 0))


def address(key):
    def aim(said, dice):
        network, _, length = said[0].partition(b"/")
        last = host(network) | (1 << (32 - int(length))) - 1
        return {key: shown(beside(dice.choice((host(network), last)), 2**32 - 1, dice))}

    return aim


def host_range(key):
    return lambda said, dice: {key: shown(beside(host(dice.choice(said[0].split(b"-"))), 2**32 - 1, dice))}


def interface(key):
    def aim(said, dice):
        begun = said[0].removesuffix(b"+")
        beside = (begun, begun, begun + b"0") if begun == said[0] else (begun + b"7", begun + b"+", begun or b"x", begun[:-1] or b"x")
        return {key: dice.choice(beside)[:15]}

    return aim


def ports(*keys):
    """An end of one of the ranges of a list."""

    def aim(said, dice):
        end = dice.choice(dice.choice(said[0].split(b",")).split(b":"))
        return {dice.choice(keys): b"%d" % beside(int(end), 65535, dice)}

    return aim


def icmp_type(said, dice):
    kind, _, code = said[0].replace(b"any", b"8").partition(b"/")
    return {b"icmp": b"%d/%d" % (beside(int(kind), 255, dice), beside(int(code or dice.choice((b"0", b"255"))), 255, dice))}


def states(said, dice):
    state = dice.choice(said[0].split(b","))
    return {b"ct": dice.choice((b"NEW,", b"ESTABLISHED,")) + state if state in (b"SNAT", b"DNAT") else state}


def flags(said, dice):
    return {b"flags": said[1] if dice.chance(0.7) else said[1] + b"," + dice.choice(values.FLAGS)}


# What a packet has that is aimed at an option, by the option's values as they are listed. Others are passed over.
AIMS = {
    b"-s": address(b"src"), b"-d": address(b"dst"), b"-i": interface(b"in"), b"-o": interface(b"out"),
    b"-p": lambda said, dice: {b"proto": said[0]}, b"-f": lambda said, dice: {b"frag": b"1"}, b"--sport": ports(b"sport"),
    b"--dport": ports(b"dport"), b"--tcp-flags": flags, b"--icmp-type": icmp_type, b"--sports": ports(b"sport"), b"--dports": ports(b"dport"),
    b"--ports": ports(b"sport", b"dport"), b"--src-range": host_range(b"src"), b"--dst-range": host_range(b"dst"), b"--ctstate": states,
    b"--state": states, **dict.fromkeys((b"--ttl-eq", b"--ttl-gt", b"--ttl-lt"), lambda said, dice: {b"ttl": b"%d" % beside(int(said[0]), 255, dice)}),
}


def aimed(rule, dice):
    """Keys with values for a rule. A condition with `!` is missed most of the time."""
    given = {}
    for part in (rule.own, *rule.matches):
        for each in part.conditions:
            if each.name in AIMS and (not each.inverted or dice.chance(0.3)):
                given.update(AIMS[each.name](printing.value(each).split(), dice))
    return given
