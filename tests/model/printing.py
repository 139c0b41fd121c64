"""Rules and tables as they are listed."""

import re

from . import values

# Of the names of a protocol the first.
PROTOCOL_NAMES = {number: name for name, number in reversed(values.PROTOCOLS.items())}
PLAIN_TEXT = re.compile(rb"[A-Za-z0-9_-]+")


def decimal(number):
    return b"%d" % number


def host(number):
    return b".".join(decimal(number >> shift & 255) for shift in (24, 16, 8, 0))


def address(value):
    return b"%s/%d" % (host(value[0]), value[1])


def port(value):
    first, last = value
    return decimal(first) if first == last else b"%d:%d" % (first, last)


def flags(value):
    return b",".join(name for name, bit in values.FLAGS.items() if value & bit) or b"NONE"


def icmp_type(value):
    kind, code = value
    return b"any" if kind == 255 else decimal(kind) if code is None else b"%d/%d" % (kind, code)


def text(value):
    """Without quotes where it has only letters, digits, `_` and `-`."""
    if PLAIN_TEXT.fullmatch(value):
        return value
    return b'"%s"' % re.sub(rb"([\"\\'])", rb"\\\1", value)


def states(value):
    return b",".join(name for name in values.STATES if name in value)


# How the value of an option is written; interfaces and reject types as they are.
WRITTEN = {
    b"-s": address, b"-d": address, b"-i": bytes, b"-o": bytes, b"-p": lambda value: PROTOCOL_NAMES.get(value) or decimal(value),
    b"--sport": port, b"--dport": port, b"--tcp-flags": lambda value: b" ".join(map(flags, value)), b"--icmp-type": icmp_type,
    **dict.fromkeys((b"--sports", b"--dports", b"--ports"), lambda value: b",".join(map(port, value))),
    **dict.fromkeys((b"--src-range", b"--dst-range"), lambda value: b"-".join(map(host, value))),
    b"--ctstate": states, b"--state": states, b"--ttl-eq": decimal, b"--ttl-gt": decimal, b"--ttl-lt": decimal, b"--comment": text,
    b"--reject-with": bytes, b"--log-prefix": text, b"--log-level": decimal,
}


def value(each):
    return WRITTEN[each.name](each.value) if each.name in WRITTEN else b""


def condition(each):
    """A condition or a setting, after a blank."""
    written = (b" ! " if each.inverted else b" ") + each.name
    return written + b" " + value(each) if each.name in WRITTEN else written


def conditions(part):
    return b"".join(condition(each) for each in part.conditions)


def match(part):
    written = conditions(part) or (b" --icmp-type any" if part.name == "icmp" else b"")
    return b" -m " + part.name.encode() + written


def settings(rule):
    """What is said of the target: REJECT's type always, of LOG what isn't the default."""
    if rule.target == (b"-j", b"REJECT"):
        return conditions(rule.settings) or b" --reject-with icmp-port-unreachable"
    defaults = ((b"--log-prefix", b""), (b"--log-level", 4))
    return b"".join(condition(each) for each in rule.settings.conditions if (each.name, each.value) not in defaults)


def rule(each):
    """What is listed after the chain's name."""
    written = conditions(each.own) + b"".join(match(part) for part in each.matches)
    if each.target:
        written += b" %s %s" % each.target + settings(each)
    return written


def rules(table, chain):
    return [b"-A %s%s" % (chain, rule(each)) for each in table.chains[chain]]


def listing(table):
    """What iptables-save writes."""
    heads = [b":%s %s [0:0]" % (chain, table.policies.get(chain, b"-")) for chain in table.in_order()]
    return [b"*filter", *heads, *(line for chain in table.in_order() for line in rules(table, chain)), b"COMMIT"]


def rules_listing(table, chain=None):
    """What -S writes, of one chain or of all."""
    chosen = table.in_order() if chain is None else [chain]
    heads = [b"-P %s %s" % (name, table.policies[name]) if name in table.policies else b"-N %s" % name for name in chosen]
    return heads + [line for name in chosen for line in rules(table, name)]
