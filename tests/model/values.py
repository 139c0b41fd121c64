"""What the values of options and packets are. Each reader refuses what it can't read by P3."""

import re

from .faults import need

BUILT_IN = (b"INPUT", b"FORWARD", b"OUTPUT")
TARGETS = (b"ACCEPT", b"DROP", b"RETURN", b"REJECT", b"LOG")
PROTOCOLS = {
    b"all": 0, b"icmp": 1, b"igmp": 2, b"tcp": 6, b"udp": 17, b"dccp": 33, b"gre": 47, b"esp": 50, b"ah": 51, b"ipv6-icmp": 58,
    b"icmpv6": 58, b"ospf": 89, b"vrrp": 112, b"sctp": 132, b"udplite": 136,
}
FLAGS = {b"FIN": 1, b"SYN": 2, b"RST": 4, b"PSH": 8, b"ACK": 16, b"URG": 32}
STATES = (b"INVALID", b"NEW", b"RELATED", b"ESTABLISHED", b"UNTRACKED", b"SNAT", b"DNAT")
ICMP_TYPES = {
    b"any": (255, None), b"echo-reply": (0, None), b"pong": (0, None), b"destination-unreachable": (3, None),
    b"network-unreachable": (3, 0), b"host-unreachable": (3, 1), b"protocol-unreachable": (3, 2), b"port-unreachable": (3, 3),
    b"fragmentation-needed": (3, 4), b"source-quench": (4, None), b"redirect": (5, None), b"echo-request": (8, None),
    b"ping": (8, None), b"time-exceeded": (11, None), b"ttl-exceeded": (11, None), b"parameter-problem": (12, None),
    b"timestamp-request": (13, None), b"timestamp-reply": (14, None),
}
REJECT_TYPES = (
    b"icmp-net-unreachable", b"icmp-host-unreachable", b"icmp-port-unreachable", b"icmp-proto-unreachable", b"icmp-net-prohibited",
    b"icmp-host-prohibited", b"icmp-admin-prohibited", b"tcp-reset",
)
LEVELS = (b"emerg", b"alert", b"crit", b"error", b"warning", b"notice", b"info", b"debug")
NUMBER = re.compile(rb"0|[1-9][0-9]{0,8}")


def number(word, most=999999999):
    """No zero stands before a number, and it has nine digits at most."""
    need(NUMBER.fullmatch(word) and int(word) <= most, "P3")
    return int(word)


def host(word):
    """Four numbers with dots, as one number."""
    parts = word.split(b".")
    need(len(parts) == 4, "P3")
    return int.from_bytes(bytes(number(part, 255) for part in parts), "big")


def address(word):
    """(address, length), the bits past the length cleared. A mask has all its ones before its zeros."""
    first, slash, rest = word.partition(b"/")
    value, length = host(first), 32
    if slash and b"." in rest:
        bits = f"{host(rest):032b}"
        length = bits.count("1")
        need(bits.startswith("1" * length), "P3")
    elif slash:
        length = number(rest, 32)
    return value >> (32 - length) << (32 - length), length


def is_printable(word):
    """Bytes from 33 to 126 without a quote."""
    return all(33 <= byte <= 126 and byte != ord('"') for byte in word)


def interface(word):
    need(1 <= len(word) <= 15 and is_printable(word) and b"/" not in word, "P3")
    return word


def protocol(word):
    return PROTOCOLS[word] if word in PROTOCOLS else number(word, 255)


def port(word):
    """(first, last). An end that is missing is the first or the last port of all."""
    ends = word.split(b":")
    need(len(ends) <= 2 and word, "P3")
    first = number(ends[0] or b"0", 65535)
    last = number(ends[-1] or b"65535", 65535)
    need(first <= last, "P3")
    return first, last


def ports(word):
    """A list of (first, last) with both ends. A range counts as two ports, and 15 are the most."""
    found = []
    for part in word.split(b","):
        need(all(part.split(b":")), "P3")
        found.append(port(part))
    need(sum(1 if first == last else 2 for first, last in found) <= 15, "P3")
    return found


def flags(word):
    total = 0
    for name in word.upper().split(b","):
        need(name in FLAGS or name in (b"ALL", b"NONE"), "P3")
        total |= 63 if name == b"ALL" else FLAGS.get(name, 0)
    return total


def states(word, known=STATES):
    names = set(word.upper().split(b","))
    need(names <= set(known), "P3")
    return names


def icmp_type(word):
    """(type, code), or (type, None) for all codes; 255 is any type."""
    if word in ICMP_TYPES:
        return ICMP_TYPES[word]
    first, slash, rest = word.partition(b"/")
    kind = number(first, 254 if slash else 255)
    return kind, number(rest, 255) if slash else None


def host_range(word):
    """(from, to), also with from above to. One address is both."""
    ends = word.split(b"-")
    need(len(ends) <= 2, "P3")
    return host(ends[0]), host(ends[-1])


def is_chain_name(word):
    return 1 <= len(word) <= 28 and is_printable(word) and word[:1] not in (b"-", b"!") and word not in TARGETS + (b"QUEUE",)


def chain(word):
    need(is_chain_name(word), "P3")
    return word


def target(word):
    return word if word in TARGETS else chain(word)


def one_of(known):
    """A reader of some words."""

    def read(word):
        need(word in known, "P3")
        return word

    return read


def below(most):
    """A reader of numbers, of which none is greater."""
    return lambda word: number(word, most)


def text(most):
    """A reader of any bytes, of which there are not more."""

    def read(word):
        need(len(word) <= most, "P10")
        return word

    return read
