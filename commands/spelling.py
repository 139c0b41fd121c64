"""Values of options in the spelling that the program takes, for bin/fit: what iptables 1.8.9 lists of those that it takes."""

import re

from commands.program import Session, Unreadable, lines_of, read

NUMBER = re.compile(rb"[ \t]*\+?(?:(0[xX][0-9a-fA-F]+)|(0[0-7]*)|([1-9][0-9]*))")
FLAGS = (b"FIN", b"SYN", b"RST", b"PSH", b"ACK", b"URG", b"ALL", b"NONE")
STATES = (b"INVALID", b"NEW", b"RELATED", b"ESTABLISHED", b"UNTRACKED", b"SNAT", b"DNAT")
# The protocols that the program or iptables knows by itself.
OWN_PROTOCOLS = {b"icmp": 1, b"igmp": 2, b"tcp": 6, b"udp": 17, b"dccp": 33, b"gre": 47, b"esp": 50, b"ah": 51, b"ipv6-icmp": 58,
                 b"icmpv6": 58, b"ospf": 89, b"vrrp": 112, b"sctp": 132, b"mh": 135, b"udplite": 136}
# In the kernel's order, by which the first that begins so is taken.
REJECT_TYPES = (
    (b"icmp-net-unreachable", b"net-unreach"), (b"icmp-host-unreachable", b"host-unreach"),
    (b"icmp-proto-unreachable", b"proto-unreach"), (b"icmp-port-unreachable", b"port-unreach"),
    (b"icmp-net-prohibited", b"net-prohib"), (b"icmp-host-prohibited", b"host-prohib"),
    (b"tcp-reset", b"tcp-rst"), (b"icmp-admin-prohibited", b"admin-prohib"),
)
ICMP_TYPES = dict(pair.split("=") for pair in """
any=any echo-reply=0 pong=0 destination-unreachable=3 network-unreachable=3/0 host-unreachable=3/1 protocol-unreachable=3/2
port-unreachable=3/3 fragmentation-needed=3/4 source-route-failed=3/5 network-unknown=3/6 host-unknown=3/7 network-prohibited=3/9
host-prohibited=3/10 TOS-network-unreachable=3/11 TOS-host-unreachable=3/12 communication-prohibited=3/13
host-precedence-violation=3/14 precedence-cutoff=3/15 source-quench=4 redirect=5 network-redirect=5/0 host-redirect=5/1
TOS-network-redirect=5/2 TOS-host-redirect=5/3 echo-request=8 ping=8 router-advertisement=9 router-solicitation=10 time-exceeded=11
ttl-exceeded=11 ttl-zero-during-transit=11/0 ttl-zero-during-reassembly=11/1 parameter-problem=12 ip-header-bad=12/0
required-option-missing=12/1 timestamp-request=13 timestamp-reply=14 address-mask-request=17 address-mask-reply=18
""".split())


def number(text, most):
    """A number as C reads it, octal after 0 and hexadecimal after 0x; None where it is none, or more than `most`."""
    found = NUMBER.fullmatch(text)
    if not found:
        return None
    value = int(found.group(1) or found.group(2) or found.group(3), 16 if found.group(1) else 8 if found.group(2) else 10)
    return value if value <= most else None


def decimal(value):
    return None if value is None else b"%d" % value


class Names:
    """Names of ports and protocols, by files as /etc/services and /etc/protocols; a file that isn't named by the user may be missing."""

    def __init__(self, services, protocols):
        self.services, self.protocols = {}, {}
        for name, port, others in self.entries(services, "/etc/services"):
            if b"/" in port:
                port, protocol = port.split(b"/", 1)
                for each in [name, *others]:
                    self.services.setdefault((each, protocol), number(port, 65535))
        for name, value, others in self.entries(protocols, "/etc/protocols"):
            for each in [name, *others]:
                self.protocols.setdefault(each, number(value, 255))
        self.protocols = {**OWN_PROTOCOLS, **self.protocols, b"all": 0}

    @staticmethod
    def entries(file, usual):
        try:
            data = read(file or usual)
        except Unreadable:
            if file:
                raise
            data = b""
        for line in lines_of(data):
            words = line.split(b"#")[0].split()
            if len(words) > 1:
                yield words[0], words[1], words[2:]

    def protocol(self, text):
        value = number(text, 255)
        return self.protocols.get(text.lower()) if value is None else value

    def port(self, text, protocol):
        """The number of a port; None where it has none, or where the name means another port of tcp than of udp and it is of udp."""
        if protocol == b"udp" and text.isdigit():
            return int(text) % 65536
        value = number(text, 65535) if protocol != b"udp" else None
        if value is None:
            value = self.services.get((text, protocol))
            if protocol == b"udp" and self.services.get((text, b"tcp"), value) != value:
                return None
        return value


def joined(parts, sign, most=None):
    """Parts with a sign between; None where one is None, or there are more than so many."""
    return None if None in parts or len(parts) > (most or len(parts)) else sign.join(parts)


def port_range(names, text, protocol):
    """A port, or two with `:` between of which the first isn't above the second; an end that is missing stays so."""
    ends = [names.port(end, protocol) if end else b"" for end in text.split(b":")]
    if None in ends or len(ends) > 2 or ends == [b""] or b"" not in ends and ends != sorted(ends):
        return None
    return b":".join(decimal(end) if end != b"" else end for end in ends)


def ports(names, text, protocol):
    """A list for multiport, which asks for `-p` before it."""
    return joined([port_range(names, item, protocol) for item in text.split(b",")] if protocol else [None], b",")


def address(text):
    """An address without its mask, of which the last bytes may be missing."""
    numbers = [number(part, 255) for part in text.split(b".")]
    return None if None in numbers or len(numbers) > 4 else b"%d.%d.%d.%d" % tuple((numbers + [0, 0, 0])[:4])


def network(text):
    host, slash, mask = text.partition(b"/")
    if slash:
        mask = decimal(number(mask, 32)) if b"." not in mask else address(mask) if mask.count(b".") == 3 else None
    return joined([address(host), mask], slash)


def icmp_type(text):
    """A type, with or without a code, or a beginning that is of one name alone."""
    if text[:1].isdigit():
        kind, slash, codes = text.partition(b"/")
        low, colon, high = (codes if slash else kind).partition(b":")
        if colon and not slash and low == high:
            kind, colon = low, b""
        if colon and slash and (low, high) == (b"0", b"255"):
            slash = colon = b""
        kind, low = decimal(number(kind, 255)), decimal(number(low, 255))
        if colon or None in (kind, low):
            return None
        return b"any" if kind == b"255" else kind + (b"/" + low if slash else b"")
    begun = [value for name, value in ICMP_TYPES.items() if name.lower().startswith(text.decode("latin-1").lower())]
    return begun[0].encode() if text and len(begun) == 1 else None


def states(text, known=STATES):
    """A list of states, of each of which the beginning is enough."""
    found = [[state for state in known if item and state.startswith(item.upper())] for item in text.split(b",")]
    return b",".join(each[0] for each in found) if all(found) else None


def flags(text):
    """A list of flags, in which empty names are passed over."""
    items = [item for item in text.split(b",") if item]
    return (b",".join(items) or b"NONE") if all(item.upper() in FLAGS for item in items) else None


# Of each kind of value that may be spelled otherwise: what it is called; a rule that has one alone, by which the program is asked
# whether it takes it as it stands; and its spelling by the names, the text and the protocol of the match or, for multiport, of the
# rule, which is None where there is none.
KINDS = {
    "addresses": ("address", b"-s %s", lambda names, text, protocol: network(text)),
    "protocol": ("protocol", b"-p %s", lambda names, text, protocol: decimal(names.protocol(text))),
    "port": ("port", b"-p tcp --dport %s", port_range),
    "ports": ("port", b"-p tcp -m multiport --dports %s", ports),
    "range": ("address", b"-m iprange --src-range %s", lambda names, text, protocol: joined([address(end) for end in text.split(b"-")], b"-", 2)),
    "type": ("ICMP type", b"-p icmp --icmp-type %s", lambda names, text, protocol: icmp_type(text)),
    "states": ("state", b"-m conntrack --ctstate %s", lambda names, text, protocol: states(text)),
    "state": ("state", b"-m state --state %s", lambda names, text, protocol: states(text, STATES[:5])),
    "flags": ("flag", b"-p tcp --tcp-flags %s NONE", lambda names, text, protocol: flags(text)),
    "number": ("number", b"-m ttl --ttl-eq %s", lambda names, text, protocol: decimal(number(text, 255))),
    "reject": ("type", b"-p tcp -j REJECT --reject-with %s", lambda names, text, protocol: next(
        (pair[0] for pair in REJECT_TYPES if any(name.startswith(text.lower()) for name in pair)), None)),
    "level": ("level", b"-j LOG --log-level %s", lambda names, text, protocol: b"0" if text == b"panic" else decimal(number(text, 7))),
    "prefix": ("text", b"-j LOG --log-prefix %s", lambda names, text, protocol: text[:29]),
    "comment": ("text", b"-m comment --comment %s", lambda names, text, protocol: text[:255] if len(text) < 1024 else None),
}


def refused_values(pairs):
    """Those of the pairs of a kind and a value, as it stands in a line, which the program doesn't take."""
    session = Session()
    asked = [(pair, session.ask(b"iptables -A FORWARD " + KINDS[pair[0]][1] % pair[1])) for pair in sorted(pairs)]
    session.run()
    return {pair for pair, places in asked if session.fault(places)}
