"""Good and bad values of options and packet keys: few of each, so that rules and packets meet; and words spelled as lines, with and without quotes."""

from tests.model.values import LEVELS, REJECT_TYPES, STATES as NAT_STATES

CHAINS = (b"a", b"b", b"c", b"d", b"e", b"A", b"ab", b"in-put", b"input", b"Drop", b"~", b"!".join((b"x", b"y")), b"f-2", b"n" * 28)
BAD_CHAINS = (b"-a", b"!a", b"ACCEPT", b"DROP", b"RETURN", b"QUEUE", b"REJECT", b"LOG", b"n" * 29, b"", b'a"b', b"a b", b"\x7f", b"\xe9",
              b"x\ty")

HOSTS = (b"10.0.0.0", b"10.1.2.3", b"10.1.2.4", b"10.1.3.0", b"10.255.255.255", b"11.0.0.0", b"9.255.255.255", b"0.0.0.0",
         b"255.255.255.255", b"128.0.0.0", b"127.255.255.255", b"1.1.1.1", b"2.2.2.2")
BAD_HOSTS = (b"10.1.2", b"10.1.2.3.4", b"256.1.1.1", b"10.01.2.3", b"localhost", b"", b" 1.1.1.1", b"1.1.1.1.", b"1..1.1", b"-1.1.1.1")
LENGTHS = (b"", b"", b"/32", b"/31", b"/24", b"/16", b"/8", b"/1", b"/0", b"/255.255.255.0", b"/255.0.0.0", b"/255.255.255.255",
           b"/0.0.0.0", b"/128.0.0.0", b"/255.255.255.254")
BAD_LENGTHS = (b"/33", b"/08", b"/", b"/255.0.255.0", b"/0.0.0.1", b"/8/8", b"/-1", b"/255.255.255", b",2.2.2.2")

NAMES = (b"eth0", b"eth1", b"eth", b"eth00", b"lo", b"e", b"n" * 15, b"eth+", b"Eth0")
PATTERNS = NAMES + (b"eth0+", b"e+", b"+", b"++", b"lo+", b"n" * 14 + b"+", b"!", b"-j", b"a\\'b")
BAD_NAMES = (b"n" * 16, b"", b"a/b", b'a"b', b"a b", b"\xe9", b"\x7f", b"\x1f")

PROTOCOLS = (b"tcp", b"tcp", b"udp", b"udp", b"icmp", b"6", b"17", b"1", b"sctp", b"dccp", b"udplite", b"gre", b"47", b"0", b"58", b"icmpv6",
             b"ipv6-icmp", b"ah", b"igmp", b"vrrp", b"ospf", b"esp", b"255", b"7", b"33", b"all")
BAD_PROTOCOLS = (b"TCP", b"06", b"256", b"ip", b"", b"-1", b"1000000000", b"tcp,udp", b"+6", b"6 ")

PORTS = (b"0", b"1", b"21", b"22", b"23", b"53", b"79", b"80", b"81", b"100", b"110", b"111", b"1024", b"65534", b"65535")
BAD_PORT_LISTS = (b"1:2,3:4,5:6,7:8,9:10,11:12,13:14,15:16", b":5", b"5:", b"22,", b",22", b"22,,80", b"80:22", b"22, 80", b"", b"ssh",
                  b",".join([b"1"] * 16), b"1,65536")
BAD_PORTS = (b"65536", b"022", b"", b"ssh", b"-1", b"2:1", b"1:2:3", b"22-23", b"22,", b",", b"a:b", b"1000000000", b"22:65536",
             b"65535:65536", b"::")
FLAGS = (b"SYN", b"ACK", b"FIN", b"RST", b"URG", b"PSH", b"ALL", b"NONE")
BAD_FLAGS = (b"", b"SYN,", b"SYN ACK", b"ECE", b",", b"SYN,,ACK", b"0", b"syn|ack")
STATES = NAT_STATES[:5]
BAD_STATES = (b"", b"NEW,", b"NEW ESTABLISHED", b"NONE", b",", b"NE", b"NEW,,NEW")
ICMP_TYPES = (b"0", b"3", b"8", b"8/0", b"3/1", b"3/255", b"254", b"254/255", b"255", b"any", b"echo-reply", b"pong", b"ping", b"echo-request",
              b"destination-unreachable", b"network-unreachable", b"host-unreachable", b"protocol-unreachable", b"port-unreachable",
              b"fragmentation-needed", b"source-quench", b"redirect", b"time-exceeded", b"ttl-exceeded", b"parameter-problem",
              b"timestamp-request", b"timestamp-reply", b"11")
BAD_ICMP_TYPES = (b"256", b"255/0", b"8/256", b"8/", b"/0", b"Ping", b"", b"08", b"8/00", b"3:1", b"8/0/0", b"ping/0", b"any/0")
TIMES = (b"0", b"1", b"4", b"5", b"6", b"63", b"64", b"65", b"254", b"255")
BAD_TIMES = (b"256", b"064", b"", b"-1", b"4:5")
TEXTS = (b"x", b"web", b"a b", b"it's", b'"', b"\\", b"", b"a.b", b"a_b-9", b"--dport", b"\xff\x00\r", b"x" * 29, b"x" * 28 + b" ", b"-", b"#")
NUMBERS = (b"1", b"1", b"1", b"2", b"2", b"3", b"4", b"5", b"7", b"9")
BAD_NUMBERS = (b"0", b"01", b"00", b"007", b"8192", b"8193", b"999999999", b"1000000000", b"x", b"-1", b"", b"1x")


def cased(word, dice):
    """A word in any mix of upper and lower case."""
    return bytes(byte ^ 32 if 65 <= byte & ~32 <= 90 and dice.chance(0.5) else byte for byte in word)


def quoted(word, dice):
    """A word in quotes, with a backslash where it has to be, and now and then elsewhere."""
    shown = b""
    for byte in word:
        if byte in b'"\\' or dice.chance(0.03):
            shown += b"\\"
        shown += bytes([byte])
    return b'"%s"' % shown


def spelled(words, dice):
    """A line of words: mostly plain, now and then with odd blanks and needless quotes, and seldom with bad quotes."""
    odd = dice.chance(0.06)
    line = dice.choice((b"", b" ", b"\t", b" \t ")) if odd else b""
    for place, word in enumerate(words):
        if place:
            line += dice.choice((b" ", b"  ", b"\t", b" \t")) if odd else b" "
        must = not word or any(byte in b' \t"' for byte in word)
        line += quoted(word, dice) if must or odd and dice.chance(0.3) else word
    if odd:
        line += dice.choice((b"", b"", b" ", b"\t", b" \t ", b"\r" if dice.chance(0.3) else b"\x0c" if dice.chance(0.1) else b""))
    if dice.chance(0.004):
        at = dice.randrange(len(line) + 1)
        line = line[:at] + dice.choice((b'"', b'"x', b'a"b', b'""', b'"\\')) + line[at:]
    return line


def bad_address(dice):
    hosts, lengths = (BAD_HOSTS, LENGTHS) if dice.chance(0.5) else (HOSTS, BAD_LENGTHS)
    return dice.choice(hosts) + dice.choice(lengths)


def two_ports(dice):
    """Two ports, of which the first isn't above the second."""
    return sorted((int(dice.choice(PORTS)), int(dice.choice(PORTS))))


def port_range(dice):
    """A port, or a range of which an end may be missing."""
    if dice.chance(0.5):
        return dice.choice(PORTS)
    first, last = two_ports(dice)
    return dice.choice((*[b"%d:%d" % (first, last)] * 4, b"%d:" % first, b":%d" % last, b"0:65535", b":"))


def port_list(dice):
    parts = []
    for _ in range(dice.randint(1, dice.weighted({1: 3, 3: 5, 8: 2, 17: 1}))):
        first, last = two_ports(dice)
        parts.append(b"%d:%d" % (first, last) if dice.chance(0.3) else b"%d" % first)
    return b",".join(parts)


def names_of(known):
    """A list of names in any case, with repeats."""

    def draw(dice):
        names = b",".join(dice.choices(known, k=dice.randint(1, dice.weighted({1: 4, 2: 4, 4: 1}))) if dice.chance(0.95) else dice.shuffled(known))
        return cased(names, dice) if dice.chance(0.3) else names

    return draw


def of(known):
    return lambda dice: dice.choice(known)


# Of each kind of value how a good one is drawn, and how one that is likely to be bad.
KINDS = {
    "address": (lambda dice: dice.choice(HOSTS) + dice.choice(LENGTHS), bad_address),
    "interface": (of(PATTERNS), of(BAD_NAMES)),
    "protocol": (of(PROTOCOLS), of(BAD_PROTOCOLS)),
    "port": (port_range, of(BAD_PORTS)),
    "ports": (port_list, of(BAD_PORT_LISTS)),
    "flags": (names_of(FLAGS), of(BAD_FLAGS)),
    "states": (names_of(NAT_STATES), of(BAD_STATES)),
    "plain-states": (names_of(STATES), of(BAD_STATES + (b"SNAT", b"NEW,DNAT"))),
    "icmp-type": (of(ICMP_TYPES), of(BAD_ICMP_TYPES)),
    "range": (lambda dice: dice.choice(HOSTS) + (b"-" + dice.choice(HOSTS) if dice.chance(0.8) else b""),
              of((b"10.0.0.0-", b"-10.0.0.0", b"10.0.0.0/8", b"1.1.1.1-2.2.2.2-3.3.3.3", b"", b"10.0.0.0:11.0.0.0"))),
    "time": (of(TIMES), of(BAD_TIMES)),
    "comment": (of(TEXTS + (b"c" * 256, b"'" * 255)), of((b"c" * 257, b"'" * 300))),
    "prefix": (of(TEXTS), of((b"p" * 30, b"x" * 29 + b" "))),
    "reject-type": (of(REJECT_TYPES), of((b"icmp", b"tcp-rst", b"", b"TCP-RESET", b"port-unreach"))),
    "level": (of((b"0", b"3", b"4", b"7", *LEVELS)), of((b"8", b"04", b"warn", b"", b"panic", b"Info"))),
    "match": (of((b"tcp", b"udp", b"comment", b"multiport", b"multiport", b"state", b"ttl", b"iprange", b"conntrack", b"icmp")),
              of((b"limit", b"TCP", b"", b"LOG", b"rule", b"mac", b"-F"))),
    "chain": (of(CHAINS), of(BAD_CHAINS)),
}
