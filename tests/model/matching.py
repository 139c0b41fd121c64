"""Which numbers of a packet a rule allows, field by field; and the lines of a chain, which show where that changes."""

import operator

# The fields of a packet with their greatest numbers, in the order in which `lines` shows them.
FIELDS = {
    "src": 2**32 - 1, "dst": 2**32 - 1, "in": 2**128 - 1, "out": 2**128 - 1, "proto": 255, "frag": 1, "sport": 65535, "dport": 65535,
    "flags": 63, "icmp": 65535, "ct": 13, "ttl": 255,
}
# The states of a packet, as numbers; SNAT adds 1 to the last three, DNAT 2.
STATE_NUMBERS = {b"INVALID": 0, b"UNTRACKED": 1, b"NEW": 2, b"RELATED": 6, b"ESTABLISHED": 10}
FIRST_FRAGMENT_ONLY = ("tcp", "udp", "icmp", "multiport")


def in_network(value, number):
    network, length = value
    return number >> (32 - length) == network >> (32 - length)


def fits_name(value, number):
    """An interface's name, as 16 bytes. A `+` at the end stands for every ending."""
    name = number.to_bytes(16, "big")
    return name.startswith(value[:-1]) if value.endswith(b"+") else name == value.ljust(16, b"\0")


def lies_in(value, number):
    return value[0] <= number <= value[1]


def is_listed(value, number):
    return any(lies_in(each, number) for each in value)


def has_type(value, number):
    kind, code = value
    return kind == 255 or number // 256 == kind and code in (None, number % 256)


def has_state(value, number):
    state = max((each for each in STATE_NUMBERS.items() if each[1] <= number), key=lambda each: each[1])
    changed = number - state[1]
    return state[0] in value or b"SNAT" in value and changed in (1, 3) or b"DNAT" in value and changed in (2, 3)


# The field that an option asks, and how it is asked of the option's value and a number. `--ports` asks two fields together, and `--comment` none.
ASKS = {
    b"-s": ("src", in_network), b"-d": ("dst", in_network), b"-i": ("in", fits_name), b"-o": ("out", fits_name), b"-p": ("proto", operator.eq),
    b"-f": ("frag", lambda _, number: number == 1), b"--sport": ("sport", lies_in), b"--dport": ("dport", lies_in),
    b"--tcp-flags": ("flags", lambda value, number: number & value[0] == value[1]), b"--icmp-type": ("icmp", has_type), b"--sports": ("sport", is_listed),
    b"--dports": ("dport", is_listed), b"--src-range": ("src", lies_in), b"--dst-range": ("dst", lies_in), b"--ctstate": ("ct", has_state),
    b"--state": ("ct", has_state), b"--ttl-eq": ("ttl", operator.eq), b"--ttl-gt": ("ttl", operator.lt), b"--ttl-lt": ("ttl", operator.gt),
}


def asked(rule):
    """What a rule asks, as (field, how, value, whether it is inverted)."""
    if rule.asked is None:
        rule.asked = []
        for part in [rule.own, *rule.matches]:
            if part.name in FIRST_FRAGMENT_ONLY:
                rule.asked.append(("frag", operator.eq, 0, False))
            rule.asked += [(*ASKS[each.name], each.value, each.inverted) for each in part.conditions if each.name in ASKS]
    return rule.asked


def has_ports(rule, packet):
    """Whether every `--ports` holds: the source or the destination port is listed, or with `!` neither is."""
    both = packet.numbers["sport"], packet.numbers["dport"]
    asking = [each for part in rule.matches for each in part.conditions if each.name == b"--ports"]
    return all(any(is_listed(each.value, number) for number in both) != each.inverted for each in asking)


def matches(rule, packet):
    numbers = packet.numbers
    return all(how(value, numbers[field]) != inverted for field, how, value, inverted in asked(rule)) and has_ports(rule, packet)


def ends(how, value):
    """Numbers at which the answer of a condition may change: those from which on it holds, and those after the last."""
    if how is in_network:
        return [value[0], value[0] + 2 ** (32 - value[1])]
    if how is fits_name:
        name = value[:-1] if value.endswith(b"+") else value
        width = 8 * (16 - len(name)) if value.endswith(b"+") else 0
        first = int.from_bytes(name.ljust(16, b"\0"), "big")
        return [first, first + 2**width]
    if how is lies_in:
        return [value[0], value[1] + 1]
    if how is is_listed:
        return [end for first, last in value for end in (first, last + 1)]
    kind, code = value
    if how is has_type and kind != 255:
        return [kind * 256 + (code or 0), kind * 256 + 256, kind * 256 + (code or 0) + 1]
    return []


def places_to_ask(rules, field):
    """Numbers of a field that are asked for a change: all of a small field, else those that conditions name."""
    top = FIELDS[field]
    if top <= 255:
        return range(1, top + 1)
    found = {end for rule in rules for on, how, value, _ in asked(rule) if on == field for end in ends(how, value)}
    return sorted(end for end in found if 1 <= end <= top)


def pieces(rules, field):
    """(start, numbers of the rules that allow it): at 0, and wherever a rule allows exactly one of a number and the one before."""

    def allowing(number):
        return [place for place, rule in enumerate(rules, 1)
                if all(how(value, number) != inverted for on, how, value, inverted in asked(rule) if on == field)]

    found = [(0, allowing(0))]
    for number in places_to_ask(rules, field):
        there = allowing(number)
        if there != allowing(number - 1):
            found.append((number, there))
    return found


def lines_of_chain(rules):
    """The reply to `lines`."""
    replies = []
    for field in FIELDS:
        form = b" %032x:{%s}" if field in ("in", "out") else b" %d:{%s}"
        shown = [form % (number, b",".join(b"%d" % each for each in there)) for number, there in pieces(rules, field)]
        replies.append(field.encode() + b"".join(shown))
    return replies
