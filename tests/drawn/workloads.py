"""Rules and packets of some kinds, drawn with a fixed seed: what `tests/costs/costs` gives to the program. Called as a program,
`python3 -m tests.drawn.workloads RULES KIND..` prints so many rules of each kind and their packets, which the program `bench` reads.

- generated: two prefixes or hosts, TCP or UDP, and mostly a port or some in a row, all drawn at random;
- distinct: no two rules share a packet: each has two prefixes and two ports of its own, in an order that jumps about;
- mixed: as a machine's dump has them: few prefixes, ports and interfaces, each in many rules, and rules that ask for little;
- both, which `tests/costs/costs` leaves out: each rule asks for two ports of its own, as the source port or the destination port.

`tests/costs/costs` has other files, too (SHAPES): with `count` rules in INPUT, and in other chains where that is said, they ask most of one thing.
So do those that `tests/costs/steps` has (ASKED), most of whose rules need conditions that iptsim doesn't take; they are printed alone.

Printed with `-first`, `-last` or `-none` after its name, `distinct` and `both` have the packets of one rule alone, or of none.
"""

import sys

from tests.drawn.lots import Lots

KINDS = ("generated", "distinct", "mixed")
# Of each shape of `generated` the lengths of the source and of the destination.
LENGTHS = (((32, 32), (24, 32)), ((12, 28), (16, 30)), ((6, 16), (10, 24)))
COMMON_PORTS = (22, 25, 53, 80, 110, 123, 143, 443, 465, 587, 993, 995, 3306, 5432, 8080, 8443)


def address(number):
    return ".".join(str(number >> shift & 255) for shift in (24, 16, 8, 0))


def mask(length):
    return 0xFFFFFFFF << (32 - length) & 0xFFFFFFFF


def prefix(dice, least, most):
    length = dice.randint(least, most)
    return dice.randrange(0x0A000000, 0xDF000000) & mask(length), length


def host(dice, within):
    """An address of a prefix, or any where there is none."""
    if within is None:
        return dice.randrange(0xDF000000)
    return within[0] | dice.getrandbits(32) & ~mask(within[1]) & 0xFFFFFFFF


def packet(dice, source, destination, protocol, interface, source_port, port):
    line = f"packet INPUT src={address(host(dice, source))} dst={address(host(dice, destination))} proto={protocol} in={interface}"
    return line + (f" sport={source_port} dport={port}" if protocol in ("tcp", "udp") else "")


def generated(dice):
    protocol = dice.choice(("tcp", "tcp", "udp"))
    shape = dice.randrange(3)
    source, destination = (prefix(dice, *lengths) for lengths in LENGTHS[shape])
    if shape == 2:
        first = dice.randrange(60000)
        last = first + dice.randrange(1, 5000)
    else:
        first = last = dice.choice((22, 25, 53, 80, 443, 8080, dice.randrange(65536))) if shape else dice.randrange(65536)
    port = f"{first}" if first == last else f"{first}:{last}"
    rule = f"-s {address(source[0])}/{source[1]} -d {address(destination[0])}/{destination[1]} -p {protocol} -m {protocol}"
    rule += f" --dport {port} -j {dice.choice(('ACCEPT', 'DROP'))}"
    return rule, packet(dice, source, destination, protocol, "eth0", dice.randrange(65536), dice.randint(first, last))


def distinct(dice, place):
    def jump(step):
        return place * step % 8192

    source, destination = (0x0A000000 + 512 * jump(2741), 24), (0x14000000 + 512 * jump(5003), 24)
    source_port, port = 1024 + 2 * jump(3571), 20000 + 2 * jump(6229)
    rule = f"-s {address(source[0])}/24 -d {address(destination[0])}/24 -p tcp -m tcp --sport {source_port} --dport {port} -j ACCEPT"
    return rule, packet(dice, source, destination, "tcp", "eth0", source_port, port)


def mixed(dice, pool, known):
    source = dice.choice(pool) if dice.random() < 0.7 else None
    destination = dice.choice(pool) if source is None or dice.random() < 0.5 else None
    interface = dice.choice(("eth0", "eth1", "ppp0", "br-lan")) if dice.random() < 0.3 else None
    words = [f"{option} {address(of[0])}/{of[1]}" for option, of in (("-s", source), ("-d", destination)) if of]
    words += [f"-i {interface}"] if interface else []
    share, protocol, port = dice.random(), "tcp", dice.choice(known)
    if share < 0.55:
        words.append(f"-p tcp -m tcp --dport {port}")
    elif share < 0.7:
        protocol = "udp"
        words.append(f"-p udp -m udp --dport {port}")
    elif share < 0.76:
        first = dice.randrange(1024, 60000)
        port = dice.randrange(first, first + 2000)
        words.append(f"-p tcp -m tcp --sport 1024:65535 --dport {first}:{first + 2000}")
    elif share < 0.82:
        several = sorted(dice.sample(known, 5))
        port = dice.choice(several)
        words.append("-p tcp -m multiport --dports " + ",".join(map(str, several)))
    elif share < 0.86:
        protocol = "udp"
        words.append("-p udp")
    elif share < 0.93:
        words.append("-p tcp")
    words += ["-m state --state NEW"] if dice.random() < 0.1 else []
    rule = " ".join(words) + f" -j {dice.choice(('ACCEPT', 'DROP'))}"
    return rule, packet(dice, source, destination, protocol, interface or dice.choice(("eth0", "eth1")), dice.randrange(1024, 65536), port)


def both(dice, place):
    source_port, port = 1025 + place % 8192, dice.randrange(40000, 65536)
    rule = f"-p tcp -m multiport --ports {source_port},{20000 + place % 8192} -j ACCEPT"
    return rule, packet(dice, None, None, "tcp", "eth0", source_port, port)


def of_kind(kind, count):
    """So many rules, and a packet of each, of which every fourth goes somewhere else."""
    dice = Lots(7)
    pool = [prefix(dice, length, length) for length in dice.choices((8, 16, 20, 22, 24, 28, 30, 32), k=max(count // 4, 1))]
    known = list(COMMON_PORTS) + [dice.randrange(1024, 65536) for _ in range(80)]
    make = {"generated": lambda place: generated(dice), "distinct": lambda place: distinct(dice, place),
            "mixed": lambda place: mixed(dice, pool, known), "both": lambda place: both(dice, place)}[kind]
    rules, packets = zip(*(make(place) for place in range(count)))
    packets = [packet(dice, None, None, "tcp", "eth0", 1024, 80) if place % 4 == 0 else line for place, line in enumerate(packets)]
    dice.shuffle(packets)
    return rules, packets


def hurting(count):
    """Rules made to hurt: each leaves out sixteen ranges of each address, and so cuts two lines at 32 places."""
    dice, rules = Lots(3), []
    for _ in range(count):
        firsts = [dice.getrandbits(32) & ~7 for _ in range(32)]
        ranges = [f"{address(first)}-{address(first | 7)}" for first in firsts]
        rules.append("".join(f" -m iprange ! --src-range {ranges[k]} ! --dst-range {ranges[k + 1]}" for k in range(0, 32, 2))[1:] + " -j ACCEPT")
    return rules


def restore(rules, chains={}):
    """The file that restores these rules into INPUT, and those of other chains into theirs."""
    lines = [":INPUT DROP [0:0]", ":FORWARD ACCEPT [0:0]", ":OUTPUT ACCEPT [0:0]", *(f":{chain} - [0:0]" for chain in chains)]
    lines += [f"-A {chain} {rule}" for chain, own in chains.items() for rule in own] + [f"-A INPUT {rule}" for rule in rules]
    return "*filter\n" + "".join(line + "\n" for line in lines) + "COMMIT\n"


def hosts(count):
    """So many addresses, no two of them alike, in an order that jumps about."""
    return [address(0x0B000000 + (place * 2654435761 & 0x3FFFFFFF)) for place in range(count)]


def blocked(count):
    """Twelve chains, each of which drops the packets of so many hosts."""
    drawn = hosts(12 * count)
    chains = {f"BLOCK{k}": [f"-s {host} -j DROP" for host in drawn[k::12]] for k in range(12)}
    return restore([f"-j {chain}" for chain in chains], chains)


# Files that ask most of one thing: a name, and the file for a number.
SHAPES = {
    "all but a host": lambda count: restore([f"! -s {host} -j ACCEPT" for host in hosts(count)]),
    "a source or a port": lambda count: restore([f"-p tcp -m tcp --dport {k + 1} -j ACCEPT" if k % 2 else f"-s {host} -j ACCEPT" for k, host in enumerate(hosts(count))]),
    "jumps to a chain as long": lambda count: restore(["-j LONG"] * count, {"LONG": of_kind("generated", count)[0]}),
    "12 chains of blocked hosts": blocked,
    "a quarter, made to hurt": lambda count: restore(hurting(count // 4)),
}


def banned(count):
    """So many sets of banned hosts, each with a chain that refuses one host more, and returns."""
    chains = {f"f2b-{k}": [f"-s {host} -j REJECT", "-j RETURN"] for k, host in enumerate(hosts(count))}
    jumps = [f"-p tcp -m multiport --dports {22 if k % 2 else 80} -m set --match-set {chain} src -j {chain}" for k, chain in enumerate(chains)]
    return restore([*jumps, "-p tcp -m tcp --dport 22 -j ACCEPT", "-p tcp -m tcp --dport 22 -j DROP"], chains)


def conditional(count):
    """So many jumps, each on two conditions, to chains that drop one host and accept one port."""
    chains = {f"k{k}": [f"-s {host} -j DROP", f"-p tcp -m tcp --dport {k + 1} -j ACCEPT"] for k, host in enumerate(hosts(count))}
    jumps = [f"-m addrtype --src-type LOCAL -m statistic --mode nth --every {k + 2} --packet 0 -j {chain}" for k, chain in enumerate(chains)]
    return restore([*jumps, "-j ACCEPT", "-j DROP"], chains)


def networks(count):
    """So many chains of fifty rules, each for a network, for its hosts and their ports."""
    dice, chains = Lots(5), {}
    for k in range(count):
        ends = [(address(0x0A000000 + 256 * k + dice.randrange(256)), dice.choice((22, 80, 443, dice.randrange(1, 65536)))) for _ in range(50)]
        chains[f"net{k}"] = [f"-d {host} -p tcp -m tcp --dport {port} -j {dice.choice(('ACCEPT', 'DROP'))}" for host, port in ends]
    return restore([f"-d {address(0x0A000000 + 256 * k)}/24 -j {chain}" for k, chain in enumerate(chains)], chains)


# Files of which `dead` and `compare` are asked: a name, and the file for a number.
ASKED = {
    "blocked hosts, then a rule": lambda count: restore([*(f"-s {host} -j DROP" for host in hosts(count)), "-p tcp -m tcp --dport 22 -j ACCEPT"]),
    "hosts by hardware address": lambda count: restore(["-i eth1 -j macs", "-j DROP"], {"macs": [
        f"-m mac --mac-source 00:11:22:33:{k >> 8:02X}:{k & 255:02X} -j ACCEPT" for k in range(count)]}),
    "sets of banned hosts": banned,
    "jumps on conditions": conditional,
    "chains of networks": networks,
    "both ports": lambda count: restore([f"-p tcp -m multiport --ports {k},{20000 + 3 * k}:{20300 + 3 * k} -j ACCEPT" for k in range(count)]),
}


def printed(name, count):
    """So many rules of a kind, and packets, as lines of which the first names them; or a file of ASKED, as it is."""
    if name in ASKED:
        return ASKED[name](count)
    kind, _, match = name.partition("-")
    rules, packets = of_kind(kind, count)
    dice = Lots(11)
    if match == "none":
        # Of no rule of `distinct` and `both`, and mostly of none at all.
        packets = [packet(dice, None, None, "tcp", "eth0", 65535, dice.randrange(40000, 65536)) for _ in range(1024)]
    elif match:
        place = {"first": 0, "last": count - 1}[match]
        packets = [{"distinct": distinct, "both": both}[kind](dice, place)[1] for _ in range(1024)]
    return f"# {count} rules, {name}\n" + restore(rules) + "".join(line + "\n" for line in packets)


if __name__ == "__main__":
    for name in sys.argv[2:]:
        sys.stdout.write(printed(name, int(sys.argv[1])))
