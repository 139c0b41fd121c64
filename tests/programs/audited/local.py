"""What iptaudit writes about dumps that ask for types of addresses, where `--local` tells the addresses of the machine."""

import ipaddress

from tests.shared.run_files import runs_in
from tests.shared.rows import Row, each

TYPES = ("LOCAL", "BROADCAST", "MULTICAST")
HEAD = b"*filter\n:INPUT DROP [0:0]\n:FORWARD DROP [0:0]\n:OUTPUT DROP [0:0]\n"


def dump(lines):
    """A dump with these words of rules of INPUT."""
    return HEAD + b"".join(f"-A INPUT {line}\n".encode() for line in lines) + b"COMMIT\n"


def type_of(address, machine):
    """The type of an address, by the addresses that a machine has, each with the network of its interface."""
    interfaces = [ipaddress.ip_interface(text) for text in (*machine, "127.0.0.1/8")]
    given = ipaddress.ip_address(address)
    ends = [each.network.broadcast_address for each in interfaces if each.network.prefixlen < 31]
    if given.is_multicast:
        return "MULTICAST"
    if given in ends or address in ("0.0.0.0", "255.255.255.255"):
        return "BROADCAST"
    return "LOCAL" if given in [each.ip for each in interfaces] or given in ipaddress.ip_network("127.0.0.0/8") else None


# Addresses of machines, and of packets.
MACHINES = (["192.0.2.1/24"], ["192.0.2.1"], ["10.0.0.1/8", "192.0.2.254/31", "192.0.2.9/30"], ["0.0.0.1/0"], ["255.255.255.254/30", "1.2.3.4/32"],
            ["224.0.0.5/24", "127.0.0.1/8"], ["192.0.2.255/24", "192.0.2.0/255.255.255.0"])
ADDRESSES = ("0.0.0.0", "0.0.0.1", "1.2.3.4", "1.2.3.5", "10.0.0.0", "10.0.0.1", "10.0.0.2", "10.255.255.255", "126.255.255.255", "127.0.0.0",
             "127.0.0.1", "127.255.255.254", "127.255.255.255", "128.0.0.0", "192.0.2.0", "192.0.2.1", "192.0.2.2", "192.0.2.8", "192.0.2.9", "192.0.2.11",
             "192.0.2.254", "192.0.2.255", "192.0.3.0", "223.255.255.255", "224.0.0.0", "224.0.0.5", "224.0.0.255", "239.255.255.255", "240.0.0.0",
             "255.255.255.253", "255.255.255.254", "255.255.255.255")


def walk_row(option, machine, lines, end):
    """The row of the walks of packets with each of the addresses; `end` says what is due of a type."""
    hosts = [{"src": "192.0.2.77", "dst": "192.0.2.77", option: address} for address in ADDRESSES]
    given = ["packet INPUT src={src} dst={dst} in=eth0 proto=udp sport=1 dport=2\n".format(**host) for host in hosts]
    due = [f"{line}  {end(type_of(address, machine))}\n" for line, address in zip(given, ADDRESSES)]
    return Row(f"--local {machine}: {lines}", ["walk", "--local", ",".join(machine), "R"], {"R": dump(lines)}, "".join(due).encode(), 0,
               input="".join(given).encode())


def type_rows():
    """Each type, and its opposite, of both addresses of a packet."""
    for option in ("src", "dst"):
        for machine in MACHINES:
            yield walk_row(option, machine, [f"-m addrtype --{option}-type {name} -j ACCEPT" for name in TYPES],
                           lambda name: f"ACCEPT by INPUT {TYPES.index(name) + 1}" if name else "DROP by policy")
            for other in TYPES:
                yield walk_row(option, machine, [f"-m addrtype ! --{option}-type {other} -j ACCEPT"],
                               lambda name, other=other: "DROP by policy" if name == other else "ACCEPT by INPUT 1")


@each(type_rows, runs_in("programs/audited/local.runs"))
def test_local(row, iptaudit):
    iptaudit.check(row)
