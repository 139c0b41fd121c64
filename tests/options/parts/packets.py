"""Packets for the loopback device, one of each kind that a match may take otherwise, for tests/options/opposites. Most go out by raw sockets, with
headers that are written here.
"""

import collections
import contextlib
import os
import socket
import struct

# Two addresses of the loopback device. What comes from the second is to be left untracked.
HERE, UNTRACKED = "127.0.0.1", "127.0.0.2"
# What is marked so is to be accepted before it is counted.
MARK = 1
TCP, UDP, ICMP, OTHER = 6, 17, 1, 253
SYN, RST = 2, 4
# The option of sockets by which fragments aren't gathered (ip(7)), which Python has no name for.
NODEFRAG = 22
OPEN, CLOSED = 4000, 9

# A kind of packets: how one is sent, what has to hold of it, in words of iptables, and whether it comes in, too.
Kind = collections.namedtuple("Kind", "name send holds comes_in")


def tcp(flags, options=b"", source=OPEN):
    """A segment, whose options are a multiple of four bytes."""
    return struct.pack("!HHIIBBHHH", source, CLOSED, 1, 0, (20 + len(options)) << 2, flags, 1000, 0, 0) + options


def udp(source=OPEN, target=CLOSED):
    return struct.pack("!HHHH", source, target, 12, 0) + b"text"


def sent(protocol, payload, source=HERE, offset=0, first=0):
    """Sends one packet, which a match may drop. The kernel fills in its length and its sum. An offset makes it a later fragment."""
    header = struct.pack("!BBHHHBBH4s4s", 0x45, first, 0, 7, offset, 64, protocol, 0, socket.inet_aton(source), socket.inet_aton(HERE))
    with socket.socket(socket.AF_INET, socket.SOCK_RAW, socket.IPPROTO_RAW) as raw, contextlib.suppress(PermissionError):
        raw.setsockopt(socket.IPPROTO_IP, NODEFRAG, 1)
        raw.sendto(header + payload, (HERE, 0))


def established():
    """Sends a datagram each way, so that the next is one of a connection."""
    sent(UDP, udp(5000, 5001))
    sent(UDP, udp(5001, 5000))


def answered():
    """A segment to a port where nobody listens, which is marked: the kernel answers it, without a socket of a program."""
    with socket.socket(socket.AF_INET, socket.SOCK_STREAM) as asking:
        asking.setsockopt(socket.SOL_SOCKET, socket.SO_MARK, MARK)
        asking.setblocking(False)
        asking.connect_ex((HERE, CLOSED))


def by_program():
    """A datagram by a socket of a program, with its user and group."""
    with socket.socket(socket.AF_INET, socket.SOCK_DGRAM) as plain:
        plain.sendto(b"text", (HERE, CLOSED))


ECHO_REQUEST = struct.pack("!BBHHH", 8, 0, 0xF7FE, 1, 0)
KINDS = [
    Kind("tcp", lambda: sent(TCP, tcp(SYN)), ["-p", "tcp", "-m", "conntrack", "--ctstate", "NEW"], True),
    Kind("tcp with options", lambda: sent(TCP, tcp(SYN, b"\x02\x04\x00\x03\x01\x01\x01\x00", OPEN + 1)), ["-p", "tcp", "--tcp-option", "2"], True),
    Kind("udp", lambda: sent(UDP, udp()), ["-p", "udp"], True),
    Kind("datagram of a program", by_program, ["-p", "udp", "-m", "owner", "--uid-owner", str(os.getuid())], True),
    Kind("icmp", lambda: sent(ICMP, ECHO_REQUEST), ["-p", "icmp"], True),
    Kind("another protocol", lambda: sent(OTHER, b"text"), ["-p", str(OTHER)], True),
    Kind("a service", lambda: sent(UDP, udp(), first=0xB8), ["-m", "tos", "--tos", "0xb8/0xff"], True),
    Kind("a later fragment", lambda: sent(TCP, tcp(SYN), offset=100), ["-f", "-p", "tcp"], False),
    Kind("an untracked fragment", lambda: sent(TCP, tcp(SYN), UNTRACKED, 100), ["-f", "-m", "conntrack", "--ctstate", "UNTRACKED"], False),
    Kind("untracked", lambda: sent(UDP, udp(), UNTRACKED), ["-m", "conntrack", "--ctstate", "UNTRACKED"], True),
    Kind("invalid", lambda: sent(TCP, tcp(RST, source=OPEN + 2)), ["-p", "tcp", "-m", "conntrack", "--ctstate", "INVALID"], True),
    Kind("established", lambda: sent(UDP, udp(5000, 5001)), ["-m", "conntrack", "--ctstate", "ESTABLISHED"], True),
    Kind("of the kernel", answered, ["-p", "tcp", "--tcp-flags", "RST", "RST"], True),
]
