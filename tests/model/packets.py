"""Packet lines: the hook, and a number on each field."""

from . import values
from .faults import Fault, need
from .matching import FIELDS, STATE_NUMBERS

WITH_PORTS = (6, 17, 33, 132, 136)


def protocol(word):
    need(word != b"all", "P3")
    return values.protocol(word)


def interface(word):
    """A name's bytes as one number, with zero bytes after them."""
    return int.from_bytes(values.interface(word).ljust(16, b"\0"), "big")


def icmp(word):
    kind, _, code = word.partition(b"/")
    return values.number(kind, 255) * 256 + values.number(code, 255)


def state(word):
    """One state, and after the last three how addresses were translated."""
    first, comma, rest = word.upper().partition(b",")
    translations = {b"SNAT": 1, b"DNAT": 2, b"SNAT,DNAT": 3}
    need(first in STATE_NUMBERS, "P3")
    need(not comma or STATE_NUMBERS[first] >= 2 and rest in translations, "P3")
    return STATE_NUMBERS[first] + (translations[rest] if comma else 0)


KEYS = {
    b"src": values.host, b"dst": values.host, b"proto": protocol, b"in": interface, b"out": interface, b"frag": values.below(1),
    b"sport": values.below(65535), b"dport": values.below(65535), b"flags": values.flags, b"icmp": icmp, b"ct": state, b"ttl": values.below(255),
}


class Packet:
    def __init__(self, hook, given):
        self.hook = hook
        self.numbers = {field: given.get(field.encode(), 64 if field == "ttl" else 0) for field in FIELDS}


def given_by(words):
    """The values of the keys. The words are asked from left to right."""
    given = {}
    for word in words:
        key, equal, value = word.partition(b"=")
        need(equal and key in KEYS, "F1")
        need(key not in given, "F3")
        try:
            given[key] = KEYS[key](value)
        except Fault:
            raise Fault("F3") from None
    return given


def carried(hook, given):
    """The keys that the packet carries, and of these the ones that it needs."""
    keys, due = {b"src", b"dst", b"proto", b"frag", b"ct", b"ttl"}, {b"src", b"dst", b"proto"}
    keys |= {b"INPUT": {b"in"}, b"OUTPUT": {b"out"}}.get(hook, {b"in", b"out"})
    if given.get(b"frag", 0) == 0:
        protocol = given.get(b"proto")
        parts = {b"sport", b"dport"} if protocol in WITH_PORTS else {b"icmp"} if protocol == 1 else set()
        due |= parts
        keys |= parts | ({b"flags"} if protocol == 6 else set())
    return keys, due


def packet_of(words):
    need(words and words[0] in values.BUILT_IN, "F1")
    given = given_by(words[1:])
    keys, due = carried(words[0], given)
    need(set(given) <= keys, "F4")
    need(due <= set(given), "F2")
    return Packet(words[0], given)
