"""What was perhaps meant by a word that is refused: the name that is most like it, of those that could stand there."""

import difflib

from commands import extensions
from commands.refused import BUILT_IN, SESSION_WORDS
from commands.spelling import FLAGS, ICMP_TYPES, OWN_PROTOCOLS, REJECT_TYPES, STATES

HOOKS = BUILT_IN
PACKET_KEYS = (b"src", b"dst", b"proto", b"in", b"out", b"frag", b"sport", b"dport", b"flags", b"icmp", b"ct", b"ttl")
RESTORE_OPTIONS = (b"-n", b"--noflush", b"-t", b"--test")
POLICIES = (b"ACCEPT", b"DROP")
TARGETS = (*POLICIES, b"RETURN", b"REJECT", b"LOG")
LEVELS = (b"emerg", b"alert", b"crit", b"error", b"warning", b"notice", b"info", b"debug")
KNOWN = [owner for owner in extensions.EXTENSIONS if owner.kind != "command" and (owner.kind == "rule" or extensions.is_known(owner))]
OPTIONS = [name for owner in KNOWN for option in owner.options if option.place == "=" for name in option.names if name[:2] == b"--"]
MATCHES = [owner.name for owner in KNOWN if owner.kind == "match"]
SHORT_COMMANDS = (b"-A", b"-I", b"-R", b"-D", b"-C", b"-F", b"-N", b"-X", b"-P", b"-E", b"-S")
COMMANDS = [name for option in extensions.COMMAND.options if option.names[0] in SHORT_COMMANDS for name in option.names]
# What may stand where a fault has this code; of P3 and F3 by the option or key whose value it is.
NAMES = {"C1": [name for name in COMMANDS if name[:2] == b"--"], "C4": (b"filter",), "P1": OPTIONS, "P7": MATCHES, "T16": POLICIES,
         "S1": SESSION_WORDS, "S2": RESTORE_OPTIONS, "F1": PACKET_KEYS}
VALUES = {
    **dict.fromkeys((b"-p", b"--protocol", b"proto"), tuple(OWN_PROTOCOLS)),
    **dict.fromkeys((b"--ctstate", b"ct"), STATES), b"--state": STATES[:5],
    **dict.fromkeys((b"--tcp-flags", b"flags"), FLAGS),
    b"--icmp-type": tuple(name.encode() for name in ICMP_TYPES),
    b"--reject-with": tuple(names[0] for names in REJECT_TYPES),
    b"--log-level": LEVELS,
}


def folded(name):
    """What is compared of a name: no case, and no `-` before it, since all options have that."""
    return name.lower().lstrip(b"-").decode("latin-1")


def nearest(word, names):
    """The name that a word is in another case, or else the one that is most like it; empty where none is."""
    by_form = {folded(name): name for name in reversed(list(names)) if name.startswith(b"-") == word.startswith(b"-")}
    found = difflib.get_close_matches(folded(word), by_form, 1)
    return by_form[found[0]] if found and by_form[found[0]] != word else b""


def meant(code, option, word, chains):
    """What was perhaps meant by a word, by the code of its fault, the option or key whose value it is, and the table's chains."""
    if code == "T1":
        return nearest(word, [*BUILT_IN, *chains])
    if code == "T11" or (code, option) in (("P3", b"-j"), ("P3", b"--jump")):
        return nearest(word, [*TARGETS, *chains])
    if code in ("P3", "F3"):
        # What is most like the first name of a list that is none.
        names = VALUES.get(option, ())
        wrong = [item for item in word.split(b",") if item.upper() not in names and item not in names]
        return nearest(wrong[0], names) if wrong else b""
    name, equal, value = word.partition(b"=")
    if code == "P1" and equal and name in OPTIONS:
        return name + b" " + value
    if code == "S1" and word in COMMANDS:
        return b"iptables " + word
    return nearest(word, NAMES.get(code, ()))
