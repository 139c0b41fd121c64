"""The table of options beside iptables 1.8.9, by iptables-translate and by its help.

- Each option, under each of its names, takes as many words as the table says: a word behind these is one too many, and with one fewer the
  option lacks a value. Of an option that asks for a set, which isn't there, iptables reads no word behind its values.
- Each option that the help of a match or a target names stands in the table, and each extension of Debian's package that a rule of the
  table filter may have.
"""

import functools
import os
import re

import pytest

from commands.extensions import EXTENSIONS
from tests.options.parts import called, path_of
from tests.options.parts.values import BEFORE_OPTION, value, words_before

VERSION = "v1.8.9"
LIBRARIES = "/usr/lib/x86_64-linux-gnu/xtables"

# What Debian's package doesn't have, and what it can't be asked about without more.
ABSENT = ("condition", "geoip", "TARPIT")
# These ask for a file, or a name of one.
BY_FILE = ("--object-pinned", "--label")
# A set that isn't there.
NO_SET = "Set eth0 doesn't exist"
# Extensions whose rules stand in other tables.
ELSEWHERE = ("CHECKSUM", "CONNSECMARK", "CT", "DNAT", "DSCP", "ECN", "HMARK", "MASQUERADE", "NAT", "NETMAP", "NOTRACK", "REDIRECT", "SECMARK",
             "SNAT", "TCPOPTSTRIP", "TOS", "TPROXY", "TTL")
# The target without a name; and a match of whose options some take a word or none.
UNREAD = ("standard", "rateest")
# It sets a mark, so that a rule with it is refused.
REFUSED = ("--restore-skmark",)
SURPLUS = "surplus"


def options_of(extension):
    """The options of a match or target, or of any rule, each name with the words before it and values."""
    before = words_before(extension)
    for option in extension.options:
        values = [value(extension, option, place, kind) for place, kind in enumerate(option.values)]
        for name in option.names:
            if name.decode() not in BY_FILE:
                yield [*before, *BEFORE_OPTION.get(option.names[0].decode(), [])], name.decode(), values


OPTIONS = [row for extension in EXTENSIONS if extension.kind != "command" and extension.name.decode() not in ABSENT for row in options_of(extension)]


@pytest.fixture(autouse=True, scope="module")
def iptables():
    if not path_of("iptables-translate") or VERSION not in called("iptables", ["--version"]).stdout:
        pytest.skip(f"iptables {VERSION} isn't there")


@pytest.mark.parametrize("before, name, values", OPTIONS, ids=[" ".join([*before, name, *values]) for before, name, values in OPTIONS])
def test_values(before, name, values):
    """An option takes just these values: what iptables says of a word more, and of a word fewer."""
    more = called("iptables-translate", ["-A", "INPUT", *before, name, *values, SURPLUS]).stderr
    assert f"Bad argument `{SURPLUS}'" in more or NO_SET in more
    assert not values or called("iptables-translate", ["-A", "INPUT", *before, name, *values[:-1]]).returncode != 0


@functools.lru_cache(maxsize=None)
def named_in_help(*words):
    """The options that a help names; none where there is no help."""
    ended = called("iptables", [*words, "--help"])
    return set() if ended.returncode else set(re.findall(r"(?<![\w-])--[a-z][a-z0-9-]+", ended.stdout))


def test_help():
    """What iptables has that the table hasn't."""
    known = {}
    for extension in EXTENSIONS:
        kind = "-m" if extension.kind == "match" else "-j"
        known[kind, extension.name.decode()] = {name.decode() for option in extension.options for name in option.names}
    absent = []
    for file in sorted(os.listdir(LIBRARIES)):
        name = re.match(r"lib(?:xt|ipt)_(.*)\.so$", file)
        for kind in ("-m", "-j") if name and name[1] not in (*ELSEWHERE, *UNREAD) else ():
            found = named_in_help(kind, name[1]) - named_in_help()
            if found and (kind, name[1]) not in known:
                absent.append(f"{kind} {name[1]}")
            absent += [f"{kind} {name[1]} {option}" for option in sorted(found - known.get((kind, name[1]), set()) - set(REFUSED))]
    assert absent == []
