"""The options of which the table says that `!` is the opposite, beside the kernel.

For each of them there are two rules that count, one with the option and one with `!` before it, where packets go out and where they come in: of
tcp, udp, icmp and another protocol, later fragments, untracked ones, invalid ones, those of a connection, and an answer of the kernel itself.
Exactly one of the two rules has to count each. Of an option of which the table says that it always holds it has to be the first. For some of
which the table says that `!` isn't their opposite, some packet has to be counted by neither, or the packets show too little.

They are tried in a network namespace of their own, and its packets don't leave that. An option that iptables or the kernel doesn't have, and one
before which iptables takes no `!`, are skipped. `python3 -m tests.options.opposites`, in the namespace, prints what came of all as JSON.
"""

import json
import os
import subprocess
import sys
import time

import pytest

from commands.extensions import MATCHES
from tests import ROOT
from tests.options.parts import called, path_of
from tests.options.parts.packets import HERE, KINDS, MARK, UNTRACKED, established
from tests.options.parts.values import BEFORE_OPTION, value, words_before

# The longest that a packet may take to be counted, in seconds.
PATIENCE = 2
# What an option takes to be asked at all: words behind it.
BESIDE = {"string": ["--algo", "bm"], "recent": ["--name", "{rule}"], "connbytes": ["--connbytes-dir", "both", "--connbytes-mode", "packets"],
          "connlimit": ["--connlimit-mask", "32"]}
BESIDE_OPTION = {"--probability": ["--mode", "random"], "--every": ["--mode", "nth", "--packet", "0"]}
# A value of an option by which it holds of some of these packets, or of each in the same way.
VALUES = {"--length": ["0:35"], "--string": ["text"], "--hex-string": ["|74657874|"], "--dscp": ["46"], "--tos": ["0xb8"], "--u32": ["6&0xFF=17"],
          "--probability": ["1"], "--every": ["2"], "--quota": ["60"], "--weekdays": ["Mon"], "--monthdays": ["1,2,3"], "--label": ["1"], "--src-group": ["0"],
          "--dst-group": ["0"], "--cpu": ["0"], "--helper": ["ftp"], "--realm": ["0"], "--mark": ["0"], "--pkt-type": ["host"], "--ctstatus": ["CONFIRMED"],
          "--connlimit-above": ["100"], "--match-set": ["tried", "src"], "--rate": ["1/s"]}
# Options of which some packet meets neither form.
UNOPPOSED = {("conntrack", "--ctstatus"), ("conntrack", "--ctproto"), ("connbytes", "--connbytes"), ("tcp", "--tcp-option")}
CHAINS = ("OUTPUT", "INPUT")


def rule_words(match, option, inverted):
    """The words of the rule with an option, after `!` or not."""
    first = option.names[0].decode()
    values = VALUES.get(first) or [value(match, option, place, kind) for place, kind in enumerate(option.values)]
    beside = [*BESIDE.get(match.name.decode(), []), *BESIDE_OPTION.get(first, [])]
    words = [*BEFORE_OPTION.get(first, []), *(["!"] if inverted else []), first, *values, *beside]
    return [word.format(rule="inverted" if inverted else "plain") for word in words]


def rules(match, option, chains):
    """The ruleset that counts by an option in some chains, and by what has to hold of each kind of packets."""
    *fits, begins, name = words_before(match)
    lines = ["*raw", f"-A OUTPUT -s {UNTRACKED} -j CT --notrack", "COMMIT", "*filter", ":INPUT DROP"]
    lines += [f"-A {chain} -m mark --mark {MARK} -j ACCEPT" for chain in CHAINS]
    lines += [f"-A OUTPUT -m comment --comment kind-{number} " + " ".join(kind.holds) for number, kind in enumerate(KINDS)]
    counted = [("all", []), ("plain", [begins, name, *rule_words(match, option, False)]), ("inverted", [begins, name, *rule_words(match, option, True)])]
    lines += [" ".join(["-A", chain, *fits, "-m", "comment", "--comment", rule, *words]) for chain in chains for rule, words in counted]
    return "\n".join([*lines, "COMMIT", ""])


def counts():
    """What each rule with a comment has counted, by its chain and comment."""
    found = {}
    for line in called("iptables-legacy-save", ["-c", "-t", "filter"]).stdout.splitlines():
        words = line.split()
        if "--comment" in words:
            found[words[2], words[words.index("--comment") + 1]] = int(words[0][1:].split(":")[0])
    return found


def counted(kind, chains, number):
    """How often each rule counts one packet of a kind; None where it doesn't come as it is meant."""
    before = counts()
    kind.send()
    until = time.monotonic() + PATIENCE
    while time.monotonic() < until:
        after = counts()
        found = {key: after[key] - before[key] for key in after}
        seen = found["OUTPUT", f"kind-{number}"] == 1
        if seen and ("INPUT" not in chains or not kind.comes_in or found["INPUT", "all"] or not found.get(("OUTPUT", "all"), 1)):
            return found
    return None


def chains_of(match, option):
    """The chains in which the kernel takes both rules; None where iptables takes no `!`, and nothing where they can't be had."""
    for chains in (CHAINS, CHAINS[:1], CHAINS[1:]):
        if called("iptables-legacy-restore", [], rules(match, option, chains)).returncode == 0:
            return chains
    text = [*words_before(match), *rule_words(match, option, False)]
    plain = any(called("iptables-legacy", ["-A", chain, *text]).returncode == 0 for chain in CHAINS)
    return None if plain else ()


def tried(match, option, chains):
    """Sends a packet of each kind past the rules of an option: how often these counted it, in each chain; None where it didn't come as it is meant."""
    established()
    for number, kind in enumerate(KINDS):
        found = counted(kind, chains, number)
        yield [kind.name, found and {chain: [found[chain, rule] for rule in ("all", "plain", "inverted")] for chain in chains}]


# The options that are tried, each with whether `!` is the opposite.
OPTIONS = {(match.name.decode(), option.names[0].decode()): (match, option, option.place == "+" and option.names[0] not in match.unopposed)
           for match in MATCHES.values() for option in match.options}
OPTIONS = {key: row for key, row in OPTIONS.items() if row[2] or key in UNOPPOSED}


def inside():
    """Tries each option, in the namespace: what came of each, and why nothing did."""
    called("ip", ["link", "set", "lo", "up"])
    if path_of("ipset"):
        called("ipset", ["create", "tried", "hash:ip"])
        called("ipset", ["add", "tried", HERE])
    for (match_name, name), (match, option, _) in OPTIONS.items():
        chains = chains_of(match, option)
        why = "iptables takes no ! before it" if chains is None else "iptables or the kernel doesn't have it"
        yield f"{match_name} {name}", list(tried(match, option, chains)) if chains else why


def lacking():
    """Why nothing can be tried; nothing where it can."""
    if os.getuid() != 0:
        return "it isn't root that runs this"
    absent = [tool for tool in ("unshare", "ip", "iptables-legacy", "iptables-legacy-save", "iptables-legacy-restore") if not path_of(tool)]
    if absent:
        return f"{absent[0]} isn't there"
    length = MATCHES[b"length"]
    ended = called("unshare", ["--net", path_of("iptables-legacy-restore")], rules(length, length.options[0], CHAINS))
    return "iptables-legacy can't be used in a namespace" if ended.returncode else None


@pytest.fixture(scope="module")
def found():
    """What came of each option, or why nothing did."""
    why = lacking()
    if why:
        pytest.skip(why)
    call = [path_of("unshare"), "--net", sys.executable, "-m", "tests.options.opposites"]
    return json.loads(subprocess.run(call, cwd=ROOT, stdin=subprocess.DEVNULL, stdout=subprocess.PIPE, check=True).stdout)


def trouble(counts, always, is_opposed):
    """What is wrong with how often the rules of an option counted packets, by chains: one of both counts each."""
    due = {(0, 0, 0), (1, 1, 0)} if always else {(0, 0, 0), (1, 1, 0), (1, 0, 1)}
    for kind, chains in counts:
        if chains is None:
            yield f"no packet came as one of {kind}, or several"
        elif is_opposed:
            yield from (f"{kind} in {chain}: of {came[0]} the option counts {came[1]} and ! counts {came[2]}"
                        for chain, came in chains.items() if tuple(came) not in due)
    if not is_opposed and not any([1, 0, 0] in (chains or {}).values() for _, chains in counts):
        yield "each packet meets one of both forms"


@pytest.mark.xdist_group("options/opposites")
@pytest.mark.parametrize("key", OPTIONS, ids=" ".join)
def test_opposite(key, found):
    counts, (match, option, is_opposed) = found[" ".join(key)], OPTIONS[key]
    if isinstance(counts, str):
        pytest.skip(f"{counts}: {' '.join(key)}")
    assert list(trouble(counts, option.names[0] in match.always, is_opposed)) == []


if __name__ == "__main__":
    print(json.dumps(dict(inside())))
