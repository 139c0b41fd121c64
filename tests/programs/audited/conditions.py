"""iptaudit on whole dumps, whose rules have conditions that it doesn't know. What it says is compared with
iptsim, which is asked about each assignment of the conditions: a dump without conditions, in which a rule whose needs fail matches nothing.
"""

import collections
import itertools
import re

import pytest

HEAD = "*filter\n:INPUT %s [0:0]\n:FORWARD ACCEPT [0:0]\n:OUTPUT ACCEPT [0:0]\n:a - [0:0]\n:b - [0:0]\n"
NEVER = "-m iprange --src-range 0.0.0.1-0.0.0.0"
HERE, ALL = ("addrtype --dst-type LOCAL", False), ("addrtype --dst-type BROADCAST", False)
MARK = ("mark --mark 0x1", False)
OFTEN, SELDOM = ("limit --limit 3/min --limit-burst 10", True), ("limit --limit 1/hour", True)
NEW = ("recent --update --seconds 30 --name x", True)


def no(condition):
    return (*condition, "not")


# Dumps, by the policy of INPUT and rules: the chain, the words that iptsim reads, and conditions, each with whether it is one of a place.
UFW = ("DROP", [
    ("INPUT", "-j a", []), ("INPUT", "-p tcp -m tcp --dport 22 -j LOG", [OFTEN]), ("INPUT", "-p tcp -m tcp --dport 22 -j b", [NEW]),
    ("INPUT", "-p tcp -m tcp --dport 22 -j ACCEPT", []), ("a", "-j RETURN", [HERE]), ("a", "-j RETURN", [ALL]), ("a", "-j LOG", [OFTEN]),
    ("a", "-j DROP", []), ("b", "-j LOG", [OFTEN]), ("b", "-j REJECT --reject-with icmp-port-unreachable", []), ("b", "-j ACCEPT", [])])
PLACES = ("ACCEPT", [
    ("INPUT", "-p tcp -j ACCEPT", [OFTEN]), ("INPUT", "-p tcp -j ACCEPT", [OFTEN, MARK]), ("INPUT", "-p tcp -j DROP", []),
    ("INPUT", "-p tcp -j ACCEPT", [OFTEN]), ("INPUT", "-p udp -j DROP", [no(MARK)]), ("INPUT", "-p udp -j DROP", [MARK, HERE]),
    ("INPUT", "-p udp -j DROP", [MARK, no(MARK)]), ("INPUT", "-p udp -j DROP", [MARK, no(HERE)]), ("INPUT", "-p udp -j ACCEPT", [])])
TWICE = ("DROP", [
    ("INPUT", "-j a", []), ("INPUT", "-p udp -j a", []), ("INPUT", "-p udp -g b", [no(HERE)]), ("a", "-s 10.0.0.0/8 -j ACCEPT", [OFTEN]),
    ("a", "-m conntrack --ctstate INVALID -j DROP", []), ("b", "-d 192.0.2.0/24 -j ACCEPT", [HERE]), ("b", "-j DROP", [SELDOM]), ("b", "-j ACCEPT", [])])
PLAIN = ("DROP", [("INPUT", "-p tcp -m tcp --dport 22 -j ACCEPT", []), ("INPUT", "-p tcp -j DROP", [])])
DUMPS = {"ufw": UFW, "places": PLACES, "twice": TWICE, "plain": PLAIN}


def without(dump, number):
    return (dump[0], dump[1][:number] + dump[1][number + 1:])


def turned(dump, number, target):
    chain, words, needs = dump[1][number]
    return (dump[0], dump[1][:number] + [(chain, re.sub("-j .*", "-j " + target, words), needs)] + dump[1][number + 1:])


# Pairs of dumps.
PAIRS = [(UFW, UFW), (UFW, without(UFW, 1)), (UFW, without(UFW, 4)), (UFW, turned(UFW, 9, "DROP")), (UFW, turned(UFW, 7, "REJECT")),
         (PLACES, without(PLACES, 0)), (PLACES, without(PLACES, 3)), (PLACES, without(PLACES, 6)), (TWICE, without(TWICE, 1)), (TWICE, without(TWICE, 7)),
         (PLAIN, UFW), (UFW, PLAIN), (PLAIN, without(PLAIN, 1))]
PACKETS = [f"packet INPUT src={src} dst={dst} in=eth0 proto={rest}" for src in ("10.0.0.1", "192.0.2.9") for dst in ("192.0.2.1", "10.9.9.9")
           for rest in ("tcp sport=4000 dport=22", "tcp sport=4000 dport=23 ct=INVALID", "udp sport=4000 dport=53", "gre")]
PACKETS += ["packet OUTPUT src=10.0.0.1 dst=10.0.0.2 out=eth0 proto=tcp sport=4000 dport=22"]


def places(rules):
    """Each rule by its chain and number, with its conditions by their keys: a text, or its text, its chain and the how-many-eth it is there."""
    numbers, texts = collections.Counter(), collections.Counter()
    for chain, words, needs in rules:
        numbers[chain] += 1
        keyed = []
        for text, is_of_place, *inverted in needs:
            texts[chain, text] += is_of_place
            keyed.append(((text, chain, texts[chain, text]) if is_of_place else (text,), not inverted))
        yield f"{chain} {numbers[chain]}", chain, words, keyed


def names(rules, of_two=False):
    """The conditions by the names that the program prints."""
    found = {}
    for name, _, _, needs in places(rules):
        for key, _ in needs:
            text, chain, number = key if len(key) == 3 else (*key, None, 0)
            in_chain = f"{text} in {chain}" + (f" ({number})" if number > 1 else "")
            found[text if chain is None else in_chain if of_two else f"{text} at {name}"] = key
    return found


def dump_of(policy, lines):
    return (HEAD % policy + "".join(line + "\n" for line in lines) + "COMMIT\n").encode()


def whole(dump):
    """A dump with its conditions."""
    lines = []
    for chain, words, needs in dump[1]:
        before, target = re.fullmatch("(.*?)(-[jg] .*)", words).groups()
        for text, _, *inverted in needs:
            match, rest = text.split(" ", 1)
            before += f"-m {match} {'! ' if inverted else ''}{rest} "
        lines.append(f"-A {chain} {before}{target}")
    return dump_of(dump[0], lines)


def resolved(dump, assignment):
    """What is left of it under an assignment."""
    return dump_of(dump[0], [f"-A {chain} {words if all(assignment[key] == wanted for key, wanted in needs) else NEVER}"
                             for _, chain, words, needs in places(dump[1])])


def assignments(*dumps):
    keys = sorted({key for dump in dumps for _, _, _, needs in places(dump[1]) for key, _ in needs})
    return [dict(zip(keys, values)) for values in itertools.product((False, True), repeat=len(keys))]


def walks(iptsim, dump, held, packets):
    """The rules on the walk of each packet, and how it ends, by iptsim, in what is left of a dump under each assignment: one session restores these
    one after another."""
    left, asked = [resolved(dump, assignment) for assignment in held], "".join(packet + "\n" for packet in packets).encode()
    dumps = list(dict.fromkeys(left))
    said = iptsim.said(["session"], b"".join(b"iptables-restore <<END\n%sEND\n%s" % (data, asked) for data in dumps))
    found = [(rules.splitlines(), verdict, rules.splitlines()[-1] if by == "rule" else "policy")
             for rules, verdict, by in re.findall(r"((?:\S+ \d+\n)*)verdict (.*) by (rule|policy)\n", said.decode())]
    assert len(found) == len(dumps) * len(packets)
    return [found[at * len(packets):][:len(packets)] for at in map(dumps.index, left)]


def agrees(assignment, line, known):
    """Whether an assignment gives the answers that a line says, of conditions by their names."""
    answers = {part.removeprefix("not "): not part.startswith("not ") for part in line.split(" and ")} if line else {}
    return all(assignment[known[text]] == holds for text, holds in answers.items())


def branch_of(line, assignment, known):
    """What a line of branches says under an assignment: the first whose conditions hold."""
    for part in line.strip().split("; else "):
        found = re.fullmatch(r"if (.*?): (.* by .*)", part)
        if found is None:
            return part
        if any(agrees(assignment, line, known) for line in found[1].split(" or ")):
            return found[2]
    return "nothing"


@pytest.mark.parametrize("dump", DUMPS.values(), ids=DUMPS)
def test_walk(dump, iptsim, iptaudit):
    """The walks of packets, which each assignment has, and the rules that they cover."""
    known, data = names(dump[1]), whole(dump)
    given = "".join(packet + "\n" for packet in PACKETS).encode()
    lines = iptaudit.said(["walk", "R"], given, {"R": data}).decode().splitlines()
    shown = dict(zip(lines[0:2 * len(PACKETS):2], lines[1:2 * len(PACKETS):2]))
    assert list(shown) == PACKETS
    wrong, met, held = [], [], assignments(dump)
    for assignment, found in zip(held, walks(iptsim, dump, held, PACKETS)):
        met.append((assignment, [set(rules) for rules, _, _ in found]))
        for packet, (_, verdict, by) in zip(PACKETS, found):
            came = branch_of(shown.get(packet, ""), assignment, known)
            if came != f"{verdict} by {by}":
                wrong.append((packet, assignment, came, verdict, by))
    assert wrong == []
    assert uncovered(dump, iptaudit.said(["cover", "R"], given, {"R": data}).decode(), known, met) == []


def uncovered(dump, text, known, met):
    """What is wrong in an answer of cover, by the rules on the walk of each packet under each assignment."""
    every = {name for name, *_ in places(dump[1])}
    some = {name for _, walks in met for rules in walks for name in rules}
    always = {name for rules in zip(*(walks for _, walks in met)) for name in set.intersection(*rules)}
    missed = set(re.findall(r"(?m)^(?:missed|dead) (\S+ \d+) ", text))
    shown = re.findall(r"(?m)^if (\S+ \d+) -A .*\n  if (.*)$", text)
    wrong = sorted(missed ^ (every - some)) + sorted({name for name, _ in shown} ^ (some - always))
    for name, line in shown:
        under = [walks for assignment, walks in met if agrees(assignment, line, known)]
        if not under or not any(all(name in rules for rules in packet) for packet in zip(*under)):
            wrong.append((name, line))
    return wrong


@pytest.mark.parametrize("dump", DUMPS.values(), ids=DUMPS)
def test_packets_of_rules(dump, iptsim, iptaudit):
    """The packet of each live rule, under its answers; and that no assignment brings a dead rule on the walk of one of these packets."""
    known, text = names(dump[1]), iptaudit.said(["tests", "R"], files={"R": whole(dump)}).decode()
    live = re.findall(r"(?m)^# (\S+ \d+) -A .*\n(?:#   if (.*)\n)?(?:# )?(packet .*)$", text)
    dead = set(re.findall(r"(?m)^# dead (\S+ \d+) ", text))
    wrong, held = sorted({name for name, *_ in places(dump[1])} ^ ({name for name, *_ in live} | dead)), assignments(dump)
    for assignment, found in zip(held, walks(iptsim, dump, held, [packet for _, _, packet in live])):
        for (name, line, packet), (rules, _, _) in zip(live, found):
            if agrees(assignment, line, known) and name not in rules or dead & set(rules):
                wrong.append((name, line, packet, assignment, rules))
    assert wrong == []


@pytest.mark.parametrize("old, new", PAIRS, ids=[f"pair {number}" for number in range(1, len(PAIRS) + 1)])
def test_compare(old, new, iptsim, iptaudit):
    """Two dumps: what is the same is the same under each assignment for these packets, and what differs differs under the answers."""
    known = {**names(new[1], True), **names(old[1], True)}
    text = iptaudit.said(["compare", "O", "N"], files={"O": whole(old), "N": whole(new)}).decode()
    differs = re.findall(r"(?m)^(\S+) differs\n(packet .*)\n(?:  if (.*)\n)?old:\n", text)
    packets = [packet for _, packet, _ in differs] + PACKETS
    wrong, held = re.findall(r"(?m)^\S+ unclear$", text), assignments(old, new)
    for assignment, *both in zip(held, walks(iptsim, old, held, packets), walks(iptsim, new, held, packets)):
        for place, (packet, first, second) in enumerate(zip(packets, *both)):
            are_same = first[1] == second[1]
            if place < len(differs) and are_same and agrees(assignment, differs[place][2], known):
                wrong.append((packet, assignment, first, second))
            if not are_same and f"{packet.split()[1]} same\n" in text:
                wrong.append((packet, assignment, first, second))
    assert wrong == []
