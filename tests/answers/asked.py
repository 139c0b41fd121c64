"""iptaudit about rulesets that are drawn at random, beside the plain model of tests/model, which is asked about each kind of packet by itself. For each
two small rulesets there is a large one, so the run of the gate has 60 and 30, and one with `--quick` 60 and 6. `--times N` draws N times as many, and
`--seed SEED` others.

Rules ask for a protocol, a source, an interface by its name or a beginning of it, flags, an ICMP type, and ports, also for both at once. On
each field one packet stands for all that no rule tells from it, so that some hundred packets stand for all of INPUT.

A small ruleset has up to eleven rules, in INPUT and in one chain to which they jump:

- `dead`: just the rules that none of them comes to; and where it says why, who takes a rule's packets, which are just those who decide those that
  come to its chain, or all of them if none does, and what each does, or which rules lead to its chain, of which none lets one of its packets
  through; and how many are redundant, and how many shadowed.
- `compare` with an edited ruleset: whether all of them get the same verdicts, or a packet that gets two, with its walks; how many rules changed, and
  how many of these none of them comes to; and with itself, without a step.
- `tests`: a packet for each rule that isn't dead, and by the model its walk has the rule.
- `cover` of some of these packets: the rules that they leave out.
- `reach` with some fields given or none: by one field, the verdict of each and who decides it; or that no such packet carries a key.
- `assert` with claims about such packets, of each form: whether they hold, or a packet of these with one of the verdicts that they forbid; or that there
  is no such packet.

A large one has 30 to 200 rules, in INPUT and in three or four chains, to which jumps and gotos lead from INPUT and from earlier ones. Its rules
also ask for ranges of ports:

- `dead`, as above.
- `compare`, as above, with eight other rulesets after one to ten edits each: rules deleted, inserted, swapped, moved and put in twice, other
  verdicts, another policy, a chain more or less, dead rules taken out; and with the ruleset without its dead rules, which is the same.

No answer may be unclear.
"""

import collections
import contextlib
import pathlib
import re
import subprocess

import pytest

from tests.answers import Wrong, need
from tests.drawn.lots import Lots
from tests.drawn.rulesets.edits import edited
from tests.drawn.rulesets.large import Large
from tests.drawn.rulesets.model import comes_to, dead_of, matched, packets_of, reply, verdict_in, walks
from tests.drawn.rulesets.ruleset import target_of, verdict_of, ways
from tests.drawn.rulesets.small import FLAGS, OTHERS, PORTS, SOURCES, TYPES, Small

# How many small rulesets are drawn, and how many large ones, of each of which so many edited ones are drawn.
SMALL, LARGE, EDITED = 60, 30, 8
# Where the program is slow, one of so many large ones is drawn, and it isn't counted how often each answer came.
SELDOM = 5
VERDICTS = ["ACCEPT", "DROP", "REJECT"]
WHOLE = ("src", "frag", "sport", "dport")
FIELDS = ("proto", "frag", "sport", "dport", "flags", "icmp")
# What `compare` shows of packets that get two verdicts.
WALKS = r"(packet .*)\nold:\n((?:.*\n)*)new:\n((?:.*\n)*)"
DUE = ("dead", "taken by", "comes from", "redundant", "shadowed", "same", "differs", "changed", "changed and dead", "missed", "reached", "carried by none",
       "claimed", "claimed wrongly", "claimed of none",
       "dead of large", "same of large", "differs of large", "differs by policy", "without dead")


def asked(audit, *words, status=None, **streams):
    ended = subprocess.run([audit, *words], stdout=subprocess.PIPE, stderr=subprocess.PIPE, check=False, **streams)
    said = ended.stdout.decode()
    if "unclear" in re.sub(r"(?m)^\d+ (?:changed )?rules?, .*$", "", said) or (status is not None and ended.returncode != status):
        raise Wrong(f"{words}, status {ended.returncode}:\n{said}{ended.stderr.decode()}")
    return said


def listed_in(text):
    """The items of a list of `dead`, and how many more there are."""
    items = set(re.split(r", | and ", text))
    more = {item for item in items if re.fullmatch(r"\d+ more", item)}
    return items - more, sum(int(item.split()[0]) for item in more)


def expect_takers(name, ruleset, reason, deciders, said):
    """Compares who takes the packets of a dead rule, and what they do; returns whether all of them do what it would do."""
    does = {decider: ruleset.policy if decider == "the policy" else verdict_of(ruleset.named()[decider]) for decider in deciders}
    listed, more = listed_in(reason.removeprefix("taken by "))
    known = {f"{decider} ({does[decider]})" for decider in deciders}
    need(listed <= known and len(known) == len(listed) + more, f"{name} is taken by {sorted(known)}:\n{said}")
    return set(does.values()) == {verdict_of(ruleset.named()[name])}


def expect_ways(name, ruleset, reason, packets, there, said):
    """Compares by which rules packets come to the chain of a dead rule, and whether one of these has a packet of it."""
    listed, more = listed_in(reason.removeprefix("no packet that comes from ").removesuffix(" fits"))
    through = [way for way in listed if any(here and fits for here, fits in zip(there, matched(ruleset, ruleset.named()[way], packets)))]
    leading = ruleset.leading_to(name.split()[0], without=listed)
    into = {way for way in listed if way.split()[0] not in leading and target_of(ruleset.named()[way]) in leading}
    need(not through and (more or "INPUT" not in leading and into == listed), f"other rules lead to {name}, or {through} let packets through:\n{said}")


def expect_none(name, ruleset, reason, there, said):
    """Compares whether no packet fits, or no rule leads to the chain of a dead rule, where that is told or nothing is."""
    is_led = "INPUT" in ruleset.leading_to(name.split()[0])
    right = is_led and not reason
    if reason.startswith(("no packet fits ", "no value of ")):
        right = not any(there)
    elif reason.startswith("no rule leads to "):
        right = not is_led
    need(right, f"{name} is dead for another reason:\n{said}")


def expect_dead(audit, file, ruleset, packets, found):
    """Compares the dead rules, and why they are dead; returns them, and how often each reason was told."""
    said = asked(audit, "dead", file)
    due = set(dead_of(ruleset, found))
    told = dict(re.findall(r"(?m)^dead (\S+ \d+) .*(?:\n  (.*))?", said))
    need(set(told) == due, f"not told is that {sorted(due - set(told))} are dead, and not dead are {sorted(set(told) - due)}:\n{said}")
    counts = collections.Counter(dead=len(told))
    for name, reason in told.items():
        there = matched(ruleset, ruleset.named()[name], packets)
        if reason.startswith("taken by "):
            # Told is who takes those packets that it matches and that come to its chain; or of all that it matches, if none does.
            near = [here and comes for here, comes in zip(there, comes_to(ruleset, name.split()[0], packets))]
            deciders = {walk.by for here, walk in zip(near if any(near) else there, found) if here}
            does_same = expect_takers(name, ruleset, reason, deciders, said)
            counts["taken by"] += 1
            counts["redundant" if does_same else "shadowed"] += bool(verdict_of(ruleset.named()[name]))
        elif reason.startswith("no packet that comes"):
            expect_ways(name, ruleset, reason, packets, there, said)
            counts["comes from"] += 1
        else:
            expect_none(name, ruleset, reason, there, said)
    if told and not said.endswith("\n{redundant} redundant, {shadowed} shadowed\n".format_map(counts)):
        raise Wrong("{redundant} are redundant, {shadowed} shadowed:\n".format_map(counts) + said)
    return due, counts


def hooks_of(said):
    """What `compare` says of each hook, and where packets differ a packet and both walks; the line that counts the changed rules comes last."""
    hooks = re.sub(r"\n\d+ changed rules, \d+ dead, 0 unclear\n\Z", "\n", said)
    need(hooks != said, f"no count of changed rules:\n{said}")
    start, *parts = re.split(r"(?m)^(INPUT|FORWARD|OUTPUT) (same|differs|unclear)\n", hooks)
    shown = {hook: (answer, re.fullmatch(WALKS if answer == "differs" else "", text)) for hook, answer, text in zip(parts[0::3], parts[1::3], parts[2::3])}
    if start or list(shown) != ["INPUT", "FORWARD", "OUTPUT"] or not all(match for _, match in shown.values()):
        raise Wrong(f"this is no answer of compare:\n{said}")
    return shown


def expect_changes(said, old, new, found, other):
    """Compares how many rules of two small rulesets changed, and how many of them are dead; returns these counts. Which rules the program takes
    as changed isn't told: they are the fewest that can be, or maybe more where a rule stands twice."""
    count, dead = map(int, re.search(r"\n(\d+) changed rules, (\d+) dead, ", said).groups())
    least = next(number for number in range(3) if any(ways(old, new, number)))
    twice = any(len(set(ruleset.rules)) < len(ruleset.rules) for ruleset in (old, new))
    dead_there = [set(dead_of(ruleset, walked)) for ruleset, walked in ((old, found), (new, other))]
    due = {len(set(went) & dead_there[0]) + len(set(came) & dead_there[1]) for went, came in ways(old, new, count)}
    need(count >= least and (count == least or twice) and dead in due, f"{least} rules changed, and of {count} are dead {sorted(due)}:\n{said}")
    return {"changed": count, "changed and dead": dead}


def expect_alike(audit, files, rulesets, found, other):
    """Compares the verdicts of two rulesets, and the walks of the packet that is said to get two; returns the answer, and whether they are the same."""
    alike = all(a.verdict == b.verdict for a, b in zip(found, other))
    said = asked(audit, "compare", *files)
    hooks = hooks_of(said)
    if [answer for answer, _ in hooks.values()] != ["same" if alike else "differs", "same", "same"]:
        raise Wrong(f"the verdicts of INPUT are {'' if alike else 'not '}the same:\n{said}")
    if not alike:
        packet, *walked = hooks["INPUT"][1].groups()
        due = [reply(ruleset, packet) for ruleset in rulesets]
        need(walked == due and verdict_in(due[0]) != verdict_in(due[1]), f"the walks of the packet are these:\n{due[0]}{due[1]}not these:\n{said}")
    return said, {"same": alike, "differs": not alike}


def expect_tests(audit, file, ruleset, dead):
    """Compares for which rules there is a packet, and walks these."""
    said = asked(audit, "tests", file)
    live = re.findall(r"(?m)^# (\S+ \d+) .*\n(packet .*)", said)
    if {name for name, _ in live} != set(ruleset.named()) - dead or set(re.findall(r"(?m)^# dead (\S+ \d+) ", said)) != dead:
        raise Wrong(f"dead are {sorted(dead)}:\n{said}")
    for (name, line), walk in zip(live, walks(ruleset, packets_of(line for _, line in live))):
        need(name in walk.trail, f"{name} isn't on the walk of {line}:\n{said}")


def expect_cover(audit, file, drawn, ruleset, found, dead):
    """Compares the rules that some of the packets leave out; returns how many these are."""
    some = [(line, walk.trail) for (line, _), walk in zip(drawn.packets(), found) if drawn.draw.random() < 0.02]
    said = asked(audit, "cover", file, input="".join(f"{line}\n" for line, _ in some).encode())
    met = set().union(*(trail for _, trail in some))
    need(set(re.findall(r"(?m)^missed (\S+ \d+) ", said)) == set(ruleset.named()) - dead - met, f"met are {sorted(met)}:\n{said}")
    return {"missed": len(set(ruleset.named()) - dead - met)}


def number_of(field, text):
    if field == "flags":
        return sum(1 << ("FIN", "SYN", "RST", "PSH", "ACK", "URG").index(name) for name in text.split("+") if name != "NONE")
    kind, _, code = text.partition("/")
    return int(kind) * 256 + int(code or 0) if field == "icmp" else int(text)


def has(field, word, number):
    denies = word.startswith(f"{field}!=")
    text = word.removeprefix(f"{field}!=" if denies else f"{field}=")
    if text == "any":
        return True
    for part in text.split(","):
        first, _, last = part.partition("-" if field == "icmp" else ":")
        end = number_of(field, last or first) + (255 if field == "icmp" and "/" not in first and not last else 0)
        if number_of(field, first) <= number <= end:
            return not denies
    return denies


def given_words(drawn):
    """Some fields of packets, with the word for each: a value for each field that is given. In words commas part values, so no name with one is."""
    draw = drawn.draw
    ports = {port: f"{port}" if port < OTHERS else "5:65535" for port in PORTS}
    words = {"src": SOURCES, "in": {name: name for name in drawn.interfaces.names if "," not in name}, "proto": {1: "icmp", 6: "tcp", 17: "udp", 33: "33", 47: "47"},
             "frag": {0: "0", 1: "1"}, "sport": ports, "dport": ports,
             "flags": {number: name for name, number in FLAGS.items()}, "icmp": {number: name for name, number in TYPES.items()}}
    likely = {"src": 0.5, "in": 0.5, "proto": 0.5, "frag": 0.3, "sport": 0.2, "dport": 0.2, "flags": 0.1, "icmp": 0.1}
    given = {}
    for field, values in words.items():
        if values and draw.random() < likely[field]:
            value = draw.choice(list(values))
            given[field] = (value, f"{field}={values[value]}")
    return given


def expect_reached(audit, file, drawn, found):
    """Compares what becomes of packets that are given in part, by a field; returns whether there are any."""
    given, by = given_words(drawn), drawn.draw.choice(FIELDS)
    given.pop(by, None)
    meant = [(numbers, verdict, decider) for (_, kinds), (_, verdict, decider) in zip(drawn.packets(), found) for numbers in kinds
             if all(numbers.get(field) == value for field, (value, _) in given.items())]
    words = ["reach", file, "INPUT", *(word for _, word in given.values()), f"by={by}"]
    if not any(by in numbers for numbers, _, _ in meant):
        asked(audit, *words, status=2)
        return {"carried by none": 1}
    due = {}
    for numbers, verdict, decider in meant:
        due.setdefault((verdict, decider), set()).add(numbers.get(by, 0))
    said = asked(audit, *words, status=0)
    asked_for = set().union(*due.values())
    told = {}
    for verdict, decider, text in re.findall(r"(?m)^(.*) by (policy|\S+ \d+): (.*)$", said):
        # Port 5 stands for all from there on, and is asked of by another.
        numbers = {number: 40000 if by in ("sport", "dport") and number == OTHERS else number for number in asked_for}
        told[verdict, decider.replace("policy", "the policy")] = {number for number, shown in numbers.items() if has(by, text, shown)}
    need(told == due, f"{' '.join(words[2:])}: {due} is due\n{said}")
    return {"reached": 1}


def are_given(given, numbers):
    return all(numbers.get(field) == value for field, (value, _) in given.items())


def excepted_words(drawn):
    """The words that a claim excepts: each says all packets of a kind that rulesets tell apart, so that the others that are walked here stand for all that is left."""
    return {field: said for field, said in given_words(drawn).items() if field in WHOLE and said[1] != "src=128.0.0.0/1"}


def drawn_claim(drawn):
    """A claim: its form, the fields of the packets that it is about and of those that it excepts, and its verdicts."""
    draw = drawn.draw
    form, given, excepted = draw.choice(["never", "always", "only"]), given_words(drawn), {}
    while form == "only" and not excepted:
        excepted = excepted_words(drawn)
    return form, given, excepted, draw.sample(VERDICTS, draw.choice([1, 1, 2]))


def expect_claim(audit, folder, file, drawn, found):
    """Compares what is said of a claim; returns whether it holds."""
    form, given, excepted, named = drawn_claim(drawn)
    packets = [(numbers, walk.verdict.split()[0]) for (_, kinds), walk in zip(drawn.packets(), found) for numbers in kinds]
    meant = {verdict for numbers, verdict in packets if are_given(given, numbers) and not (excepted and are_given(excepted, numbers))}
    words = [form, *(word for _, word in excepted.values()), ",".join(named), "at INPUT", *(word for _, word in given.values())]
    claims = pathlib.Path(folder, "claims")
    claims.write_text(" ".join(words) + "\n", encoding="ascii")
    if not meant or not any(are_given(excepted, numbers) for numbers, _ in packets):
        asked(audit, "assert", file, str(claims), status=2)
        return {"claimed of none": 1}
    forbidden = {verdict for verdict in VERDICTS if (verdict in named) == (form != "always")}
    said = asked(audit, "assert", file, str(claims), status=1 if meant & forbidden else 0)
    if not meant & forbidden:
        return {"claimed": 1}
    line, verdict = re.search(r"(?m)^# (packet .*)\n(?:# \S+ \d+ .*\n)*# verdict (\S+)", said).groups()
    need(verdict in forbidden, f"{' '.join(words)}: {sorted(forbidden)} are forbidden\n{said}")
    need("proto" not in given or f" proto={given['proto'][0]} " in line, f"{' '.join(words)}: another protocol\n{said}")
    return {"claimed wrongly": 1}


@contextlib.contextmanager
def telling(ruleset, changed):
    """Tells the rulesets of an answer that isn't the due one."""
    try:
        yield
    except Wrong as wrong:
        raise Wrong(f"{ruleset.text()}edited:\n{changed.text()}{wrong}") from wrong


def written(folder, name, ruleset):
    file = pathlib.Path(folder, name)
    file.write_text(ruleset.text(), encoding="ascii")
    return str(file)


def expect_small(audit, draw, folder):
    """Draws a small ruleset and an edited one, and compares all answers; returns how often each came."""
    small = Small(draw)
    ruleset = small.ruleset()
    changed = small.edited(ruleset)
    files = [written(folder, "old", ruleset), written(folder, "new", changed)]
    with telling(ruleset, changed):
        packets = packets_of(line for line, _ in small.packets())
        found = walks(ruleset, packets)
        dead, told = expect_dead(audit, files[0], ruleset, packets, found)
        counts = collections.Counter(told)
        # Beside itself a ruleset is the same, without a step.
        said = asked(audit, "compare", "--steps", "0", files[0], files[0])
        if any(answer != "same" for answer, _ in hooks_of(said).values()) or "\n0 changed rules, 0 dead, " not in said:
            raise Wrong(f"the ruleset beside itself:\n{said}")
        other = walks(changed, packets)
        said, told = expect_alike(audit, files, (ruleset, changed), found, other)
        counts.update(told)
        counts.update(expect_changes(said, ruleset, changed, found, other))
        expect_tests(audit, files[0], ruleset, dead)
        counts.update(expect_cover(audit, files[0], small, ruleset, found, dead))
        for _ in range(3):
            counts.update(expect_reached(audit, files[0], small, found))
            counts.update(expect_claim(audit, folder, files[0], small, found))
    return counts


def expect_edited(audit, large, folder, packets, ruleset, found):
    """Edits a large ruleset, and compares the verdicts, the edited ruleset first or last; returns what they were."""
    changed = edited(large, ruleset, dead_of(ruleset, found))
    pairs = [(ruleset, found), (changed, walks(changed, packets))]
    (old, found), (new, other) = large.draw.sample(pairs, 2)
    with telling(old, new):
        _, told = expect_alike(audit, [written(folder, "old", old), written(folder, "new", new)], (old, new), found, other)
    by_policy = told["differs"] and all(a.verdict == b.verdict or a.by == b.by == "the policy" for a, b in zip(found, other))
    return {"same of large": told["same"], "differs of large": told["differs"], "differs by policy": by_policy}


def expect_large(audit, draw, folder):
    """Draws a large ruleset and edits of it, and compares which rules are dead, and verdicts; returns how often each answer came."""
    large = Large(draw)
    packets = packets_of(large.packets())
    ruleset = large.ruleset(packets)
    found, file = walks(ruleset, packets), written(folder, "large", ruleset)
    without = ruleset.without(dead_of(ruleset, found))
    with telling(ruleset, without):
        dead, told = expect_dead(audit, file, ruleset, packets, found)
        _, alike = expect_alike(audit, [file, written(folder, "without", without)], (ruleset, without), found, found)
    counts = collections.Counter({"dead of large": told["dead"], "without dead": alike["same"] and bool(dead)})
    for _ in range(EDITED):
        counts.update(expect_edited(audit, large, folder, packets, ruleset, found))
    return counts


# What is expected of each kind, and how many are drawn.
KINDS = {"small": (expect_small, SMALL), "large": (expect_large, LARGE)}


def drawn(kind, number, folder, iptaudit, seed, times):
    """Asks about each ruleset of a kind and a number; returns how often each answer came."""
    counts, expect, rulesets = collections.Counter(), *KINDS[kind]
    for at in range(number, 1 + rulesets * times, rulesets):
        counts.update(expect(iptaudit.path, Lots(f"{seed} {kind} {at}"), folder))
    return counts


@pytest.mark.parametrize("kind, number", [(kind, number) for kind, (_, rulesets) in KINDS.items() for number in range(1, 1 + rulesets)])
def test_asked(kind, number, folder, iptaudit, seed, times, sum_up, pytestconfig):
    if kind == "large" and number % SELDOM and pytestconfig.getoption("quick"):
        pytest.skip("the program isn't proved")
    try:
        counts = sum_up("asked", SMALL + LARGE, drawn(kind, number, folder, iptaudit, seed, times))
    except Wrong as wrong:
        pytest.fail(f"with the seed {seed}, of these rulesets:\n{wrong}", pytrace=False)
    if counts:
        assert [kind for kind in DUE if not counts[kind]] == []
