"""Questions about rulesets that are drawn at random, whose rules also need conditions that the program doesn't know, by the program `calls`: its answers
beside those of all assignments, taken one by one. `--times N` draws N times as many, and `--seed SEED` others.

A ruleset has up to eleven rules, in INPUT and in one chain to which they jump or go; on each field one packet stands for all that no rule tells from it
(tests/answers/asked). Two of three rules need one condition or two, some of them that it doesn't hold, and a few both; there are up to five, and in
every fiftieth ruleset ten.
Every twentieth has 30 to 200 rules in four or five chains, and three conditions, which one rule of three needs. Every tenth is a list, as of hosts by their
hardware addresses or of sets of banned ones: up to seven rules that match the same packets, each of which needs a condition of its own, and give a
verdict or jump to a chain that returns. Under an assignment a rule matches what it matches by itself, if all holds that it needs.

- `dead`: just the rules that under no assignment any of these packets comes to;
- the reason why one is dead: no jumps lead to its chain; none of these packets is meant for it, and matches it under an assignment by which all holds
  that it needs; only rules that match no packet with it lead to its chain; or just these rules and policies decide the packets that are meant for it
  and may come to its chain, or all that are meant for it if none may;
- `live`: no condition is answered twice; and the rule is on the walk of the packet under each assignment that gives the answers, but not under each
  that gives fewer of the first of them;
- of two rulesets, of which the second is the first one after an edit: `same` just if they give each packet the same verdict under each assignment; else a
  packet that gets two under each assignment that gives the answers.

No answer may be unclear.
"""

import itertools

import pytest

from tests.answers import Wrong, need
from tests.drawn.lots import Lots
from tests.drawn.rulesets.large import Large
from tests.drawn.rulesets.model import comes_to, matched, packets_of
from tests.drawn.rulesets.ruleset import target_of, verdict_of
from tests.drawn.rulesets.small import Small

RULESETS = 60
# How many conditions there are: few, or many in one ruleset of so many.
FEW, MANY, OFTEN = 5, 10, 50
# How many there are in a large ruleset, which is one of so many.
LARGE, SELDOM = 3, 20
# How many conditions a list has at most, which is one ruleset of so many.
LISTED, LISTS = 7, 10
DUE = ("dead", "dead by a condition", "taken", "excluded", "unreached", "unmatched by its needs", "live", "live by answers",
       "live by a condition that fails", "same", "differs", "differs by answers")
DECIDE, STAY, RETURN = "decide", "stay", "return"


def manner_of(rule):
    """What a rule does with a packet that it matches: one of these words, or whether it jumps or goes, and where."""
    words = rule.split()
    ends = words[-1] if "-j" in words or "-g" in words else ""
    return (words[-2], ends) if target_of(rule) else {"": STAY, "LOG": STAY, "RETURN": RETURN}.get(ends, DECIDE)


def needs_drawn(draw, ruleset, conditions, counts):
    """What each rule needs: conditions by their numbers, as many as one of these counts, each with whether it has to hold."""
    needs = {}
    for name in ruleset.named():
        several = draw.sample(range(conditions), min(conditions, draw.choice(counts)))
        needs[name] = [(condition, draw.random() < 0.6) for condition in several]
        if several and draw.random() < 0.05:
            needs[name].append((several[0], not needs[name][0][1]))
    return needs


def input_of(ruleset, needs):
    """The dump, with comments that say what rules need."""
    lines = (f"# needs {name} " + " ".join(("" if holds else "!") + str(number) for number, holds in own) for name, own in needs.items() if own)
    return ruleset.text() + "".join(f"{line}\n" for line in lines)


def trail_of(chains, matching, can):
    """The rules on a packet's walk, of those that it matches and whose needs hold."""
    trail, waiting = [], [("INPUT", 0)]
    while waiting:
        chain, passed = waiting.pop()
        rules = chains[chain]
        while passed < len(rules):
            name, manner = rules[passed]
            passed += 1
            if not matching[name] or not can[name]:
                continue
            trail.append(name)
            if manner == DECIDE:
                return trail
            if manner == RETURN:
                break
            if manner != STAY:
                if manner[0] == "-j":
                    waiting.append((chain, passed))
                waiting.append((manner[1], 0))
                break
    return trail


def chains_of(ruleset):
    chains = {chain: [] for chain in ("INPUT", *ruleset.chains)}
    for name, rule in ruleset.named().items():
        chains[name.split()[0]].append((name, manner_of(rule)))
    return chains


def matches_of(ruleset, packets):
    """Of each packet which rules match it, and to which of their chains it may come."""
    columns = {name: matched(ruleset, rule, packets) for name, rule in ruleset.named().items()}
    columns.update({chain: comes_to(ruleset, chain, packets) for chain in sorted({rule.split()[1] for rule in ruleset.rules})})
    return [{name: column[at] for name, column in columns.items()} for at in range(len(packets))]


def assignments(conditions, answers=()):
    every = itertools.product((False, True), repeat=conditions)
    return [held for held in every if all(held[number] == holds for number, holds in answers)]


def which_can(needs, held):
    """Of each rule whether all holds that it needs."""
    return {name: all(held[number] == holds for number, holds in own) for name, own in needs.items()}


def answers_of(words):
    answers = [(int(word.lstrip("!")), not word.startswith("!")) for word in words]
    need(len({number for number, _ in answers}) == len(answers), "a condition is answered twice")
    return answers


def packet_at_input(said):
    need(said.split()[:1] == ["INPUT"], "a packet elsewhere")
    return packets_of([f"packet{said}"])


def drawn(draw, at):
    """What a ruleset is edited by, if it is, the ruleset, the lines of packets that stand for all, how many conditions there are, and what its
    rules need."""
    if at % SELDOM == SELDOM - 1:
        large = Large(draw)
        lines = list(large.packets())
        ruleset = large.ruleset(packets_of(lines))
        return None, ruleset, lines, LARGE, needs_drawn(draw, ruleset, LARGE, (0, 0, 1))
    small = Small(draw)
    if at % LISTS == LISTS - 4:
        conditions, ruleset = small.listed(LISTED)
        needs = {name: [(number, draw.random() < 0.8)] if number < conditions else [] for number, name in enumerate(ruleset.named())}
        return small, ruleset, [line for line, _ in small.packets()], conditions, needs
    ruleset, conditions = small.ruleset(), MANY if at % OFTEN == OFTEN - 2 else draw.randint(1, FEW)
    return small, ruleset, [line for line, _ in small.packets()], conditions, needs_drawn(draw, ruleset, conditions, (0, 1, 2))


def edited(draw, small, ruleset, needs, conditions):
    """The ruleset after an edit, and what its rules need: those that stay, what they needed, or once in a while something else."""
    other, before = small.edited(ruleset), dict(zip(ruleset.rules, needs.values()))
    fresh = needs_drawn(draw, other, conditions, (0, 1, 2))
    return other, {name: before[rule] if rule in before and draw.random() < 0.9 else fresh[name] for name, rule in other.named().items()}


def asked(calls, text, compared):
    """What the program says of a text, which is compared."""
    ended = calls.run(["conditions"], input=text.encode())
    said = ended.stdout.decode()
    try:
        need(not ended.returncode, f"status {ended.returncode}")
        compared(said)
    except Wrong as wrong:
        pytest.fail(f"{text}\n{said}\n{wrong}", pytrace=False)


def check(calls, draw, at, seen):
    """Draws a ruleset, and compares the answers about it, and about it and another one."""
    small, ruleset, lines, conditions, needs = drawn(draw, at)
    packets, text = packets_of(lines), input_of(ruleset, needs)
    asked(calls, text, lambda said: compare(ruleset, needs, conditions, said, packets, seen))
    if small and conditions <= FEW:
        other, others = edited(draw, small, ruleset, needs, conditions)
        both = ((ruleset, needs), (other, others))
        asked(calls, f"{text}# next\n{input_of(other, others)}", lambda said: compare_both(both, conditions, said.strip(), packets, seen))


def compare_both(both, conditions, said, packets, seen):
    life, *rest = said.partition(":")[0].split()
    need(life in ("same", "differs"), "neither the same nor different")
    answers, packets = (answers_of(rest), packet_at_input(said.partition(":")[2])) if life == "differs" else ([], packets)
    sides = [(ruleset, chains_of(ruleset), matches_of(ruleset, packets), needs) for ruleset, needs in both]
    kinds = {tuple(tuple(side[2][at].values()) for side in sides): at for at in range(len(packets))}
    for held in assignments(conditions, answers):
        for at in kinds.values():
            trails = [trail_of(chains, rows[at], which_can(needs, held)) for _, chains, rows, needs in sides]
            old, new = (trail and verdict_of(side[0].named()[trail[-1]]) or side[0].policy for side, trail in zip(sides, trails))
            if (old == new) != (life == "same"):
                raise Wrong(f"{old} and {new} under {held}")
    seen.add("differs by answers" if answers else life)


def led_to(chains, without=()):
    """The chains to which jumps and gotos lead from INPUT, without some rules."""
    led, fresh = set(), ["INPUT"]
    while fresh:
        chain = fresh.pop()
        led.add(chain)
        fresh += [manner[1] for name, manner in chains[chain] if name not in without and isinstance(manner, tuple) and manner[1] not in led]
    return led


def check_reason(name, words, rules, chains, walks, seen):
    """Compares the reason why a rule is dead: of each walk what matches the packet, what can match, and the trail."""
    kind, *rest = words
    listed = sorted(" ".join(pair) for pair in zip(rest[::2], rest[1::2]))
    led = name.split()[0] in led_to(chains)
    matching = [(row, can, trail) for row, can, trail in walks if row[name]] if led else []
    meant = [(row, trail) for row, can, trail in matching if can[name]]
    near = [(row, trail) for row, trail in meant if row[name.split()[0]]]
    right = {
        "unknown": led and "--ports" in rules[name],
        "impossible": not any(row[name] for row, _, _ in walks),
        "unreached": not led,
        "unmatched": not meant,
        "excluded": name.split()[0] not in led_to(chains, listed) and not any(row[way] for row, _ in meant for way in listed),
        "taken": listed == sorted({trail[-1] if trail and verdict_of(rules[trail[-1]]) else "policy INPUT" for _, trail in near or meant}),
    }
    need(right[kind] and (meant or kind not in ("excluded", "taken")), f"{name} is {kind} {listed}")
    seen.add("unmatched by its needs" if kind == "unmatched" and matching else kind)


def compare(ruleset, needs, conditions, said, packets, seen):
    chains, rules = chains_of(ruleset), ruleset.named()
    cans = [which_can(needs, held) for held in assignments(conditions)]
    rows = {tuple(row.items()): row for row in matches_of(ruleset, packets)}.values()
    walks = [(row, can, trail_of(chains, row, can)) for row in rows for can in cans]
    met = {name for _, _, trail in walks for name in trail}
    plain = {name for row in rows for name in trail_of(chains, row, dict.fromkeys(needs, True))}
    left = set(needs)
    for line in said.splitlines():
        life, chain, number, *rest = line.partition(":")[0].split()
        name = f"{chain} {number}"
        need(name in left, f"{name} is told twice, or isn't there")
        left.remove(name)
        due = "live" if name in met else "dead"
        need(life == due, f"{name} is {due}")
        if life == "dead":
            seen.add("dead by a condition" if name in plain else "dead")
            check_reason(name, rest, rules, chains, walks, seen)
            continue
        answers = answers_of(rest)
        row, = matches_of(ruleset, packet_at_input(line.partition(":")[2]))
        for held in assignments(conditions, answers):
            need(name in trail_of(chains, row, which_can(needs, held)), f"{name} isn't on the walk under {held}")
        fewer = assignments(conditions, answers[:-1])
        need(not answers or not all(name in trail_of(chains, row, which_can(needs, held)) for held in fewer), f"{name} is on the walk with fewer answers")
        seen.add("live by answers" if answers else "live")
        if any(not holds for _, holds in answers):
            seen.add("live by a condition that fails")
    need(not left, f"nothing is told of {left}")


@pytest.mark.parametrize("number", range(RULESETS))
def test_conditions(number, calls, seed, times, sum_up):
    seen = set()
    for at in range(number, RULESETS * times, RULESETS):
        check(calls, Lots(f"{seed} {at}"), at, seen)
    counts = sum_up("conditions", RULESETS, dict.fromkeys(seen, 1))
    if counts:
        assert [kind for kind in DUE if not counts[kind]] == []
