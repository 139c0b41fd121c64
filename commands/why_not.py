"""Why rules don't match a packet: of each rule that it came to, the first condition that fails, by the plain model of tests/model.

Which rules match is what the program says. Where the model finds otherwise, neither is believed."""

import collections
import functools

from commands.program import Trouble
from commands.walks import values
from tests.model import printing
from tests.model.faults import Fault
from tests.model.matching import ASKS, FIRST_FRAGMENT_ONLY, is_listed
from tests.model.options import rule_of
from tests.model.packets import packet_of

PORTS = ("sport", "dport")
# What a packet has on a field that its line doesn't give.
NOT_GIVEN = {"in": b"none", "out": b"none", "frag": b"0", "flags": b"NONE", "ct": b"INVALID", "ttl": b"64"}

# The listing of a rule from its first condition to the one that fails, that condition, and what the packet has on the fields that
# it asks.
Failure = collections.namedtuple("Failure", "listed condition has")


@functools.lru_cache(maxsize=None)
def read_rule(text):
    return rule_of(values(text)[2:])


def failing(each, numbers):
    """The fields that a condition asks, where it fails; else none."""
    if each.name == b"--ports":
        has_listed = any(is_listed(each.value, numbers[field]) for field in PORTS)
        return PORTS if has_listed == each.inverted else ()
    if each.name not in ASKS:
        return ()
    field, how = ASKS[each.name]
    return (field,) if how(each.value, numbers[field]) == each.inverted else ()


def pieces(rule, numbers):
    """The listing of what a rule asks, piece by piece, each with the fields on which it fails."""
    for part in (rule.own, *rule.matches):
        if part is not rule.own:
            fails = part.name in FIRST_FRAGMENT_ONLY and numbers["frag"] == 1
            yield b" -m " + part.name.encode(), ("frag",) if fails else ()
        yield from ((printing.condition(each), failing(each, numbers)) for each in part.conditions)


def given(line):
    return {key.decode(): value for key, _, value in (word.partition(b"=") for word in values(line)[2:])}


def first_failure(rule, packet, has):
    """The first condition of a rule that fails; None where each holds."""
    listed = b""
    for piece, fields in pieces(rule, packet.numbers):
        listed += piece
        if fields:
            return Failure(listed.strip(), piece.strip(), {field: has.get(field, NOT_GIVEN.get(field)) for field in fields})
    return None


def asked(answers, walk):
    """Each rule that a packet came to, as pairs of a step and why the rule doesn't match, or None where it does."""
    packet, has, matched, found = packet_of(values(walk.line)[1:]), given(walk.line), set(walk.steps), []
    for step in answers.passed(walk):
        try:
            failure = first_failure(read_rule(answers.rule(step).text), packet, has)
        except Fault as fault:
            raise Trouble(f"the plain model can't read {step[0].decode()} {step[1]}: {fault.code}") from fault
        if (failure is None) != (step in matched):
            raise Trouble(f"the program and the plain model differ on whether {step[0].decode()} {step[1]} matches")
        found.append((step, failure))
    return found
