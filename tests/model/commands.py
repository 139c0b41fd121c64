"""The words of a command, and what it does to a table."""

import re

from . import printing, values
from .faults import Fault, need
from .options import rule_of
from .table import Table

# Each command with its names and what follows: `chain` and `word` are there, `chain?` and `number?` may be, and `rule` is all
# words that are left. `number?` is a word of digits; `or rule` is a rule where there is no number.
COMMANDS = [
    ("-A --append", "chain rule"), ("-C --check", "chain rule"), ("-D --delete", "chain number? or rule"), ("-I --insert", "chain number? rule"),
    ("-R --replace", "chain number rule"), ("-F --flush", "chain?"), ("-X --delete-chain", "chain?"), ("-S --list-rules", "chain?"),
    ("-N --new-chain", "chain"), ("-P --policy", "chain word"), ("-E --rename-chain", "chain word"),
]
BY_NAME = {name.encode(): (names.split()[0], form.split()) for names, form in COMMANDS for name in names.split()}
TABLE_NAMES = (b"-t", b"--table")
DIGITS = re.compile(rb"[0-9]+")


def name_at(words):
    """Where the command's name stands: after at most one `-t filter`."""
    at = 0
    while at < len(words) and words[at] in TABLE_NAMES:
        need(at + 1 < len(words), "P2")
        need(at == 0, "P4")
        need(words[1] == b"filter", "C4")
        at += 2
    return at


def rule_in(words):
    """A rule, among whose words no other command stands."""
    try:
        return rule_of(words)
    except Fault as fault:
        if fault.code == "P1" and fault.word in BY_NAME:
            raise Fault("C2") from None
        raise


def command_of(words, in_restore=False):
    """(name, what follows it): the short name, and the words, the number and the rule in their order; None is what may be left out."""
    at = name_at(words)
    need(at < len(words) and words[at] in BY_NAME, "C1")
    name, form = BY_NAME[words[at]]
    need(not (in_restore and name == "-S"), "C1")
    left, taken = words[at + 1 :], []
    for part in form:
        if part in ("chain", "word", "number"):
            need(left, "C3")
            word = left.pop(0)
            taken.append(values.number(word) if part == "number" else word)
        elif part == "chain?":
            taken.append(left.pop(0) if left else None)
        elif part == "number?":
            taken.append(values.number(left.pop(0)) if left and DIGITS.fullmatch(left[0]) else None)
        elif part == "or" and taken[-1] is not None:
            break
        elif part == "rule":
            taken.append(rule_in(left))
            left = []
    need(not left, "C3")
    return name, taken


# What each command but -S does to a table.
DOES = {
    "-A": Table.append,
    "-C": Table.place_of,
    "-D": lambda table, chain, number, rule=None: table.delete(chain, table.place_of(chain, rule) + 1 if number is None else number),
    "-I": lambda table, chain, number, rule: table.insert(chain, 1 if number is None else number, rule),
    "-R": Table.replace,
    "-F": Table.flush,
    "-X": Table.delete_chains,
    "-N": Table.new_chain,
    "-P": Table.set_policy,
    "-E": Table.rename,
}


def apply(table, command):
    """Does a command, and returns the lines of its reply."""
    name, taken = command
    if name == "-S":
        if taken[0] is not None:
            table.rules(taken[0])
        return printing.rules_listing(table, taken[0])
    DOES[name](table, *taken)
    return []
