"""The lines of restores, steered by where the model is in one."""

from tests.model import printing
from tests.model.restore import FILTER, OUTSIDE
from tests.model.values import BUILT_IN

from . import values
from .commands import SECTION_KINDS, CommandDraw
from .values import spelled

COUNTERS = (b"[0:0]", b"[5:300]", b"[0007:99999999999999999999]", b"[12:900]")
BAD_COUNTERS = (b"[0:x]", b"[0]", b"[:0]", b"0:0", b"[0:0", b"[0:0]]", b"[]", b"[-1:0]", b"[ 0:0]")
OPENINGS = {b"*filter": 60, b" *filter\t": 3, b'"*filter"': 1, b"*nat": 9, b"*mangle": 3, b"*": 1, b"*Filter": 1, b'"*a b"': 1}
BAD_OPENINGS = (b"*filter x", b"COMMIT", b":INPUT DROP [0:0]", b"-A INPUT", b"E", b'"', b"filter", b"iptables -F", b"-S", b"[0:0] *filter",
                b'"COMMIT"')
SKIPPED = (b":PREROUTING ACCEPT [0:0]", b"-A PREROUTING -j MASQUERADE", b'-A x "', b"*filter", b"-A INPUT -j DROP", b"COMMITS", b'"COMMIT"',
           b"COMMIT x", b"*raw")
ENDS = {b"COMMIT": 12, b" COMMIT": 1, b"COMMIT\t ": 1, b"\tCOMMIT": 1}
BAD_LINES = (b"*nat", b"*filter", b"* x", b'"COMMIT"', b"COMMIT x", b"commit", b"[0:0]", b"[0:0] :a -", b"[0:0] COMMIT", b"[0:0] [0:0] -F", b"-S",
             b"-S a b", b"-t filter -S", b"-t nat -S", b"[1:1] -S INPUT", b":", b": -", b":INPUT", b":INPUT REJECT", b":INPUT -x", b":a ACCEPT [0:0]",
             b":a - [0:0] x", b":ACCEPT -", b":ACCEPT ACCEPT", b'":a b" -', b":-a -", b'"', b"-A INPUT \"x", b"iptables -F", b"COMMIT\r",
             b":INPUT DROP [5:6", b"#" * 10241, b"-A INPUT" + b" " * 10240)
PASSED = (b"", b"# x", b"  \t", b'# "', b" # COMMIT", b"#")


def chain_line(dice, restore, wrong):
    """A chain line: mostly of a name that has none in the section yet."""
    names = [name for name in BUILT_IN + values.CHAINS if name not in restore.named]
    is_again = not names or restore.named and dice.chance(0.03 + wrong / 2)
    known = sorted(restore.named) if is_again else names
    name = dice.choice(values.BAD_CHAINS) if dice.chance(wrong / 4) else dice.choice(known)
    if dice.chance(0.2 if is_again else wrong / 2):
        policy = dice.choice((b"DROP", b"REJECT", b"x", b"", b"- -"))
    else:
        policy = dice.choice((b"ACCEPT", b"DROP", b"-")) if name in BUILT_IN else b"-"
    words = [b":" + name, policy]
    if dice.chance(0.8):
        words.append(dice.choice(BAD_COUNTERS) if dice.chance(wrong / 10) else dice.choice(COUNTERS))
    return spelled(words, dice)


def filter_line(dice, restore, wrong):
    kind = dice.weighted({"chain": 25, "command": 60, "commit": 12, "passed": 4, "bad": 1 + wrong * 20})
    if kind == "chain":
        return chain_line(dice, restore, wrong)
    if kind == "command":
        words = CommandDraw(dice, restore.built, wrong, light=True).command(SECTION_KINDS)
        line = spelled(words, dice)
        if dice.chance(wrong / 10):
            return dice.choice(BAD_COUNTERS) + b" " + line
        return dice.choice(COUNTERS) + b" " + line if dice.chance(0.2) else line
    if kind == "commit":
        return dice.weighted(ENDS)
    return dice.choice(PASSED if kind == "passed" else BAD_LINES)


def restore_line(dice, restore, wrong, may_end):
    """A line of a restore, or None where it may end."""
    if restore.where == OUTSIDE:
        kind = dice.weighted({"open": 40, "passed": 6, "bad": wrong * 20, "end": 40 if may_end else 0})
        if kind == "end":
            return None
        return dice.weighted(OPENINGS) if kind == "open" else dice.choice(PASSED if kind == "passed" else BAD_OPENINGS)
    if restore.where == FILTER:
        return filter_line(dice, restore, wrong)
    return dice.weighted({dice.choice(SKIPPED): 5, dice.choice(PASSED): 1, dice.weighted(ENDS): 4})


def listed_lines(dice, table):
    """The listing of the table as a dump: with counters, comments and, now and then, a line less or one twice."""
    lines = [b"# Generated", *(printing.listing(table))]
    changed = dice.weighted({"nothing": 6, "out": 2, "twice": 2})
    at = dice.randint(2, len(lines) - 1)
    if changed == "out":
        del lines[at]
    elif changed == "twice":
        lines.insert(at, lines[at])
    return [dice.choice(COUNTERS) + b" " + line if line.startswith(b"-A") and dice.chance(0.5) else line for line in lines]
