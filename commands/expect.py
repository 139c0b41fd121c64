"""Tests whether packets get the expected verdicts under a ruleset.

RULES is a dump, a file for iptables-restore. A line of EXPECTED is a packet line of a session, and the expected verdict:

    packet INPUT src=.. dst=.. proto=tcp in=eth0 sport=40001 dport=22 ct=NEW -> ACCEPT
    packet FORWARD .. -> DROP by SERVERS 2
    packet FORWARD .. -> REJECT tcp-reset by rule
    packet OUTPUT .. -> DROP by policy
    packet INPUT ..

The verdict is ACCEPT, DROP, TOOLONG, or REJECT with or without its type. After it may stand what gives it: `by` and a chain with the
number of its rule, `by rule` or `by policy`. A packet line without `->` is no test: its walk is shown. Blank lines and comments, which
begin with `#`, are skipped. One of RULES and EXPECTED may be `-`, standard input.

Where iptsim refuses RULES, iptaudit is asked. What a rule needs beyond what a packet line says is a condition then, and a verdict is right
if the packet gets it whichever conditions hold. A line of EXPECTED, or several together, may say what holds for the packets below, up to
the next such line; `when` alone ends it:

    when limit --limit 5/sec
    when ! addrtype --dst-type LOCAL

A condition is written as `iptaudit walk` prints it. A packet that may get another verdict is shown with the first walk by which it does, and the
answers that this needs. --when, --local, --unknown and --steps are handed on to iptaudit, which is asked then, whatever RULES has.

Standard output has TAP: a plan, and `ok` or `not ok` for each packet. Comments name the expected verdict, the one that came, and the
rules that matched; of those iptaudit tells the one that decides. At the end they name the rules that no packet matched, and the first packet
without `ct`, which is INVALID, that reached a rule on states, if iptsim takes RULES.

Status: 0, all packets get the expected verdicts; 1, one doesn't, or RULES doesn't load, or EXPECTED has no packet or a line that can't be
read; 2, a file can't be read or written, the program can't be run, or the words are wrong. Messages go to standard error; standard
output then has `Bail out!`. The environment variables IPTSIM and IPTAUDIT name the programs. Without them the installed programs are run; in a
checkout the proved ones if they are up to date, and otherwise bin/quick, which is slow.
"""

import collections
import os
import re
import sys
import xml.etree.ElementTree as ElementTree

from commands.meant import VALUES
from commands import json_documents
from commands.json_documents import cases_object, rule_object, text, verdict_object, walk_object
from commands.program import Trouble, finish, lines_of, parser, read
from commands.walks import TOO_LONG, UNCLEAR, Answers, Complaint, Group, Refused, Unfit, Verdict, WholeAnswers, add_options, bail_out, handed_on, packet_lines, text_of

ARROW = re.compile(rb"(.*?)[ \t]+->(?:[ \t]+(.*))?")
GLUED = re.compile(rb"[ \t]->")
VERDICT = re.compile(rb"(ACCEPT|DROP|TOOLONG|REJECT(?: (\S+))?)(?: by (rule|policy|(\S+) ([1-9][0-9]*)))?")
NOT_DUE = b"no verdict is expected"
RESULTS = {True: "passed", False: "failed", None: "shown"}

# What no XML document may have, and newlines in names.
FORBIDDEN = re.compile("[\x00-\x08\x0b-\x1f\x7f\ufffe\uffff]")

# A packet line with its number in the file; `due` is a Verdict in which None is any, or None.
Expected = collections.namedtuple("Expected", "number packet due")
# A line that says what holds, as the word that iptaudit is given; of the line `when` alone it is None.
When = collections.namedtuple("When", "number word")
# What became of a packet: the walks that are shown, and whether it is right, which is None where nothing is due.
Outcome = collections.namedtuple("Outcome", "expected walks right")


def due_of(given):
    """What stands after the arrow; a text where it can't be read."""
    found = VERDICT.fullmatch(b" ".join(given.split()))
    if not found:
        return "the expected verdict can't be read: write ACCEPT, DROP by policy or DROP by CHAIN NUMBER"
    verdict, kind, by, chain, number = found.groups()
    if kind and kind not in VALUES[b"--reject-with"]:
        return f"{os.fsdecode(kind)} is no type of REJECT"
    if by and verdict == b"TOOLONG":
        return "TOOLONG has no rule and no policy"
    return Verdict(verdict.split()[0], kind, (chain, int(number)) if chain else by)


def expected_of(number, line):
    """What a line expects, or says of conditions; a text where it can't be read."""
    first, *more = line.split(None, 1)
    if first == b"when":
        return When(number, *more or [None])
    if first != b"packet":
        return "it is neither a packet line nor a comment"
    found = ARROW.fullmatch(line)
    if not found:
        return "a blank is missing after `->`" if GLUED.search(line) else Expected(number, line, None)
    due = due_of(found.group(2) or b"")
    return Expected(number, found.group(1), due) if isinstance(due, Verdict) else due


def read_expected(name):
    found = [(number, expected_of(number, line)) for number, line in packet_lines(lines_of(read(name)))]
    complaints = [Complaint(f"{name}:{number}: {each}", name, number) for number, each in found if isinstance(each, str)]
    if complaints or not any(isinstance(each, Expected) for _, each in found):
        raise Unfit(complaints or [Complaint(f"{name}: has no packet line", name)])
    return [each for _, each in found]


def in_groups(expected):
    """The packets of a file in groups, each with the words that iptaudit is given for what the lines `when` above them say, and the first one's number."""
    groups = [Group([], [], None)]
    for each in expected:
        if isinstance(each, When):
            if groups[-1].packets or groups[-1].number is None:
                groups.append(Group([], [], each.number))
            groups[-1].words.extend(["--when", os.fsdecode(each.word)] if each.word else [])
        else:
            groups[-1].packets.append((each.number, each.packet))
    return [group for group in groups if group.packets]


def answers_to(words, expected):
    """What is said of the packets: by iptsim, or where it refuses the ruleset, or conditions are told, by iptaudit."""
    given, groups, place = handed_on(words), in_groups(expected), words.expected + ":"
    if not given and not any(group.words for group in groups):
        try:
            return Answers(words.rules, [packet for group in groups for packet in group.packets], place, words.expected)
        except Refused:
            pass
    return WholeAnswers(words.rules, given, groups, place, words.expected)


def is_due(due, came):
    by_rule = due.by == b"rule" and isinstance(came.by, tuple)
    return due.name == came.name and due.kind in (None, came.kind) and (due.by in (None, came.by) or by_rule)


def outcome_of(expected, walks):
    """What became of a packet. It is shown by the first walk that isn't what is due, or by all where nothing is due."""
    if not expected.due or not walks:
        return Outcome(expected, walks, False if expected.due else None)
    wrong = [walk for walk in walks if not is_due(expected.due, walk.verdict)]
    return Outcome(expected, (wrong or walks)[:1], not wrong)


def described(expected):
    return expected.packet + (b" -> " + text_of(expected.due) if expected.due else b"")


def details(outcome, answers):
    """What was due, what came under which answers, and which rules matched, as lines."""
    lines = [b"expected: " + text_of(outcome.expected.due)] if outcome.expected.due else []
    for walk in outcome.walks:
        lines += [b"got: " + text_of(walk.verdict), *(b"if: " + answer for answer in walk.answers or ())]
        lines += [b"matched: %s %d: %s" % (*step, answers.rule(step).text) for step in walk.steps]
        if not walk.steps and walk.answers is None:
            lines.append(b"matched: " + (TOO_LONG if walk.verdict.name == b"TOOLONG" else b"no rule"))
    return lines if outcome.walks else [*lines, b"got: " + UNCLEAR]


def notes(outcomes, answers, is_quiet):
    """Which rules no packet matched, and where a packet that is INVALID for want of `ct` came to a rule on states, as lines."""
    rows = [] if is_quiet else [b"no packet matched %s %d: %s" % (*step, answers.rule(step).text) for step in answers.unmatched()]
    for place, outcome in enumerate(outcomes, 1):
        at = next(filter(None, map(answers.invalid_at, outcome.walks)), None)
        if at:
            note = b"A packet without ct is INVALID: packet %d has none, and it reached a rule that tests states, %s %d."
            return [*rows, note % (place, *at)]
    return rows


def tap(words, outcomes, answers):
    yield b"1..%d" % len(outcomes)
    for place, outcome in enumerate(outcomes, 1):
        begin = b"not ok" if outcome.right is False else b"ok"
        skipped = b" # SKIP " + NOT_DUE if outcome.right is None else b""
        yield b"%s %d - %s%s" % (begin, place, described(outcome.expected).replace(b"#", b"\\#"), skipped)
        if not outcome.right:
            number = b"line %d of %s" % (outcome.expected.number, os.fsencode(words.expected))
            yield from (b"# " + line for line in [number, *details(outcome, answers)])
    yield from (b"# " + line for line in notes(outcomes, answers, words.quiet))


def walks_object(outcome, answers):
    """A packet with its walk, or with those that iptaudit tells."""
    if outcome.walks and outcome.walks[0].answers is None:
        walk, = outcome.walks
        return walk_object(answers, walk, [(step, None) for step in walk.steps])
    return cases_object(answers, outcome.expected.packet, outcome.walks)


def document(words, outcomes, answers):
    packets = []
    for outcome in outcomes:
        due = {"due": verdict_object(outcome.expected.due)} if outcome.expected.due else {}
        packets.append({"line": outcome.expected.number, "result": RESULTS[outcome.right], **due, **walks_object(outcome, answers)})
    found = {"rules": text(words.rules), "expected": text(words.expected), "passed": is_passed(outcomes), "packets": packets}
    return found if words.quiet else {**found, "unmatched": [rule_object(step, answers.rule(step)) for step in answers.unmatched()]}


def clean(text):
    """A text without what XML forbids, which is written as \\xNN."""
    return FORBIDDEN.sub(lambda found: found.group().encode("unicode_escape").decode(), text)


def put(case, tag, message, lines):
    """Says of a test that it failed, could not be run or was skipped."""
    ElementTree.SubElement(case, tag, message=clean(message)).text = clean("\n".join(lines)) or None


def case_of(words, name, line=None):
    """A test, which is passed where nothing else is said of it."""
    found = ElementTree.Element("testcase", classname=clean(text(words.expected)), name=clean(name), file=clean(text(words.expected)))
    if line:
        found.set("line", str(line))
    return found


def xml_of(words, cases, output=""):
    """The document of the tests of EXPECTED, in their order."""
    counts = {word: str(sum(case.find(tag) is not None for case in cases))
              for word, tag in (("failures", "failure"), ("errors", "error"), ("skipped", "skipped"))}
    root = ElementTree.Element("testsuites")
    found = ElementTree.SubElement(root, "testsuite", name=clean(text(words.expected)), tests=str(len(cases)), **counts)
    found.extend(cases)
    if output:
        ElementTree.SubElement(found, "system-out").text = clean(output)
    ElementTree.indent(root)
    return ElementTree.tostring(root, encoding="utf-8", xml_declaration=True) + b"\n"


def suite(words, outcomes, answers):
    """What --junit writes: each packet is a test, named with its line, since no two tests may have one name."""
    cases = []
    for outcome in outcomes:
        number = outcome.expected.number
        cases.append(case_of(words, f"line {number}: {text(described(outcome.expected))}", number))
        if not outcome.right:
            lines = [text(line) for line in details(outcome, answers)]
            tag, message = ("skipped", text(NOT_DUE)) if outcome.right is None else ("failure", "; ".join(lines[:2]))
            put(cases[-1], tag, message, lines)
    return xml_of(words, cases, "\n".join(text(line) for line in notes(outcomes, answers, words.quiet)))


def is_passed(outcomes):
    return all(outcome.right is not False for outcome in outcomes)


def write_file(name, data):
    try:
        with open(name, "wb") as file:
            file.write(data)
    except OSError as error:
        raise Trouble(f"cannot write {name}: {error.strerror}") from error


def main():
    reader = parser(__doc__, allow_abbrev=False)
    reader.add_argument("-q", "--quiet", action="store_true", help="leave out the rules that no packet matched")
    reader.add_argument("--json", action="store_true", help="write one JSON document in place of TAP")
    reader.add_argument("--junit", metavar="FILE", help="write JUnit XML into FILE, too")
    add_options(reader)
    reader.add_argument("rules", metavar="RULES")
    reader.add_argument("expected", metavar="EXPECTED")
    words = reader.parse_args()
    if words.rules == words.expected == "-":
        reader.error("RULES and EXPECTED can't both be standard input")
    try:
        expected = read_expected(words.expected)
        answers = answers_to(words, expected)
        outcomes = [outcome_of(*pair) for pair in zip((each for each in expected if isinstance(each, Expected)), answers.of_packets())]
        found = document(words, outcomes, answers) if words.json else list(tap(words, outcomes, answers))
        report = suite(words, outcomes, answers) if words.junit else None
    except (Unfit, Trouble) as trouble:
        said, status = bail_out(trouble, words.json)
        if not words.json:
            sys.stdout.buffer.write(b"Bail out!  " + os.fsencode(said[0]) + b"\n")
        if words.junit:
            case = case_of(words, "the inputs")
            put(case, "error", text(said[0]), [text(each) for each in said])
            write_file(words.junit, xml_of(words, [case]))
        return status
    if words.json:
        json_documents.write(found)
    else:
        sys.stdout.buffer.writelines(line + b"\n" for line in found)
    if words.junit:
        write_file(words.junit, report)
    return 0 if is_passed(outcomes) else 1


if __name__ == "__main__":
    finish(main)
