"""The rules that packets match under a ruleset, and their verdicts.

RULES is a dump, a file for iptables-restore. A PACKET is a packet line of a session, with or without the word `packet`:

    'INPUT src=192.0.2.7 dst=10.0.0.1 proto=tcp in=eth0 sport=40000 dport=22 ct=NEW'

Without a PACKET, packet lines come from standard input. Blank lines and comments, which begin with `#`, are skipped. RULES may be `-`,
standard input, if packets are given as words.

Below each packet stand the rules that it matches, in order and as they are listed, and then the verdict. A note names the first rule on
states that a packet without `ct`, which is INVALID, reached. With --why-not the rules that it reached and didn't match stand among them,
each after `not` and up to the first condition that fails, with what the packet has there.

Where iptsim refuses RULES, iptaudit is asked. What a rule needs beyond what a packet line says is a condition then: each of the packet's
walks stands behind the answers that it needs, and of its rules only the one that decides; --why-not isn't for such files. --when, --local,
--unknown and --steps are handed on to iptaudit, which is asked then, whatever RULES has.

Status: 0, each packet is explained; 1, RULES doesn't load, or a packet line is refused, or there is none: then none is explained; 2, a
file can't be read, a program can't be run, or the words are wrong. Messages go to standard error. The environment variables IPTSIM and
IPTAUDIT name the programs. Without them the installed programs are run; in a checkout the proved ones if they are up to date, and
otherwise bin/quick, which is slow.
"""

import os
import sys

from commands import json_documents
from commands.json_documents import cases_object, text, walk_object
from commands.program import Trouble, finish, lines_of, parser, read
from commands.walks import TOO_LONG, UNCLEAR, Answers, Complaint, Group, Refused, Unfit, WholeAnswers, add_options, bail_out, handed_on, packet_lines, text_of
from commands.why_not import asked


def answered(words):
    """The packets that are asked about, each with its number in the input, and what is answered of RULES and them: by iptsim, or by iptaudit where iptsim
    refuses RULES."""
    lines = [line for each in words.packets for line in os.fsencode(each).split(b"\n")]
    packets = [(number, line if line.split()[0] == b"packet" else b"packet " + line)
               for number, line in packet_lines(lines if words.packets else lines_of(read("-")))]
    if not packets:
        raise Unfit([Complaint("there is no packet line")])
    place, given = "packet " if words.packets else "line ", handed_on(words)
    try:
        if not given:
            return packets, Answers(words.rules, packets, place)
    except Refused as refused:
        if words.why_not:
            complaint, = refused.args[0]
            raise Unfit([complaint._replace(text=complaint.text + "; --why-not is for files that iptsim takes, and without it iptaudit is asked")]) from None
    return packets, WholeAnswers(words.rules, given, [Group([], packets, None)], place)


def paragraph(answers, walk, rules):
    """A packet with the rules of its walk that are shown, as lines."""
    yield walk.line
    for step, failure in rules:
        if failure:
            has = b", ".join(b"%s is %s" % (field.encode(), value) for field, value in failure.has.items())
            yield b"    not %s %d: %s: %s" % (*step, failure.listed, has)
        else:
            yield b"  %s %d: %s" % (*step, answers.rule(step).text)
    if not rules:
        yield b"  matches " + (TOO_LONG if walk.verdict.name == b"TOOLONG" else b"no rule")
    by = b"rule" if isinstance(walk.verdict.by, tuple) else walk.verdict.by
    yield b"  verdict " + text_of(walk.verdict._replace(by=by))
    at = answers.invalid_at(walk)
    if at:
        yield b"  note: a packet without ct is INVALID, and %s %d tests states" % at


def cases(answers, line, walks):
    """A packet with its walks, each behind the answers that it needs, as lines."""
    yield line
    for walk in walks:
        yield from (b"  if " + answer for answer in walk.answers)
        yield from (b"    %s %d: %s" % (*step, answers.rule(step).text) for step in walk.steps)
        yield b"    verdict " + text_of(walk.verdict._replace(by=b"rule") if walk.steps else walk.verdict)
    if not walks:
        yield b"  " + UNCLEAR


def explained(answers, line, walks, is_why_not, is_json):
    """What is said of a packet: a JSON object, or lines."""
    if isinstance(answers, WholeAnswers):
        return cases_object(answers, line, walks) if is_json else list(cases(answers, line, walks))
    walk, = walks
    # The rules that are shown, each with why it doesn't match, or None where it does.
    rules = asked(answers, walk) if is_why_not else [(step, None) for step in walk.steps]
    return walk_object(answers, walk, rules) if is_json else list(paragraph(answers, walk, rules))


def main():
    reader = parser(__doc__, allow_abbrev=False)
    reader.add_argument("--why-not", action="store_true", help="say of each rule that doesn't match which condition fails")
    reader.add_argument("--json", action="store_true", help="write one JSON document")
    add_options(reader)
    reader.add_argument("rules", metavar="RULES")
    reader.add_argument("packets", metavar="PACKET", nargs="*", default=[])
    words, more = reader.parse_known_args()
    # Packets that stand after an option, which the parser leaves over.
    more = [word for word in more if word != "--"]
    unknown = [word for word in more if word.startswith("-")]
    if unknown:
        reader.error("unrecognized arguments: " + " ".join(unknown))
    words.packets = [*words.packets, *more]
    if words.why_not and handed_on(words):
        reader.error("--why-not is for files that iptsim takes, and iptaudit is asked here")
    if words.rules == "-" and not words.packets:
        reader.error("RULES can't be standard input where the packets are")
    try:
        packets, answers = answered(words)
        found = [explained(answers, line, walks, words.why_not, words.json) for (_, line), walks in zip(packets, answers.of_packets())]
    except (Unfit, Trouble) as trouble:
        return bail_out(trouble, words.json)[1]
    if words.json:
        objects = [{"line": number, **each} for (number, _), each in zip(packets, found)]
        json_documents.write({"rules": text(words.rules), "packets": objects})
    else:
        sys.stdout.buffer.write(b"\n\n".join(map(b"\n".join, found)) + b"\n")
    return 0


if __name__ == "__main__":
    finish(main)
