"""Names all faults of dumps, which are files for iptables-restore, or with --session those of a file with lines of a session.

A FILE named `-` is standard input; one whose name begins with `-` stands after `--`, or as ./-name. Each refused line is one line
of output; after those of a file come sentences on what to do about the commonest faults:

    FILE:LINE: CODE text: WORD
    FILE: WORD, WORD: what they are, and what to do

A sentence stands in place of a code where a file is no dump, or where a section would be skipped without a fault. A dump that loads
has no output. Rules for IPv6 only (-6) are skipped, as by iptables-restore; standard error names the first, since iptsim itself
refuses them. Of a chain with too many rules the first one too many is named, with the count.

Each line is tried by itself: a refused line is left out, and the next are tried without it. So a chain whose line is refused for its
form is made all the same, and where a chain can't be made, lines that are refused for its name aren't listed. After a line that
opens a section, or should be COMMIT, the next are tried as if COMMIT stood before them. Numbers of rules in -D, -I and -R don't count
refused rules.

WORD stands as in the file. It is the last word of the shortest beginning of the line that is refused alike. Where an option is at
fault and not its value (P2, P4, P6, P8, P9, P11, T13), it is the option; but of `-m` and `--reject-with` it is the value, so P6, P8
and P12 name the match. T1, T5 and T14 name the chain, T10 to T12 the target, and other T codes the word of the command at fault. R1
and R3 name the first word, C1 the one in place of a command, R4 the line that opened the section, R6 the number of bytes. A WORD of
more than 80 bytes is cut, and control characters are written as \\r or \\x00.

With --session each FILE is run as a session, and what was perhaps meant stands after WORD, as in `F1 unknown hook: input (INPUT?)`.
F2 names the missing keys.

With --json standard output has one document for all files, as docs/schemas/check.json describes it.

Status: 0, nothing is refused; 1, something is; 2, a file can't be read, the program can't be run, or the words are wrong; the worst of
all files. If standard output is closed before the end, the command ends by SIGPIPE without a message (141 in a shell).

The environment variable IPTSIM names the program. Without it the installed program is run; in a checkout the proved one if it is up to
date, and otherwise bin/quick, which is slow.
"""

import os
import sys

from commands import at_fault, json_documents
from commands.dump import examine, findings
from commands.findings import shown, text_of
from commands.kinds import of_ipv6
from commands.places import command
from commands.program import Unreadable, complain, finish, lines_of, parser, read
from commands.refused import SESSION_WORDS


COPY = f" iptaudit reads the dump as it is; {command('fit')} writes a copy for trials in which it always matches, or never does, as you state."
PORTS = (b"--sport", b"--source-port", b"--dport", b"--destination-port",
         b"--sports", b"--source-ports", b"--dports", b"--destination-ports", b"--ports")
ADDRESSES = (b"-s", b"--source", b"--src", b"-d", b"--destination", b"--dst")
# Code, options and words of which one is refused (any where there are none), and what to do.
ADVICE = (
    ("P7", (), (b"limit", b"hashlimit", b"recent", b"connlimit", b"quota", b"statistic"),
     "a stateful match: its result depends on earlier packets." + COPY),
    ("P7", (), (), "a match that iptsim lacks: most of these test what a packet line doesn't say." + COPY),
    ("P3", PORTS, (), "a port has to be a number: `getent services NAME` prints that of a name."),
    ("P3", (b"-p", b"--protocol"), (), "iptsim knows thirteen protocols by name: `getent protocols NAME` prints the number of another."),
    ("P3", ADDRESSES, (), "an address has to be a.b.c.d or a.b.c.d/n: write a rule for each address of a list, and the address of a name."),
    ("P1", (), (), f"an option that iptsim lacks, or one that is not written in full. {command('fit')} removes it where the rule gives no verdict,"
     " as with TCPMSS, NFLOG or MARK."),
    ("P12", (), (b"multiport",), "write its option in full: --sports, --dports or --ports."),
    ("C1", (), SESSION_WORDS, "a line of a dump begins with its command, such as -A."),
    ("T1", (), (), "no such chain: make it with a line `:NAME - [0:0]` above."),
    ("T11", (), (), "neither a chain nor a target of iptsim: make a chain with a line `:NAME - [0:0]` above."),
    ("R4", (), (), "a section ends with the line COMMIT: is the file complete?"),
)


def advice(refused):
    """The sentences about the refused lines, each with the words that it is about."""
    words = {}
    for line in refused:
        for code, options, named, sentence in ADVICE:
            if line.fault.code == code and (not options or line.option in options) and (not named or line.value in named):
                about = words.setdefault(sentence, [])
                if line.word not in about:
                    about.append(line.word)
                break
    return [(about, sentence.encode()) for sentence, about in words.items()]


def write_text(name, found, sentences, passed):
    """Writes what is found of a file as lines of text."""
    prefix = os.fsencode(name) + b":"
    for each in found:
        sys.stdout.buffer.write(prefix + (b"%d:" % each.line if each.line else b"") + b" " + text_of(each) + b"\n")
    for words, sentence in sentences:
        about = b", ".join([shown(word) for word in words[:8]] + [b".."] * (len(words) > 8))
        sys.stdout.buffer.write(prefix + b" " + about + b": " + sentence + b"\n")
    if passed:
        more = f", and {len(passed) - 1} more" if len(passed) > 1 else ""
        complain(f"{name}:{passed[0]}: a rule for IPv6 only{more}: skipped, as by iptables-restore, but {command('iptsim')}"
                 f" refuses it; {command('fit')} removes it")


def check(name, words):
    """What is wrong with a dump, or with the lines of a session; the sentences about it; and the lines that are passed over."""
    data = read(name)
    if words.session:
        return at_fault.examine(data, words.load), (), ()
    notes, refused = examine(data)
    return findings(notes, refused), advice(refused), of_ipv6(lines_of(data))


def main():
    reader = parser(__doc__)
    reader.add_argument("--session", action="store_true", help="each FILE has lines of a session")
    reader.add_argument("--load", metavar="DUMP", help="with --session: the table that the session begins with")
    reader.add_argument("--json", action="store_true", help="write one JSON document")
    reader.add_argument("files", metavar="FILE", nargs="+")
    words = reader.parse_args()
    if words.load is not None and not words.session:
        reader.error("--load goes with --session")
    files, status = [], 0
    for name in words.files:
        told, error = ((), (), ()), None
        try:
            told = check(name, words)
        except Unreadable as trouble:
            complain(trouble)
            error = str(trouble)
        if words.json:
            files.append(json_documents.checked_file(name, *told, error))
        else:
            write_text(name, *told)
        status = max(status, 2 if error else 1 if told[0] else 0)
    if words.json:
        counts = {"files": len(files), "loading": sum(each["loads"] for each in files), "faults": sum(len(each["faults"]) for each in files)}
        json_documents.write({"files": files, "counts": counts})
    return status


if __name__ == "__main__":
    finish(main)
