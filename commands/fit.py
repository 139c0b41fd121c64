"""Makes a dump load, and names every change.

Standard output has the dump, and standard error a line for each change. A FILE named `-` is standard input. iptaudit needs none of this: it
reads dumps as they are. A dump that loads stays as it is; otherwise each refused line is changed in three ways:

1. What means the same to iptables is respelled: ports and protocols by the names in /etc/services and /etc/protocols, or in the files that
   are given; other numbers; short addresses; lists of addresses, as a rule for each; other names and beginnings of options, states and
   types; `--option=value`; quotes within a word; texts that iptables cuts. Carriage returns and a byte order mark are removed, and so are
   rules for IPv6 only (-6), which iptables-restore skips. Names of hosts aren't looked up.
2. In rules that give no verdict, what iptsim lacks is taken out: targets such as MARK, TCPMSS or NFLOG, options of LOG, and conditions. The
   rule stays, and may match more packets than before. A rule gives no verdict, too, if it has no target, if it jumps to a chain in which no
   packet gets a verdict, or if it stands in such a chain.
3. In rules that give a verdict, what iptsim lacks has to be assumed:

    --assume 'limit=true'             every packet is within the limit, so the match is taken out
    --assume 'limit=false'            no packet is, so the rule never matches: it gets `! -s 0.0.0.0/0`
    --assume 'recent --update=true'   only where these words stand one after another
    --assume 'osf --genre Linux=true' a match that this command doesn't know: all its words
    --assume 'TARPIT=DROP'            what a target does: ACCEPT, DROP or RETURN

   Of several assumptions on one match the one with most words counts. It is about the option without the `!` before it: with `!`, true makes
   the rule never match; of a match by all its words `!` is one of them. A match with several options that test something holds where each
   does.

All else stays: other tables, comments, chains, and the number of each rule unless a list above it becomes several. A dump that was changed
in the second or third way is only for trials: its first line says so, with what was assumed and taken out, as in
`# iptsim-fit: for trials; assumed limit=true; taken out -j MARK`.

Several files become one dump, in their order. A section replaces those before it; with --noflush it adds to them, as with
`iptables-restore --noflush`, and all become one section.

Status: 0, the dump loads; 1, it can't be made to, and standard error has the lines that are still refused; 2, an assumption is missing, and
standard error says which, once for all lines that need it; or a word is wrong, a file can't be read, or the program can't be run. With 1
and 2 standard output is empty, and no change is named. An assumption that wasn't needed is named. If standard output is closed before the
end, the command ends by SIGPIPE without a message.

The environment variable IPTSIM names the program. Without it the installed program is run; in a checkout the proved one if it is up to
date, and otherwise bin/quick, which is slow.
"""

import collections
import os
import sys

from commands.dump import BYTE_ORDER_MARK, described, examine
from commands.findings import Finding, text_of, visible
from commands.fitting import Assumption, Fitting
from commands.kinds import for_ipv4, not_a_dump, of_ipv6
from commands.program import complain, finish, lines_of, parser, read, words_of
from commands.refused import BUILT_IN, section_of
from commands.spelling import Names

# A line with its place, by which it is named.
Row = collections.namedtuple("Row", "file number line")


def in_order(files):
    """The lines of files one after another: a section takes the place of those before it."""
    return [Row(name, number, line) for name, lines in files for number, line in enumerate(lines, 1)]


def open_end(lines):
    """What is said of a file that ends within a section, with the line; None where it doesn't."""
    opened = None
    for line in lines:
        if opened is None:
            opened = line if section_of(line) is not None else None
        elif line.strip(b" \t") == b"COMMIT":
            opened = None
    return (len(lines), text_of(Finding(0, "R4", b"end before COMMIT", opened.strip()))) if opened is not None else None


class Section:
    """The lines of all sections filter in turn, as lines of one. A chain line of a later section for a chain that is there, or had a chain
    line before, becomes a command: it sets the policy, empties the chain or makes it. `made` are the chains that are there, `lined` those
    with a chain line, and `earlier` these of the sections before."""

    def __init__(self):
        self.rows, self.changes, self.opening = [], [], None
        self.made, self.lined, self.earlier = set(BUILT_IN), set(), set()

    def open(self, row):
        self.opening = self.opening or row
        self.earlier = self.made | self.lined if self.rows else set()

    def add(self, row):
        values = [word.value for word in words_of(row.line) or ()]
        if values and values[0].startswith(b":"):
            self.add_chain(row, values[0][1:], values[1:2])
            return
        self.rows.append(row)
        if values[:1] in ([b"-N"], [b"--new-chain"]):
            self.made.update(values[1:2])
        elif values[:1] in ([b"-X"], [b"--delete-chain"], [b"-E"], [b"--rename-chain"]):
            self.made.difference_update(values[1:2] or self.made - set(BUILT_IN))
            self.made.update(values[2:3])

    def add_chain(self, row, name, policy):
        if name not in self.earlier:
            self.rows.append(row)
            self.lined.add(name)
        else:
            lines = [] if name in BUILT_IN and policy == [b"-"] else [self.command(name, policy)]
            self.rows += [row._replace(line=line) for line in lines]
            self.changes.append((row, b"chain line of a further section: %s -> %s" % (row.line.strip(), b"".join(lines) or b"nothing")))
        self.earlier.discard(name)
        self.made.add(name)

    def command(self, name, policy):
        if name in BUILT_IN:
            return b" ".join([b"-P", name, *policy])
        return (b"-F " if name in self.made else b"-N ") + name


def merged(files):
    """The lines of files as one dump with one section filter, as `iptables-restore --noflush` takes the files one after another; and what
    was changed."""
    before, after, section, inside = [], [], Section(), None
    for row in in_order(files):
        if inside is None:
            inside = section_of(row.line)
            if inside == b"filter":
                section.open(row)
                continue
        elif row.line.strip(b" \t") == b"COMMIT":
            inside, closes = None, inside
            if closes == b"filter":
                continue
        elif inside == b"filter":
            section.add(row)
            continue
        (after if section.opening else before).append(row)
    if section.opening:
        before += [section.opening, *section.rows, section.opening._replace(line=b"COMMIT")]
    return before + after, section.changes


def without_marks(data):
    """The lines of a file without a byte order mark and carriage returns at their ends, and what was changed, with the line."""
    changes = []
    if data.startswith(BYTE_ORDER_MARK):
        data = data[len(BYTE_ORDER_MARK):]
        changes.append((1, b"byte order mark, taken out"))
    lines = lines_of(data)
    ending = [number for number, line in enumerate(lines, 1) if line.endswith(b"\r")]
    if ending:
        lines = [line[:-1] if line.endswith(b"\r") else line for line in lines]
        more = b", and of %d more" % (len(ending) - 1) if len(ending) > 1 else b""
        changes.append((ending[0], b"carriage return at the end of this line%s, taken out" % more))
    if not data.endswith(b"\n"):
        changes.append((len(lines), b"newline at the end, added"))
    return lines, changes


def whole(lines):
    return b"".join(line + b"\n" for line in lines)


class Fitted:
    """What is made of a dump that is given as rows: the dump, its changes, the missing assumptions, and what is in the way, each with its row.
    `found` is what examine found in it, where that is known."""

    def __init__(self, rows, found, names, assumptions):
        self.rows, self.dump, self.changes, self.missing = rows, b"", [], []
        lines = [row.line for row in rows]
        notes, refused = found or examine(whole(lines))
        if notes:
            self.left = self.placed(described(notes, refused))
        else:
            self.fit(Fitting(for_ipv4(lines), [line.number for line in refused], names, assumptions, self.place), lines)

    def fit(self, fitting, lines):
        written = {number: fitting.fitted(number) for number in fitting.refused}
        passed = of_ipv6(lines)
        written.update((number, []) for number in passed)
        changes = fitting.changes + [(number, b"a rule for IPv6 only, taken out: " + lines[number - 1]) for number in passed]
        numbered = [(number, text) for number, line in enumerate(lines, 1) for text in written.get(number, [line])]
        body = whole(text for _, text in numbered)
        left = [(numbered[number - 1][0] if number else 0, text) for number, text in described(*examine(body))]
        self.dump, self.changes = whole(fitting.head()) + body, self.placed(changes)
        self.left = self.placed(dict.fromkeys(left + fitting.by_words()))
        self.missing = self.placed((number, (text, count)) for number, text, count in fitting.missing.values())

    def placed(self, pairs):
        """Pairs of a line's number in the dump, or 0, and what is said of it, with the row in place of the number."""
        return [(self.rows[number - 1] if number else Row(self.rows[0].file, 0, b""), said) for number, said in pairs]

    def place(self, number):
        """How a line is named within a text about another."""
        row = self.rows[number - 1]
        several = any(each.file != row.file for each in self.rows)
        return b"line %d" % row.number + (b" of " + os.fsencode(row.file) if several else b"")


def sorted_by(files, placed):
    """Pairs of a row and what is said of it, in the order of the files and their lines."""
    return sorted(placed, key=lambda pair: (files.index(pair[0].file), pair[0].number))


def report(files, left, missing):
    """Names what stands between a dump and its loading, and returns the status."""
    for row, text in sorted_by(files, left):
        complain(f"{row.file}:" + (f"{row.number}:" if row.number else "") + " " + os.fsdecode(text))
    for row, (text, count) in missing:
        more = f", and at {count - 1} more lines" if count > 2 else ", and at another line" if count == 2 else ""
        complain(f"{row.file}:{row.number}: " + os.fsdecode(visible(text)) + more)
    return 1 if left else 2


def write(files, dump, changes, assumptions):
    for row, text in sorted_by(files, changes):
        sys.stderr.buffer.write(os.fsencode(row.file) + b":%d: " % row.number + visible(text) + b"\n")
    for each in assumptions:
        if not each.used:
            complain(f"--assume '{each.text}' wasn't needed")
    sys.stdout.buffer.write(dump)
    return 0


def fit(files, is_noflush, names, assumptions):
    """Fits one dump, or the dumps of files as one, and returns the status."""
    (name, data), named, found = files[0], [name for name, _ in files], None
    is_alone = len(files) == 1 and not is_noflush
    if is_alone:
        found = examine(data)
        if not any(found) and not of_ipv6(lines_of(data)):
            return write(named, data, [], assumptions)
    bare = [(name, *without_marks(data)) for name, data in files]
    parts = [(name, lines) for name, lines, _ in bare]
    changes = [(Row(name, number, b""), text) for name, _, marks in bare for number, text in marks]
    if is_alone:
        # (what was found of other lines says nothing of these)
        found = found if whole(parts[0][1]).rstrip(b"\n") == data.rstrip(b"\n") else None
    else:
        notes = [(name, not_a_dump(data, lines) or open_end(lines)) for (name, data), (_, lines) in zip(files, parts)]
        if any(note for _, note in notes):
            return report(named, [(Row(name, note[0] or 0, b""), note[1]) for name, note in notes if note], [])
    rows, joined = merged(parts) if is_noflush else (in_order(parts) or [Row(name, 0, b"")], [])
    fitted = Fitted(rows, found, names, assumptions)
    if fitted.left or fitted.missing:
        return report(named, fitted.left, fitted.missing)
    return write(named, fitted.dump, changes + joined + fitted.changes, assumptions)


def main():
    reader = parser(__doc__, usage="%(prog)s [-h] [--assume WORDS=VALUE].. [--noflush] [--services FILE] [--protocols FILE] FILE..")
    reader.add_argument("--assume", metavar="WORDS=VALUE", action="append", default=[])
    reader.add_argument("--noflush", action="store_true", help="add each section to those before it")
    reader.add_argument("--services", metavar="FILE", help="in place of /etc/services")
    reader.add_argument("--protocols", metavar="FILE", help="in place of /etc/protocols")
    reader.add_argument("files", metavar="FILE", nargs="+")
    words = reader.parse_args()
    assumptions = [Assumption(text) for text in words.assume]
    names = Names(words.services, words.protocols)
    return fit([(name, read(name)) for name in words.files], words.noflush, names, assumptions)


if __name__ == "__main__":
    finish(main)
