"""Cases as inputs of the program, for tests/memory/faults and tests/devices/cut: which lines there are, what the plain model says is due, and
which cases to take so that each kind of line comes several times.
"""

import collections
import re

from tests.model import options, printing, values
from tests.model.commands import BY_NAME as COMMANDS
from tests.model.faults import Fault
from tests.model.restore import COUNTERS, FILTER, Restore
from tests.model.session import Session, opening_of, whole
from tests.model.words import is_passed_over, is_too_long, lines_of, words_of

# An input of the program: a name, the program's words, the lines, and the file that is loaded before, if there is one.
Play = collections.namedtuple("Play", "name words data file")


def end_word(lines):
    """A line that none of the lines is."""
    word = b"END"
    while word in lines:
        word += b"D"
    return word


def end_after(line, end):
    """The line that ends the restore which is open after a line, or None: `end` is that of the restore which was open before it."""
    if end is not None:
        return None if line == end else end
    # (without this sign, and in a line that isn't read, none is opened)
    if b"<" not in line or is_too_long(line) or is_passed_over(line):
        return None
    try:
        kind, *words = words_of(line)
        return opening_of(words)[1] if kind == b"iptables-restore" else None
    except Fault:
        return None


def joined_lines(runs):
    """The runs of a case as lines of one session: a restore stands between its opening and an end line."""
    lines = []
    for run in runs:
        more, end = lines_of(run.input), None
        if run.kind == "restore":
            kept = [option.encode() for option in run.options if option != "--list"]
            word = end_word(more)
            more = [b" ".join([b"iptables-restore", *kept, b"<<" + word]), *more, word]
            more += [b"iptables-save"] if "--list" in run.options else []
        for line in more:
            end = end_after(line, end)
        lines += more if end is None else [*more, end]
    return lines


def size_of(case):
    """How many bytes of input a case has."""
    return sum(len(run.input) for run in case.runs)


def plays_of(case):
    """A case as a session of whole lines, in which each restore is ended; and where its runs are a restore, or one and a run after it, as
    these calls of the program. A session that ends in a restore, or within a line, is played as it stands, too, after an empty file."""
    name = f"{case.file}: {case.name}"
    data = b"".join(line + b"\n" for line in joined_lines(case.runs))
    yield Play(name, ("session",), data, None)
    *loaded, last = case.runs
    words = (last.kind, *(option for option in last.options if option != "--list"))
    if not loaded and last.kind == "restore":
        yield Play(f"{name}, by itself", words, last.input, None)
    elif not loaded and last.input != data:
        yield Play(f"{name}, as it stands", words, last.input, b"")
    elif len(loaded) == 1 and loaded[0].kind == "restore" and set(loaded[0].options) <= {"--list"}:
        yield Play(f"{name}, with a file", words, last.input, loaded[0].input)


def model_differs(case):
    """The first run of a case whose output and status the model gives otherwise, or None."""
    table = None
    for run in case.runs:
        model = Session(table)
        if run.kind == "session":
            replies = [reply for line in lines_of(run.input) for reply in model.line(line)] + model.finish()
        else:
            replies = model.whole_restore(run.input, "--noflush" in run.options, "--test" in run.options)
            if not replies and "--list" in run.options:
                replies = printing.listing(model.table)
        if (whole(replies), model.status) != (run.output, run.status):
            return run
        table = model.table
    return None


def statements(lines):
    """For each line the lines that are given with it: a restore from its opening to its end, or the line alone."""
    result, open_one, end = [], [], None
    for line in lines:
        open_one.append(line)
        result.append(open_one)
        end = end_after(line, end)
        if end is None:
            open_one = []
    return result


def quoted(word):
    return b'"%s"' % word.replace(b"\\", b"\\\\").replace(b'"', b'\\"')


class Told:
    """A session with some marks, line by line, with what the model says is due."""

    def __init__(self, marks=()):
        self.model, self.lines, self.replies = Session(marks=marks), [], []

    def say(self, lines):
        for line in lines:
            self.lines.append(line)
            self.replies += self.model.line(line)

    def close(self):
        """Ends the restore that is open, if one is."""
        if self.model.restore:
            self.say([self.model.end])

    def names(self):
        return [quoted(name) for name in self.model.table.in_order()]

    def show_lines(self, is_large=False):
        """Shows the lines of each chain, unless the table is large."""
        self.say([b"lines " + name for name in ([] if is_large else self.names())])

    def show(self, is_large=False):
        """Shows the table: what -S lists, and unless it is large the lines of each chain. Then it is emptied chain by chain, and the user
        chains go: so how often each is named shows too."""
        names = [] if is_large else self.names()
        self.say([b"iptables -S", *(each + name for each in (b"lines ", b"iptables -F ", b"iptables -X ") for name in names), b"iptables -S"])

    def data(self):
        return b"".join(line + b"\n" for line in self.lines)

    def due(self):
        return whole(self.replies), b"", self.model.status


# Kinds of lines.

def kinds_of_rule(words):
    """The options, matches and targets that stand among the words of a rule."""
    for at, word in enumerate(words):
        found = options.BY_NAME.get(word)
        if found:
            name = found.names[0].decode()
            after = words[at + 1] if at + 1 < len(words) else b""
            yield f"option {name}" + (" inverted" if words[at - 1] == b"!" else "")
            if name == "-m":
                yield f"match {after.decode('latin-1')}" if after.decode("latin-1") in options.MATCHES else "no match"
            if name in ("-j", "-g"):
                yield f"target {name} {after.decode()}" if after in values.TARGETS else f"target {name} chain"


def kinds_of_command(words, where):
    """The command among the words, with where it stands, and what its rule has."""
    at = 2 if words[:1] and words[0] in (b"-t", b"--table") else 0
    name = COMMANDS[words[at]][0] if len(words) > at and words[at] in COMMANDS else "no command"
    yield f"{name} {where}"
    yield from kinds_of_rule(words[at + 1 :])


def kinds_in_restore(model, line):
    """What a line of a restore is: by where it stands, and its first word."""
    restore = model.restore
    where = restore.where + (" kept" if restore.noflush else "") + (" tested" if restore.test else "")
    if model.has_failed:
        yield "after a fault"
    elif line == model.end or line.strip(b" \t") == b"COMMIT":
        yield f"end {where}"
    else:
        words = words_of(line)
        if restore.where != FILTER or words[0][:1] == b"*":
            yield f"line {where}"
        elif words[0][:1] == b":":
            name = words[0][1:]
            yield "chain line" + (" built-in" if name in values.BUILT_IN else " old" if name in restore.built.chains else " new")
        else:
            yield from kinds_of_command(words[1:] if COUNTERS.fullmatch(words[0]) else words, where)


def kinds_of_line(model, line):
    """What a line is, in a session before it."""
    if is_too_long(line) or is_passed_over(line):
        yield ("long" if is_too_long(line) else "passed over") + (" in a restore" if model.restore else "")
        return
    try:
        if model.restore:
            yield from kinds_in_restore(model, line)
            return
        first, *words = words_of(line)
        if first == b"iptables":
            yield from kinds_of_command(words, "by itself")
        elif first in (b"packet", b"iptables-restore"):
            yield b" ".join([first, *words[:-1][:1]]).decode("latin-1")
        else:
            yield first.decode() if first in (b"iptables-save", b"lines") else "unknown line"
    except Fault:
        yield "bad quoting"


def coarse(kind):
    """The kind, but for which option, match or target it is, where a command stands, how a section is begun, and the number of a fault."""
    if kind.startswith(("line ", "end ", "alone ")):
        return kind.replace(" kept", "").replace(" tested", "")
    return re.sub(r"^([A-Z])[0-9]+$", r"\1", kind.split()[0])


def kinds_by_line(model, lines):
    """All kinds of some lines, and of faults and verdicts in their replies."""
    kinds = set()
    for line in lines:
        kinds.update(kinds_of_line(model, line))
        for reply in model.line(line):
            if reply.startswith((b"line ", b"verdict ")):
                kinds.add(reply.split(b" ", 2)[1 + reply.startswith(b"line ")].decode()[:12])
    return kinds


def kinds_of(play):
    """All kinds of an input; of a restore by itself and of what is done with a file no more than the coarse ones, under names of their own."""
    model, lines = Session(), lines_of(play.data)
    if play.file is not None:
        return {f"{' '.join(play.words)} with a file" if play.file else "a session as it stands"}
    if play.words == ("session",):
        return kinds_by_line(model, lines)
    model.restore = Restore(model.table, "--noflush" in play.words, "--test" in play.words)
    return {" ".join(play.words)} | {f"alone {coarse(kind)}" for kind in kinds_by_line(model, lines)}


def coarse_kinds_of(play):
    return {coarse(kind) for kind in kinds_of(play)}


def chosen(plays, least, kinds_of_one=kinds_of):
    """Some of the plays, in which each kind comes in so many, or in all that have it: always the one with the most kinds that are
    wanted for its words is taken next. It is the same choice each time."""
    kinds = {play: kinds_of_one(play) for play in plays}
    wanted = collections.Counter(kind for each in kinds.values() for kind in each)
    wanted = {kind: min(count, least) for kind, count in wanted.items()}
    taken = []
    while any(wanted.values()):
        def worth(play):
            return sum(wanted[kind] > 0 for kind in kinds[play]) / (20 + len(play.data.split()) + len(play.file or b"") / 4)
        best = max(kinds, key=worth)
        for kind in kinds.pop(best):
            wanted[kind] = max(0, wanted[kind] - 1)
        taken.append(best)
    return taken
