"""The lines of a session, each with its reply; a whole session, a whole restore, and a file that is loaded before."""

from . import printing
from .commands import apply, command_of
from .faults import Fault, need, status_of, text_of
from .matching import lines_of_chain
from .packets import packet_of
from .restore import Restore
from .table import Table, walk
from .words import is_passed_over, is_too_long, lines_of, words_of

RESTORE_OPTIONS = {b"-n": "noflush", b"--noflush": "noflush", b"-t": "test", b"--test": "test"}
MOST_END_BYTES = 64


def opening_of(words):
    """The options of `iptables-restore`, and the line that ends the restore."""
    options = [RESTORE_OPTIONS.get(word) for word in words[:-1]]
    need(words and words[-1].startswith(b"<<") and 1 <= len(words[-1]) - 2 <= MOST_END_BYTES, "S2")
    need(None not in options and len(set(options)) == len(options), "S2")
    return set(options), words[-1][2:]


class Session:
    """A session between two lines: its table, how many lines were read, and the restore that is open, if one is. `walks` are those
    that packets were answered with. It begins with the table that a file left, if one was loaded. `marks` are the numbers of the lines
    in which memory is refused."""

    def __init__(self, table=None, marks=()):
        self.table, self.count, self.status, self.walks, self.marks = table or Table(), 0, 0, [], marks
        self.restore, self.end, self.has_failed = None, None, False

    def line(self, line):
        """The reply to the next line, as lines."""
        self.count += 1
        try:
            self.ask_memory(line)
            return self.restore_line(line) if self.restore else self.session_line(line)
        except Fault as fault:
            return self.fault(fault)

    def ask_memory(self, line):
        """What is asked first of a line: it is refused where it is marked, unless it takes no memory."""
        need(self.count not in self.marks or self.takes_no_memory(line), "M0")

    def takes_no_memory(self, line):
        if not self.restore:
            return is_too_long(line) or is_passed_over(line)
        return self.has_failed or line == self.end or self.restore.takes_no_memory(line)

    def fault(self, fault):
        self.has_failed = self.restore is not None
        self.status = self.status or status_of(fault.code)
        return [b"line %d: %s %s" % (self.count, fault.code.encode(), text_of(fault.code).encode())]

    def restore_line(self, line):
        """A line of a restore. After its fault only the end line counts."""
        if line == self.end:
            ended, self.restore = self.restore, None
            if not self.has_failed:
                ended.finish()
        elif not self.has_failed:
            self.restore.line(line)
        return []

    def session_line(self, line):
        need(not is_too_long(line), "R6")
        if is_passed_over(line):
            return []
        kind, *words = words_of(line)
        if kind == b"iptables":
            return apply(self.table, command_of(words))
        if kind == b"iptables-save":
            need(not words, "C3")
            return printing.listing(self.table)
        if kind == b"iptables-restore":
            options, self.end = opening_of(words)
            self.restore, self.has_failed = Restore(self.table, "noflush" in options, "test" in options), False
            return []
        if kind == b"packet":
            return self.packet(packet_of(words))
        need(kind == b"lines", "S1")
        need(len(words) == 1, "C3")
        return lines_of_chain(self.table.rules(words[0]))

    def packet(self, packet):
        trail, verdict = walk(self.table, packet)
        self.walks.append((trail, verdict))
        return [b"%s %d" % step for step in trail] + [b"verdict " + verdict]

    def whole_restore(self, data, noflush=False, test=False):
        """What is said of the fault of an input that is one restore, if it has one."""
        self.restore = Restore(self.table, noflush, test)
        try:
            for self.count, line in enumerate(lines_of(data), 1):
                self.ask_memory(line)
                self.restore.line(line)
            self.restore.finish()
        except Fault as fault:
            return self.fault(fault)
        return []

    def finish(self):
        """What is said at the end of the input."""
        return self.fault(Fault("S3")) if self.restore and not self.has_failed else []


def whole(replies):
    return b"".join(line + b"\n" for line in replies)


def loaded(file, marks=()):
    """The table that a file leaves which is restored first, what is said of its fault, if it has one, and the status of that. The
    options of the restore on standard input don't count for it."""
    run = Session(marks=marks)
    return run.table, whole(run.whole_restore(file)), run.status


def answer(words, data, file=None, marks=(), file_marks=()):
    """What the program writes to standard output and to standard error, and its status: of a subcommand with its options, on an
    input, where the file was loaded, if there is one. A fault of the file ends the program before the input is read. `marks` and
    `file_marks` are the numbers of lines of the input and of the file in which memory is refused."""
    table, said, status = loaded(file, file_marks) if file is not None else (None, b"", 0)
    if said:
        return b"", said, status
    run = Session(table, marks)
    if words[0] == "session":
        replies = [reply for line in lines_of(data) for reply in run.line(line)] + run.finish()
    else:
        said = run.whole_restore(data, "--noflush" in words, "--test" in words)
        replies = said or ([] if "--test" in words else printing.listing(run.table))
    return whole(replies), b"", run.status
