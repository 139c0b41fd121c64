"""What the scripts for users share: how a program is asked, how files and words are read, how a script ends."""

import argparse
import collections
import os
import re
import signal
import subprocess
import sys

from commands.places import called, program_call

FAULT = re.compile(rb"line ([0-9]+): (([A-Z]+[0-9]+) .*)")
QUOTED_OR_PLAIN = re.compile(rb'(?:"((?:[^"\\]|\\.)*)"|([^ \t"]+))(?=[ \t]|\Z)', re.DOTALL)

# How the programs end where they did what they were asked, or refused it. Of iptaudit 3 says that something is unclear.
STATUSES = {"iptsim": (0, 1, 2), "iptaudit": (0, 1, 2, 3)}

Fault = collections.namedtuple("Fault", "code text")
Word = collections.namedtuple("Word", "start end value")


def fault_of(found):
    return Fault(found[3].decode(), found[2])


class Trouble(Exception):
    """Why a script can't go on: a file or the program failed."""


class Unreadable(Trouble):
    """Why a file can't be read."""


def parser(about, **more):
    """What parses the words of a command; what its module says of it is its help."""
    return argparse.ArgumentParser(prog=called(), description=about, formatter_class=argparse.RawDescriptionHelpFormatter, **more)


def complain(trouble):
    sys.stderr.buffer.write(os.fsencode(f"{called()}: {trouble}\n"))


def read(name):
    """The bytes of a file, or of standard input where the name is `-`."""
    try:
        with open(0 if name == "-" else name, "rb", closefd=name != "-") as file:
            return file.read()
    except OSError as error:
        raise Unreadable(f"cannot read {name}: {error.strerror}") from error


def lines_of(data):
    """The lines of a file as the program counts them: the last may lack its newline."""
    lines = data.split(b"\n")
    return lines if lines[-1] else lines[:-1]


def words_of(line):
    """The words of a line with their places, by the program's rules; None where the quoting is bad."""
    words, at = [], 0
    while True:
        while line[at:at + 1] in (b" ", b"\t"):
            at += 1
        if at == len(line):
            return words
        found = QUOTED_OR_PLAIN.match(line, at)
        if not found:
            return None
        quoted, plain = found.groups()
        value = plain if quoted is None else re.sub(rb"(?s)\\(.)", rb"\1", quoted)
        words.append(Word(at, found.end(), value))
        at = found.end()


def ended(words, data, name, errors=None):
    """How a program ended with these words and the data. Its messages go to standard error, or are kept where that is subprocess.PIPE."""
    call = program_call(name)
    try:
        found = subprocess.run([*call, *words], input=data, stdout=subprocess.PIPE, stderr=errors, check=False)
    except OSError as error:
        raise Trouble(f"cannot run {call[0]}: {error.strerror}; {name.upper()} has to name the program") from error
    if found.returncode not in STATUSES[name]:
        raise Trouble(f"{call[0]} ended with status {found.returncode}")
    return found


def run(words, data, name="iptsim"):
    """The program's status and what it writes to standard output, with these words and the data. Its messages go to standard error."""
    found = ended(words, data, name)
    return found.returncode, found.stdout


class Session:
    """Lines for one session. Each question answers with the numbers of its lines, by which its fault is found afterwards."""

    def __init__(self):
        self.lines = []
        self.faults = {}

    def ask(self, line):
        self.lines.append(line)
        return range(len(self.lines), len(self.lines) + 1)

    def restore(self, lines, options=b""):
        """One restore of the lines. Its end word is none of them."""
        first, end = len(self.lines) + 1, b"END"
        while end in lines:
            end += b"D"
        self.lines += [b"iptables-restore " + options + b" <<" + end, *lines, end]
        return range(first, len(self.lines) + 1)

    def run(self):
        """Runs the lines, if there are any, and returns what was written but for faults. A last line is refused, which shows that all were read."""
        if not self.lines:
            return []
        last, written = self.ask(b"lines"), []
        _, output = run(["session"], b"\n".join(self.lines) + b"\n")
        for line in lines_of(output):
            found = FAULT.fullmatch(line)
            if found:
                self.faults[int(found[1])] = fault_of(found)
            else:
                written.append(line)
        if not self.fault(last):
            raise Trouble("the program ended before the end of its input")
        if any(fault.code == "M0" for fault in self.faults.values()):
            raise Trouble("the program has no memory")
        return written

    def fault(self, places):
        """The fault of a question, or None."""
        return next((self.faults[place] for place in places if place in self.faults), None)

    def code(self, places):
        fault = self.fault(places)
        return fault and fault.code


def finish(main):
    """Ends with the status that main returns, or with 2 and a message where it meets trouble. Where nobody reads standard output any more,
    it ends without a message, by the signal that ends other commands there."""
    try:
        try:
            status = main()
        finally:
            sys.stdout.flush()
    except Trouble as trouble:
        complain(trouble)
        status = 2
    except BrokenPipeError:
        signal.signal(signal.SIGPIPE, signal.SIG_DFL)
        signal.raise_signal(signal.SIGPIPE)
    except OSError:
        complain("output failed")
        status = 2
        os.dup2(os.open(os.devnull, os.O_WRONLY), sys.stdout.fileno())
    sys.exit(status)
