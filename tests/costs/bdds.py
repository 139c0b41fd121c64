"""`python3 -m tests.costs.bdds [--seconds N] FILE..`: how long a plain engine of binary decision diagrams, tests/costs/bdds.cc, takes to find the
dead rules of dumps, to stand beside the time of `iptaudit dead`. Each FILE is a dump as `iptables-save` prints it, of which the table filter is read.

It prints a table with a row for each file: its name, how many rules there are, how many of them are dead, and the processor's seconds, or `more` where these
are more than N (60, where it isn't said). It takes the options that the rulesets of tests/drawn/workloads have. Any other match is a condition, which may
hold or not. Matches of the same text are the same condition: a dump in which two rules have the same `limit` isn't for it. The variables of the conditions
stand behind the bits of the fields: ahead of these they make the diagrams far larger where many hosts have a condition each.

A file with a word that it doesn't know is passed over, and so is one at which the engine fails; standard error says which word, and the line's number. The
status is 2 then, and where the engine can't be compiled, for which Debian's packages `g++` and `libbdd-dev` have to be there; else it is 0.
"""

import argparse
import ipaddress
import itertools
import pathlib
import re
import resource
import shutil
import signal
import subprocess
import sys
import tempfile

# What options ask about: a field, or two fields of which one has to be in the ranges.
ASKED = {"-s": "source", "-d": "destination", "-i": "input", "-o": "output", "-p": "protocol", "-f": "fragment", "--src-range": "source",
         "--dst-range": "destination", "--sport": "sport", "--dport": "dport", "--sports": "sport", "--dports": "dport", "--ports": "sport dport",
         "--state": "state", "--ctstate": "state"}
# What names stand for. The last state has all numbers of three bits that are left.
NUMBERS = {"icmp": "1", "tcp": "6", "udp": "17", "INVALID": "0", "NEW": "1", "ESTABLISHED": "2", "RELATED": "3", "UNTRACKED": "4:7"}
TARGETS = {"ACCEPT": "verdict", "DROP": "verdict", "REJECT": "verdict", "RETURN": "return", "LOG": "none"}
# The matches whose options are read, and those that match no fragment but a packet's first.
READ = ("tcp", "udp", "multiport", "iprange", "state", "conntrack")
OF_FIRST = ("tcp", "udp", "multiport", "icmp")
# A rule is cut ahead of each option that belongs to no match and no target. Then an option in such a part, with its value, and a text in quotes.
CUT = re.compile(r"(?<! !) (?=(?:! )?-[sdiopfmjg](?: |$))")
OPTION = re.compile(r"(! )?(-\S+)(?: ([^-!]\S*))?")
QUOTED = re.compile(r'"(?:[^"\\]|\\.)*"')


def number(text):
    return int(ipaddress.IPv4Address(text) if "." in text else text)


class Form:
    """A dump in the form that the engine reads."""

    def __init__(self, file):
        text, table = pathlib.Path(file).read_text(encoding="utf-8"), ""
        self.targets, self.conditions, self.rules, self.lines = dict(TARGETS), {}, 0, []
        # Each name has a number, and at least one number is left for the interfaces that no rule names.
        self.interfaces = sorted(set(re.findall(r" -[io] (\S+)", text)))
        self.bits = len(self.interfaces).bit_length()
        for place, line in enumerate(text.splitlines(), 1):
            table = line if line[:1] == "*" else table
            try:
                if table == "*filter" and line[:1] not in ("", "#", "*") and line != "COMMIT":
                    self.read(line)
            except (KeyError, ValueError) as word:
                raise ValueError(f"line {place} has a word that isn't known: {word}") from None

    def read(self, line):
        """Puts a rule down, and a line for each of its alternatives. A text in quotes is one word, and a comment asks nothing."""
        head, *parts = CUT.split(QUOTED.sub(lambda text: text[0].replace(" ", "\0"), line))
        command, _, chain = head.partition(" ")
        if command[0] == ":":
            self.targets[command[1:]] = f"jump {command[1:]}"
            return
        if command != "-A":
            raise ValueError(command)
        kind, tests = "none", []
        for part in parts:
            options = OPTION.findall(part)
            _, option, name = options[0]
            if option in ("-j", "-g"):
                kind = self.targets[name] if option == "-j" else f"goto {name}"
            elif part.startswith("-m comment "):
                continue
            elif option == "-m" and name not in READ:
                condition = self.conditions.setdefault(part, f"condition{len(self.conditions)}")
                tests += [*self.tests("", option, name), [f"{condition} in 1 1 1"]]
            else:
                tests += itertools.chain(*(self.tests(*each) for each in options))
        self.rules += 1
        self.lines += [f"rule {chain} {kind}", *("match " + " ".join(each) for each in itertools.product(*tests))]

    def tests(self, sign, option, value):
        """What an option asks: of each list one has to hold."""
        if option == "-m":
            return [["fragment in 1 0 0"]] if value in OF_FIRST else []
        fields, found = ASKED[option].split(), self.ranges(option, "1" if option == "-f" else value)
        texts = [" ".join(map(str, (field, "out" if sign else "in", len(found), *itertools.chain(*found)))) for field in fields]
        return [[text] for text in texts] if sign else [texts]

    def ranges(self, option, value):
        """The ranges that a value names. The number of an interface with `+` stands for all that it matches and no rule names."""
        if option in ("-i", "-o"):
            found = [k for k, name in enumerate(self.interfaces) if name == value or value.endswith("+") and name.startswith(value[:-1])]
            return [(k, k) for k in found] if value != "+" else [(0, (1 << self.bits) - 1)]
        if "/" in value:
            network = ipaddress.IPv4Network(value, strict=False)
            return [(int(network[0]), int(network[-1]))]
        parts = [re.split("[:-]", NUMBERS.get(part, part)) for part in value.split(",")]
        return [(number(ends[0]), number(ends[-1])) for ends in parts]

    def text(self):
        fields = f"fields source 32 destination 32 input {self.bits} output {self.bits} protocol 8 fragment 1 sport 16 dport 16 state 3"
        return "\n".join([" ".join([fields, *(f"{name} 1" for name in self.conditions.values())]), *self.lines, ""])


def compiled(folder):
    """The engine, or nothing where it can't be compiled, and what is missing is said."""
    call = ["g++", "-O2", "-std=c++17", "-o", f"{folder}/bdds", pathlib.Path(__file__).with_suffix(".cc"), "-lbdd"]
    run = subprocess.run(call, capture_output=True, text=True) if shutil.which("g++") else None
    if run and run.returncode == 0:
        return call[4]
    missing = "g++" if not run else "libbdd-dev" if " bdd.h: " in run.stderr else None
    print(f"bdds: Debian's package {missing} is missing" if missing else run.stderr, file=sys.stderr)
    return None


def row(program, file, seconds):
    form = Form(file)
    run = subprocess.run([program], input=form.text(), capture_output=True, text=True,
                         preexec_fn=lambda: resource.setrlimit(resource.RLIMIT_CPU, (seconds, seconds + 1)))
    if run.returncode not in (0, -signal.SIGXCPU):
        raise ValueError(f"the engine fails with {run.returncode}: {run.stderr.strip()}")
    return [pathlib.Path(file).name, str(form.rules), *(["-", "more"] if run.returncode else [str(run.stdout.count("\n")), f"{float(run.stderr):.2f}"])]


def main():
    reader = argparse.ArgumentParser(prog="bdds")
    reader.add_argument("--seconds", metavar="N", type=int, default=60)
    reader.add_argument("files", metavar="FILE", nargs="+")
    given, status = reader.parse_args(), 0
    with tempfile.TemporaryDirectory() as folder:
        program = compiled(folder)
        if not program:
            return 2
        print("| ruleset | rules | dead | seconds |\n" + "| --- " * 4 + "|", flush=True)
        for file in given.files:
            try:
                print("| " + " | ".join(row(program, file, given.seconds)) + " |", flush=True)
            except (OSError, ValueError) as reason:
                print(f"bdds: {file} is passed over: {reason}", file=sys.stderr)
                status = 2
    return status


if __name__ == "__main__":
    sys.exit(main())
