"""`python3 -m tests.costs.costs PROGRAM [RULES]`: what the program costs, in numbers that a busy machine doesn't change: instructions, as valgrind
counts them, and writes, as strace does.

It prints two tables. The first has columns for one rule alone, and for so many rules (8,192, where it isn't said) of three kinds, and as rows: a load; a packet
line, and what a chain more costs it that no rule of matches; a rule deleted and one put in at the front; one put in at the front, of many in a row, as whoever
bans hosts does; a rule added by `iptables-restore -n`; a listing; and how many writes 4,000 packet lines take that are there at once. The second has loads of
files that ask most of one thing. Beside loads stands `iptables-legacy-restore --test` on the same files, where that is installed and may run. What isn't
installed is said to be passed over.
"""

import os
import pathlib
import re
import shutil
import subprocess
import sys
import tempfile

from tests.drawn import workloads

EDITS = 50
BANS = 256
PACKETS = 4000
CHAINS = 4
RULE = "-p tcp -m tcp --dport 22 -j ACCEPT"
ADDED = "iptables-restore -n <<END\n*filter\n-A INPUT -s 198.51.100.7 -j DROP\nCOMMIT\nEND\n"


def counted(words, given="", before=()):
    """The instructions of a run, or nothing where it can't be counted; some words may stand before the call of valgrind."""
    call = [*before, "valgrind", "--tool=callgrind", "--callgrind-out-file=/dev/null", *words]
    run = subprocess.run(call, input=given.encode(), capture_output=True)
    found = re.search(rb"Collected : (\d+)", run.stderr)
    return int(found.group(1)) if found else None


def writes(words, given):
    """How many writes a run makes to its output. Its input is a file, so that all of it is there at once."""
    with tempfile.NamedTemporaryFile() as trace, tempfile.TemporaryFile() as lines:
        lines.write(given.encode())
        lines.seek(0)
        subprocess.run(["strace", "-f", "-o", trace.name, "-e", "trace=write,writev", *words], stdin=lines, capture_output=True)
        return sum(1 for line in trace.read().splitlines() if re.search(rb"\bwritev?\(1,", line))


def shown(number, per=1, digits=0):
    return "-" if number is None else f"{number / per:,.{digits}f}"


def row(name, cells):
    print(f"| {name} | " + " | ".join(cells) + " |", flush=True)


class Loaded:
    """A file that is loaded, and what lines cost the program after it."""

    def __init__(self, program, path, text):
        self.path = path
        pathlib.Path(path).write_text(text, encoding="ascii")
        self.words = [program, "session", "--load", path]
        self.load = counted(self.words)

    def over(self, lines):
        both = counted(self.words, lines)
        return None if both is None or self.load is None else both - self.load

    def test(self, iptables):
        return counted([iptables, "--test", self.path], before=("unshare", "-n"))


def of_kinds(program, count, iptables, folder):

    def made(name, text):
        return Loaded(program, os.path.join(folder, name), text)

    kinds = {kind: workloads.of_kind(kind, count) for kind in workloads.KINDS}
    lines = {kind: drawn for kind, (_, drawn) in kinds.items()}
    lines["one rule"] = workloads.of_kind("generated", 1)[1]
    packets = {kind: "".join(f"{drawn[k % len(drawn)]}\n" for k in range(PACKETS)) for kind, drawn in lines.items()}
    loaded = {"one rule": made("one", workloads.restore([RULE]))} | {kind: made(kind, workloads.restore(rules)) for kind, (rules, _) in kinds.items()}
    # chains that have room for the rules that are put in
    shorter = {kind: made(f"{kind}-shorter", workloads.restore(rules[: count - BANS])) for kind, (rules, _) in kinds.items()}
    edits = "".join(f"iptables -D INPUT 1\niptables -I INPUT 1 -s 10.1.2.0/24 -p tcp --dport {n} -j DROP\n" for n in range(1, EDITS + 1))
    bans = "".join(f"iptables -I INPUT 1 -s 198.51.100.{n} -j REJECT\n" for n in range(BANS))
    several = [made(f"chains-{n}", workloads.restore([f"-j C{k}" for k in range(n)], {f"C{k}": [RULE] for k in range(n)})) for n in (1, CHAINS + 1)]
    more = [file.over("packet INPUT src=10.0.0.1 dst=10.0.0.2 proto=udp in=eth0 sport=1024 dport=53\n" * PACKETS) for file in several]
    row(f"{count:,} rules", loaded)
    row("---", ["---"] * len(loaded))
    row("a load, millions of instructions", [shown(file.load, 1e6, 1) for file in loaded.values()])
    if iptables:
        row("`iptables-legacy-restore --test`", [shown(file.test(iptables), 1e6, 1) for file in loaded.values()])
    row("a packet line, instructions", [shown(file.over(packets[kind]), PACKETS) for kind, file in loaded.items()])
    row("the same, for each chain more", [shown(None if None in more else more[1] - more[0], CHAINS * PACKETS)] + ["-"] * len(kinds))
    row("`-D` and `-I` at the front, millions", ["-"] + [shown(loaded[kind].over(edits), EDITS * 1e6, 1) for kind in kinds])
    row(f"an `-I` at the front, of {BANS} in a row, millions", ["-"] + [shown(file.over(bans), BANS * 1e6, 1) for file in shorter.values()])
    row("a rule added by `iptables-restore -n`, millions", ["-"] + [shown(file.over(ADDED), 1e6, 1) for file in shorter.values()])
    row("a listing, millions", [shown(file.over("iptables-save\n"), 1e6, 1) for file in loaded.values()])
    if shutil.which("strace"):
        row(f"writes for {PACKETS:,} packet lines", [str(writes(file.words, packets[kind])) for kind, file in loaded.items()])


def of_shapes(program, count, iptables, folder):
    print()
    row(f"{count:,} rules", ["a load, millions of instructions", "`iptables-legacy-restore --test`"])
    row("---", ["---", "---"])
    for name, text in workloads.SHAPES.items():
        file = Loaded(program, os.path.join(folder, "shape"), text(count))
        row(name, [shown(file.load, 1e6, 1), shown(file.test(iptables) if iptables else None, 1e6, 1)])


def main():
    if len(sys.argv) not in (2, 3) or not shutil.which("valgrind"):
        print("costs: python3 -m tests.costs.costs PROGRAM [RULES]; it wants valgrind", file=sys.stderr)
        return 2
    program = os.path.abspath(sys.argv[1])
    count = int(sys.argv[2]) if len(sys.argv) == 3 else 8192
    iptables = shutil.which("iptables-legacy-restore")
    with tempfile.TemporaryDirectory() as folder:
        of_kinds(program, count, iptables, folder)
        of_shapes(program, count, iptables, folder)
    for tool, name in ((iptables, "iptables-legacy-restore"), (shutil.which("strace"), "strace")):
        if not tool:
            print(f"costs: {name} isn't installed: passed over", file=sys.stderr)
    return 0


if __name__ == "__main__":
    sys.exit(main())
