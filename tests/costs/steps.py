"""`python3 -m tests.costs.steps AUDIT [FILE..]`: what questions about all packets take, asked of rulesets by iptaudit, which is AUDIT. For each FILE, or
where none is given 1,024 rules of each of three kinds and the files of ASKED (tests/drawn/workloads), it prints as a table: how many rules there are, and
how many are dead; the least number of steps (`--steps`), to one in a hundred, with which `dead` leaves none unclear, and with which `compare` of the
ruleset with one that has a rule more, for one source and one port, which decides nothing, leaves no chain unclear; and the processor's time and the
memory of that run. Where a million steps don't do, it says what they leave. A file that isn't restored is passed over, and said to be.
"""

import os
import pathlib
import re
import subprocess
import sys
import tempfile

from tests.drawn import workloads

MOST = 1_000_000
# How large each file of ASKED is.
SIZES = {"blocked hosts, then a rule": 1414, "hosts by hardware address": 256, "sets of banned hosts": 64, "jumps on conditions": 64,
         "chains of networks": 16, "both ports": 128}


def asked(words):
    """The status of a run, what it writes, its seconds and its megabytes."""
    run = subprocess.Popen(words, stdin=subprocess.DEVNULL, stdout=subprocess.PIPE, stderr=subprocess.DEVNULL)
    output = run.stdout.read().decode()
    _, status, used = os.wait4(run.pid, 0)
    run.stdout.close()
    return os.waitstatus_to_exitcode(status), output, used.ru_utime + used.ru_stime, used.ru_maxrss / 1024


def unclear(output):
    """How many lines say that something is unclear; that of the counts isn't one."""
    return sum(line.startswith("unclear ") or line.endswith(" unclear") and "," not in line for line in output.splitlines())


def least(words):
    """The least number of steps with which nothing is unclear, or nothing, and the run with it, or with the most."""

    def run(steps):
        return asked([*words[:2], "--steps", str(steps), *words[2:]])

    below, enough, best = 0, 1, run(1)
    while unclear(best[1]):
        if enough >= MOST:
            return None, best
        below, enough = enough, min(2 * enough, MOST)
        best = run(enough)
    while enough - below > max(1, enough // 100):
        middle = (below + enough) // 2
        tried = run(middle)
        if unclear(tried[1]):
            below = middle
        else:
            enough, best = middle, tried
    return enough, best


def cells(words):
    steps, (_, output, seconds, memory) = least(words)
    told = f"{steps:,}" if steps else f"more: {unclear(output)} unclear"
    return output, [told, f"{seconds:.2f} s", f"{memory:.0f} MB"]


def alike(folder, file):
    """A file of the same ruleset with one rule more, which decides nothing: equal ones would take no step. It is for few packets, since
    those that it matches walk."""
    head, commit, rest = pathlib.Path(file).read_bytes().rpartition(b"COMMIT")
    name = os.path.join(folder, "alike")
    pathlib.Path(name).write_bytes(head + b"-A INPUT -s 192.0.2.7/32 -p udp -m udp --dport 9\n" + commit + rest)
    return name


def row(texts):
    print("| " + " | ".join(texts) + " |", flush=True)


def drawn():
    """The names of the rulesets that are asked about where none is named, and their files."""
    for kind in workloads.KINDS:
        yield kind, workloads.restore(workloads.of_kind(kind, 1024)[0])
    for name, made in workloads.ASKED.items():
        yield name, made(SIZES[name])


def main():
    if len(sys.argv) < 2 or not os.access(sys.argv[1], os.X_OK):
        print("steps: call it as python3 -m tests.costs.steps AUDIT [FILE..], with a program that can be run", file=sys.stderr)
        return 2
    audit = os.path.abspath(sys.argv[1])
    row(["ruleset", "rules", "dead", "steps of `dead`", "time", "memory", "steps of `compare`", "time", "memory"])
    row(["---"] * 9)
    with tempfile.TemporaryDirectory() as folder:
        files = sys.argv[2:]
        for name, text in drawn() if not files else ():
            files.append(os.path.join(folder, name))
            pathlib.Path(files[-1]).write_text(text, encoding="ascii")
        for file in files:
            if asked([audit, "dead", "--steps", "0", file])[0] == 2:
                print(f"steps: {file} isn't restored: passed over", file=sys.stderr)
                continue
            output, first = cells([audit, "dead", file])
            rules, dead = re.search(r"(?m)^(\d+) rules, (\d+) dead, ", output).groups()
            _, second = cells([audit, "compare", file, alike(folder, file)])
            row([os.path.basename(file), rules, dead, *first, *second])
    return 0


if __name__ == "__main__":
    sys.exit(main())
