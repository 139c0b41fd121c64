"""Rows of the commands of an installation, for tests/packaging: each is asked one thing, where it is installed, with a PATH that has coreutils
and python3 alone."""

import collections
import os
import resource
import shutil
import subprocess
import sys
import tempfile

from tests.shared.rows import same, write

# By GNU coreutils, as Debian has them in /bin and /usr/bin: those that scripts call.
COREUTILS = ("basename", "cat", "chmod", "cp", "dirname", "echo", "env", "head", "install", "ln", "ls", "mkdir", "mktemp", "mv", "printf",
             "pwd", "readlink", "rm", "rmdir", "sha256sum", "sort", "tail", "test", "touch", "tr", "true", "uname", "wc")

# The words of a command, its input, and what is due: its output, its status and its messages.
Row = collections.namedtuple("Row", "words given output status messages", defaults=(b"",))

FILES = {
    "own.rules": b"*filter\n-A INPUT -s 192.0.2.0/24 -j DROP\n-A INPUT -s 192.0.2.7/32 -j ACCEPT\nCOMMIT\n",
    "list.rules": b"*filter\n-A INPUT -s 192.0.2.1,192.0.2.2 -j DROP\nCOMMIT\n",
    "wrong.rules": b"*filter\n-D INPUT 5\nCOMMIT\n",
    "own.expected": b"packet INPUT src=192.0.2.7 dst=198.51.100.1 proto=gre -> DROP by INPUT 1\n",
}
ROWS = {
    "iptsim": Row(["session", "--load", "own.rules"], b"packet INPUT src=192.0.2.7 dst=198.51.100.1 proto=gre\n",
                  b"INPUT 1\nverdict DROP by rule\n", 0),
    "iptaudit": Row(["dead", "own.rules"], b"", b"dead INPUT 2 -A INPUT -s 192.0.2.7/32 -j ACCEPT\n  taken by INPUT 1 (DROP)\n"
                    b"2 rules, 1 dead, 0 unclear\n0 redundant, 1 shadowed\n", 1),
    "iptsim-check": Row(["own.rules", "wrong.rules"], b"", b"wrong.rules:2: T4 number out of range: 5\n", 1),
    "iptsim-fit": Row(["list.rules"], b"", b"*filter\n-A INPUT -s 192.0.2.1 -j DROP\n-A INPUT -s 192.0.2.2 -j DROP\nCOMMIT\n", 0,
                      b"list.rules:2: address list, a rule for each: -s 192.0.2.1,192.0.2.2 -> -s 192.0.2.1, -s 192.0.2.2\n"),
    "iptsim-expect": Row(["own.rules", "own.expected"], b"", b"1..1\nok 1 - packet INPUT src=192.0.2.7 dst=198.51.100.1 proto=gre ->"
                         b" DROP by INPUT 1\n# no packet matched INPUT 2: -A INPUT -s 192.0.2.7/32 -j ACCEPT\n", 0),
    "iptsim-explain": Row(["own.rules", "INPUT src=192.0.2.7 dst=198.51.100.1 proto=gre"], b"", b"packet INPUT src=192.0.2.7 dst=198.51.100.1"
                          b" proto=gre\n  INPUT 1: -A INPUT -s 192.0.2.0/24 -j DROP\n  verdict DROP by rule\n", 0),
}
# Seconds of a processor.
MOST = 1.0


def stand_in_page(folder):
    """The path of a file that stands for the page with both programs, which tests/page/page opens."""
    write(folder, {"a page": b"<!doctype html>\n<title>iptsim</title>\n"})
    return os.path.join(folder, "a page")


def path_of_links(folder):
    """An environment in which PATH has coreutils and python3 alone, by links in a folder. No variable names a program."""
    os.mkdir(folder)
    found = {**{name: shutil.which(name) for name in COREUTILS}, "python3": os.path.realpath(sys.executable)}
    for name, path in found.items():
        if path:
            os.symlink(path, os.path.join(folder, name))
    return {"PATH": folder, "LC_ALL": "C.UTF-8"}


def taken():
    used = resource.getrusage(resource.RUSAGE_CHILDREN)
    return used.ru_utime + used.ru_stime


def ask(folder, environment):
    """Asks each command of a folder `bin` its row, in a folder of its own. Nothing may be left there, nor may it take long."""
    for name, row in ROWS.items():
        with tempfile.TemporaryDirectory() as work:
            write(work, FILES)
            before = taken()
            ended = subprocess.run([os.path.join(folder, name), *row.words], cwd=work, env=environment, input=row.given, capture_output=True, check=False)
            took, left = taken() - before, set(os.listdir(work)) - set(FILES)
        same((row.status, row.output, row.messages, set()), (ended.returncode, ended.stdout, ended.stderr, left), f"what came of {name} in {folder}")
        assert (name, took) < (name, MOST)
