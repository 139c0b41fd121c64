"""Which program the commands for users ask, and how they call themselves and each other: in a checkout and where they are installed. Copies of them
run with stand-ins for the programs, which note that they are called and run the program.
"""

import os
import pathlib
import shutil
import subprocess
import sys

import pytest

from tests import ROOT
from tests.shared import read
from tests.shared.installed import install
from tests.shared.rows import outcome, same

SLOW = (b"%s: bin/quick runs iptsim without a proof, and slowly: 8,192 rules take iptsim 22 to 110 s, and 0.15 s if it is proved.\n"
        b"%s: install a release, or run bin/iptsim once, which proves and builds the program in about an hour.\n")
AUDIT = "from commands import places; print(*places.program_call('iptaudit'))"
LIMIT = (b"d:2: P7 unknown match: limit\nd: limit: a stateful match: its result depends on earlier packets."
         b" iptaudit reads the dump as it is; %s writes a copy for trials in which it always matches, or never does, as you state.\n")
BUILT = 1_000_000_000


class Trial:
    """A folder with copies of the scripts and stand-ins, and the file in which these note their calls."""

    def __init__(self, program, folder):
        self.program, self.folder, self.notes = program, folder, os.path.join(folder, "notes")
        self.put("d", b"*filter\n-A INPUT -m limit -j DROP\nCOMMIT\n")

    def path(self, name):
        return os.path.join(self.folder, name)

    def put(self, name, data=b""):
        os.makedirs(os.path.dirname(self.path(name)), exist_ok=True)
        pathlib.Path(self.path(name)).write_bytes(data)
        self.newer(name, 0)

    def newer(self, name, seconds=9):
        """Has a file be so many seconds newer than the program."""
        os.utime(self.path(name), (BUILT + seconds, BUILT + seconds))

    def stand_in(self, name, shift=False):
        """A program that notes its name and runs the real one; that of bin/quick without its first word."""
        first = '[ "$1" = iptsim ] && shift\n' if shift else ""
        self.put(name, f"#!/bin/sh\necho '{name}' >>'{self.notes}'\n{first}exec '{self.program}' \"$@\"\n".encode())
        os.chmod(self.path(name), 0o755)

    def run(self, call, asked, status, output, messages=b"", **variables):
        """A call of a script in the folder, what is due of it, and which program it has to ask."""
        environment = {name: value for name, value in os.environ.items() if name not in ("IPTSIM", "IPTAUDIT")}
        self.put("notes")
        ended = subprocess.run(call, cwd=self.folder, env={**environment, **variables}, stdin=subprocess.DEVNULL, capture_output=True, check=False)
        names = sorted(set(pathlib.Path(self.notes).read_text(encoding="utf-8").split()))
        same((status, output, messages, asked), (*outcome(ended), names))


@pytest.fixture
def checkout(iptsim, folder):
    """A checkout in which all was made when the program was built."""
    trial = Trial(iptsim.path, folder)
    for name in ("bin", "commands"):
        shutil.copytree(os.path.join(ROOT, name), trial.path(name), ignore=shutil.ignore_patterns("quick", "iptsim", "__pycache__"))
    trial.put("crates.txt", read("crates.txt"))
    for crate in ("iptsim", "fields", "table", "bench"):
        for part in ("src", "specs", "proofs", "must-fail"):
            trial.put(f"crates/{crate}/{part}/inner/file")
    for path, _, _ in os.walk(trial.path("crates")):
        os.utime(path, (BUILT, BUILT))
    trial.stand_in("bin/quick", shift=True)
    trial.stand_in(PROVED)
    return trial


PROVED, QUICK, CALL = "crates/iptsim/out/iptsim", "bin/quick", ["bin/check", "d"]
TEXT, OF_CHECK = LIMIT % b"bin/fit", SLOW % (b"check", b"check")


def test_proved_program(checkout):
    checkout.run(CALL, [PROVED], 1, TEXT)
    checkout.run([checkout.path("bin/check"), "d"], [PROVED], 1, TEXT)


@pytest.mark.parametrize("name", ["crates/bench/src/inner/file", "crates/fields/must-fail/inner/file", "bin/check"])
def test_newer_file_beside_the_sources(name, checkout):
    checkout.newer(name)
    checkout.run(CALL, [PROVED], 1, TEXT)


@pytest.mark.parametrize("name", ["crates/iptsim/src/inner/file", "crates/table/specs/inner/file", "crates/fields/proofs/inner", "crates.txt"])
def test_newer_source(name, checkout):
    """The proved program isn't up to date, so bin/quick is asked, of which is said once that it is slow."""
    checkout.newer(name, 1)
    checkout.run(CALL, [QUICK], 1, TEXT, OF_CHECK)


def test_program_that_cannot_be_run(checkout):
    os.symlink("bin/fit", checkout.path("linked"))
    os.chmod(checkout.path(PROVED), 0o644)
    checkout.run(["./linked", "--assume", "limit=false", "d"], [QUICK], 0,
                 b"# iptsim-fit: for trials; assumed limit=false\n*filter\n-A INPUT ! -s 0.0.0.0/0 -j DROP\nCOMMIT\n",
                 SLOW % (b"linked", b"linked") + b"d:2: assumed limit=false, never matches by ! -s 0.0.0.0/0: -m limit\n")


def test_no_proved_program(checkout):
    os.remove(checkout.path(PROVED))
    checkout.run([*CALL, "d"], [QUICK], 1, TEXT * 2, OF_CHECK)
    checkout.run(CALL, [], 1, TEXT, IPTSIM=checkout.program)
    checkout.run(CALL, [QUICK], 1, TEXT, OF_CHECK, IPTSIM="")


def test_iptaudit(checkout):
    """The other program, by the call that commands make."""
    slow, call = SLOW.replace(b"runs iptsim", b"runs iptaudit").replace(b"bin/iptsim", b"bin/iptaudit"), [sys.executable, "-c", AUDIT]
    checkout.run(call, [], 0, f"{checkout.path(QUICK)} iptaudit\n".encode(), slow % (b"-c", b"-c"))
    checkout.stand_in("crates/iptaudit/out/iptaudit")
    checkout.run(call, [], 0, f"{checkout.path('crates/iptaudit/out/iptaudit')}\n".encode())
    checkout.run(call, [], 0, b"x\n", IPTAUDIT="x")


@pytest.fixture
def installation(iptsim, folder):
    trial = Trial(iptsim.path, folder)
    install(trial.path("to"), "check", "fit")
    trial.stand_in("to/bin/iptsim")
    os.symlink("to/bin/iptsim-check", trial.path("linked"))
    return trial


@pytest.mark.parametrize("path", ["to/bin/iptsim-check", "./linked"])
def test_installed_program(path, installation):
    installation.run([path, "d"], ["to/bin/iptsim"], 1, LIMIT % b"iptsim-fit")


def test_another_program(installation):
    installation.run(["to/bin/iptsim-check", "d"], [], 1, LIMIT % b"iptsim-fit", IPTSIM=installation.program)


def test_installed_names(installation):
    """Commands are named as they are called."""
    installation.run(["to/bin/iptsim-fit"], [], 2, b"",
                     b"usage: iptsim-fit [-h] [--assume WORDS=VALUE].. [--noflush] [--services FILE] [--protocols FILE] FILE..\n"
                     b"iptsim-fit: error: the following arguments are required: FILE\n")
    installation.put("session", b"packet INPUT\n")
    installation.run(["to/bin/iptsim-check", "session"], [], 1,
                     b"session:1: `packet` begins a line of a session, not of a dump: run the file with `iptsim session`.\n")


def test_no_installed_program(installation):
    path = installation.path("to/bin/iptsim")
    os.remove(path)
    installation.run(["to/bin/iptsim-check", "d"], [], 2, b"",
                     f"iptsim-check: cannot run {path}: No such file or directory; IPTSIM has to name the program\n".encode())
