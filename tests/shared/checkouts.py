"""A copy of the sources, in which the scripts of bin/ that build programs run with a stand-in for rt."""

import os
import pathlib
import shutil
import subprocess
import time

from tests import ROOT
from tests.shared.rows import script

# The program that a stand-in makes: it shows its words and its input, and notes where it runs.
SHOWS = """#!/bin/bash
printf '<%s>' "$@"
cat
pwd >"$CALLS.folder"
[ ! -e "/proc/$$/fd/9" ] || echo 'the lock is held' >&2
echo message >&2
exit 7
"""
LACKS = ("%s: rt, the command of the Rattle toolchain, is not on the path: "
         "install the toolchain that README.md names, and add its folder bin to PATH\n")


class Checkout:
    """The copy, below a folder, and the stand-in, which notes its calls."""

    def __init__(self, work, rt):
        self.work, self.top, self.calls = work, os.path.join(work, "copy of it"), os.path.join(work, "calls")
        os.makedirs(os.path.join(work, "tools"))
        for name in ("bin", "tools", "crates"):
            shutil.copytree(os.path.join(ROOT, name), self.path(name), ignore=shutil.ignore_patterns("out", "__pycache__"))
        shutil.copy(os.path.join(ROOT, "crates.txt"), self.top)
        script(os.path.join(work, "tools", "rt"), rt)
        self.environment = {**os.environ, "CALLS": self.calls, "BUILT": script(os.path.join(work, "shows"), SHOWS),
                            "PATH": f"{os.path.join(work, 'tools')}:{os.environ['PATH']}"}

    def path(self, *place):
        return os.path.join(self.top, *place)

    def change(self, command):
        """Changes sources by a command of the shell, after all that was built before."""
        time.sleep(0.05)
        subprocess.run(["/bin/sh", "-c", command], cwd=self.top, check=True)

    def noted(self, suffix=""):
        """What the stand-in, or the program that it made, has noted."""
        notes = pathlib.Path(self.calls + suffix)
        return notes.read_text(encoding="utf-8") if notes.exists() else ""

    def forget(self):
        for suffix in ("", ".input", ".folder", ".ended"):
            pathlib.Path(self.calls + suffix).unlink(missing_ok=True)

    def run(self, words, input="a line", cwd=None, **variables):
        """A call in the copy: its status, what it wrote, and the calls of rt that it made."""
        self.forget()
        ended = subprocess.run(words, input=input, cwd=cwd or self.top, env={**self.environment, **variables}, capture_output=True, text=True, check=False)
        return ended.returncode, ended.stdout, ended.stderr, self.noted().splitlines()

    def without_rt(self):
        """A path of commands without rt."""
        folder = os.path.join(self.work, "without")
        os.makedirs(folder, exist_ok=True)
        for place in ("/bin", "/usr/bin"):
            for name in set(os.listdir(place)) - set(os.listdir(folder)) - {"rt"}:
                os.symlink(os.path.join(place, name), os.path.join(folder, name))
        return folder
