"""The toolchain's parts: those that proved and built the programs."""

import os
import shutil
import subprocess

from tools.packing import need


class Kit:
    """The folder of the toolchain, found by its command `rt`."""

    def __init__(self):
        command = shutil.which("rt")
        need(command is not None, "rt, the command of the Rattle toolchain, is not on the path")
        self.folder = os.path.dirname(os.path.dirname(os.path.realpath(command)))
        self.identity = call([command, "version"])

    def part(self, *place):
        """The path of a file or a folder, which has to be there."""
        path = os.path.join(self.folder, *place)
        need(os.path.exists(path), f"the toolchain has no {os.path.join(*place)}: this script has to be fitted to it")
        return path


def call(words, **how):
    """The output of a command, which has to succeed."""
    ended = subprocess.run([str(word) for word in words], stdin=subprocess.DEVNULL, stdout=subprocess.PIPE, stderr=subprocess.STDOUT,
                           text=True, errors="replace", check=False, **how)
    need(not ended.returncode, f"{os.path.basename(str(words[0]))} fails with status {ended.returncode}:\n{ended.stdout[-3000:].rstrip()}")
    return ended.stdout
