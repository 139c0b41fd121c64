"""Words for options, packets for the loopback device, and how iptables and its like are called."""

import os
import shutil
import subprocess


def path_of(tool):
    """Where a tool of the system is; None where it isn't there."""
    return shutil.which(tool, path=os.environ.get("PATH", "") + ":/usr/sbin:/sbin")


def called(tool, words, text=""):
    return subprocess.run([path_of(tool), *words], input=text, capture_output=True, text=True, check=False)
