"""Where the programs are and what commands are called, in a checkout or where the commands are installed.

Installed, this file lies in PREFIX/lib/iptsim/commands, the starters in PREFIX/lib/iptsim/bin and the programs in PREFIX/bin; there links
`iptsim-check` and so on lead to the starters, which put the name by which they were called into IPTSIM_CALLED.
"""

import functools
import os
import sys

from commands.crates import is_built

TOP = os.path.dirname(os.path.dirname(os.path.realpath(__file__)))
IS_INSTALLED = TOP.split(os.sep)[-2:] == ["lib", "iptsim"] and not os.path.exists(os.path.join(TOP, "crates.txt"))
PROGRAMS = ("iptsim", "iptaudit")
SLOW = """{called}: bin/quick runs {name} without a proof, and slowly: 8,192 rules take iptsim 22 to 110 s, and 0.15 s if it is proved.
{called}: install a release, or run bin/{name} once, which proves and builds the program in about an hour.
"""


def called():
    """The name by which the command was called."""
    return os.path.basename(os.environ.get("IPTSIM_CALLED", sys.argv[0]))


def command(name):
    """How a user calls a script or a program of the project: as it is installed, if the script was called so, else as it stands in a checkout."""
    if not IS_INSTALLED and not called().startswith("iptsim-"):
        return "bin/" + name
    return name if name in PROGRAMS else "iptsim-" + name


@functools.lru_cache(maxsize=None)
def program_call(name):
    """The words that run a program: the one that the environment names, the installed one, a proved one that is up to date, or bin/quick,
    of which standard error then says once that it is slow."""
    named = os.environ.get(name.upper())
    if named:
        return (named,)
    if IS_INSTALLED:
        return (os.path.join(os.path.dirname(os.path.dirname(TOP)), "bin", name),)
    proved = os.path.join(TOP, "crates", name, "out", name)
    if is_built(TOP, name, proved):
        return (proved,)
    sys.stderr.write(SLOW.format(called=called(), name=name))
    sys.stderr.flush()
    return (os.path.join(TOP, "bin", "quick"), name)
