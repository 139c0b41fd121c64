"""Commands for users as they are installed: PREFIX/lib/iptsim has their starters and modules, and PREFIX/bin a link to each starter. And links to those
of the sources, by the names by which they are installed, with which commands of a document run.
"""

import os
import subprocess

from tests import ROOT
from tools.completing.table import read_commands
from tools.packing.folder import write
from tools.packing.layout import commands


def install(prefix, *names):
    """Installs commands in a folder, and returns the links by which they are called."""
    write(prefix, commands(ROOT, names))
    return [os.path.join(prefix, "bin", "iptsim-" + name) for name in names]


def linked(folder, **programs):
    """Puts links to all commands of the sources, and to some programs, into a folder, and returns the environment in which they are found."""
    os.makedirs(folder)
    paths = {name: os.path.join(ROOT, "bin", name[len("iptsim-"):]) for name in read_commands(ROOT) if name.startswith("iptsim-")}
    for name, path in {**paths, **programs}.items():
        os.symlink(path, os.path.join(folder, name))
    named = {name.upper(): path for name, path in programs.items()}
    return {**os.environ, **named, "PATH": folder + os.pathsep + os.environ["PATH"]}


def follow(commands, folder, **programs):
    """Runs commands at the top of a folder, where all are found by the names by which they are installed: what each writes. The programs are
    given by their paths."""
    environment = linked(os.path.join(folder, ".commands"), **programs)
    for command in commands:
        ended = subprocess.run(["bash", "-c", command], cwd=folder, env=environment, stdin=subprocess.DEVNULL, stdout=subprocess.PIPE,
                               stderr=subprocess.STDOUT, check=False)
        yield ended.stdout.decode()
