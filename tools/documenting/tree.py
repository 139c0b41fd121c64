"""The repository as files: which there are, their text, and the crates in the order in which they stand on one another."""

import functools
import graphlib
import os
import pathlib
import shutil
import subprocess

from commands.crates import uses_of
from tools import ROOT

# What is built, or isn't the repository's.
LEFT_OUT = (".git", "out", "__pycache__")
# Files with faults, by their paths, which stand in place of all others while the checks are tried.
planted = {}


def all_files():
    """The paths of all files, relative to the repository, in order."""
    return tuple(planted) or own_files()


@functools.cache
def own_files():
    found = []
    for folder, inner, names in os.walk(ROOT):
        inner[:] = sorted(name for name in inner if name not in LEFT_OUT)
        found += [os.path.relpath(os.path.join(folder, name), ROOT) for name in sorted(names)]
    return tuple(found)


def kept_files():
    """Those that git keeps; without git they are all."""
    return tuple(planted) or own_kept_files()


@functools.cache
def own_kept_files():
    if not shutil.which("git"):
        return own_files()
    listed = subprocess.run(["git", "ls-files", "-z"], cwd=ROOT, capture_output=True, text=True, check=False).stdout.split("\0")
    return tuple(sorted(set(listed).intersection(own_files()))) or own_files()


def files(*suffixes, below=""):
    """The files that end in one of the suffixes and begin with a path."""
    return [path for path in all_files() if path.startswith(below) and path.endswith(suffixes)]


def exists(path):
    return os.path.exists(os.path.join(ROOT, path))


@functools.cache
def own_text(path):
    return pathlib.Path(ROOT, path).read_text(encoding="utf-8", errors="replace")


def text(path):
    return planted[path] if path in planted else own_text(path)


def lines(path):
    return text(path).splitlines()


@functools.cache
def uses():
    """On which crates of the repository each stands."""
    listed = uses_of(ROOT)
    return {crate: [below for below in named if below in listed] for crate, named in listed.items()}


def crates():
    """The crates, each after those on which it stands."""
    return list(graphlib.TopologicalSorter(uses()).static_order())
