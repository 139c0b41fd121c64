"""Copies of the sources, in which wrong bodies are tried."""

import pathlib
import shutil

from tools import ROOT

# What no build reads.
LEFT_OUT = shutil.ignore_patterns("out", "must-fail", "further-edits", "data", "stdin", "__pycache__")


def copy_sources(folder, *more):
    """Puts what a build reads into a folder: the crates, and more folders of the repository."""
    for name in ("crates", *more):
        shutil.copytree(f"{ROOT}/{name}", f"{folder}/{name}", ignore=LEFT_OUT)
    for name in ("crates.txt", "HANDLES"):
        shutil.copy(f"{ROOT}/{name}", folder)


def times_changed(folder, file, old, new):
    """Puts a text in the place of another in a file of a folder, and says how often that stood there."""
    path = pathlib.Path(folder, file)
    text = path.read_text(encoding="utf-8")
    path.write_text(text.replace(old, new), encoding="utf-8")
    return text.count(old)
