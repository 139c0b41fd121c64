"""The files of an installation, by their places below PREFIX. An archive, a package and `make install` all have these."""

import collections
import glob
import hashlib
import modulefinder
import os
import pathlib

from tools.completing.table import read_commands

# A file with its mode and its bytes, or a symbolic link with what it names. The place is relative.
Entry = collections.namedtuple("Entry", "place mode data")
Link = collections.namedtuple("Link", "place target")

# The page with both programs.
PAGE = "share/doc/iptsim/iptsim.html"

# What the modules of commands read.
TABLE = "commands/options.table"

# Where the sources have files that are installed as they are: patterns, and the folder of the installation.
COPIED = (
    (["docs/*.1"], "share/man/man1"),
    *(([f"{folder}/*"], folder) for folder in ("share/bash-completion/completions", "share/zsh/site-functions", "share/fish/vendor_completions.d")),
    ([f"docs/{name}.md" for name in ("GUIDE", "RECIPES", "DIFFERENCES", "THEOREM", "GLOSSARY")], "share/doc/iptsim"),
    (["docs/differences.tsv", "CHANGELOG.md", "LICENSE"], "share/doc/iptsim"),
    (["docs/schemas/*.json"], "share/doc/iptsim/schemas"),
    (["examples/*"], "share/doc/iptsim/examples"),
)


def entry(source, place, mode):
    return Entry(place, mode, pathlib.Path(source).read_bytes())


def checksums(name, entries):
    """The checksums of files by a hash, as sha256sum and md5sum write them."""
    return "".join(f"{hashlib.new(name, each.data).hexdigest()}  {each.place}\n" for each in entries if isinstance(each, Entry)).encode()


def modules(root, name):
    """The paths of a command's module, and of those of the repository that it imports."""
    finder = modulefinder.ModuleFinder(path=[root])
    finder.run_script(os.path.join(root, "commands", f"{name}.py"))
    return {os.path.relpath(module.__file__, root) for module in finder.modules.values() if module.__file__}


def commands(root, names):
    """The files of commands for users: of each its starter and a link to that by the name on the path; and the modules of all of them."""
    entries, places = [], {TABLE}
    for name in names:
        entries.append(entry(os.path.join(root, "bin", name), f"lib/iptsim/bin/{name}", 0o755))
        entries.append(Link(f"bin/iptsim-{name}", f"../lib/iptsim/bin/{name}"))
        places |= modules(root, name)
    return entries + [entry(os.path.join(root, place), f"lib/iptsim/{place}", 0o644) for place in sorted(places)]


def installation(root, programs):
    """All files, where `programs` has the bytes of each program by its name."""
    entries = [Entry(f"bin/{name}", 0o755, data) for name, data in programs.items()]
    entries += commands(root, [name[len("iptsim-"):] for name in read_commands(root) if name.startswith("iptsim-")])
    for patterns, folder in COPIED:
        sources = [source for pattern in patterns for source in sorted(glob.glob(os.path.join(root, pattern)))]
        entries += [entry(source, f"{folder}/{os.path.basename(source)}", 0o644) for source in sources]
    return entries
