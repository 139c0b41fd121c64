"""Whether a program that was built of the crates is up to date: what tools/building/crates.sh asks, for scripts in Python."""

import os

FOLDERS = ("src", "specs", "proofs")


def uses_of(top):
    """What each crate of the repository stands on, by crates.txt."""
    with open(os.path.join(top, "crates.txt"), encoding="utf-8") as file:
        rows = [line.partition("#")[0].partition(":") for line in file]
    return {crate.split()[0]: below.split() for crate, colon, below in rows if colon}


def crates_of(top, made):
    """The crate of a program, and those of the repository on which it stands."""
    uses = uses_of(top)
    found, left = set(), [made]
    while left:
        crate = left.pop()
        if crate in uses and crate not in found:
            found.add(crate)
            left += uses[crate]
    return found


def is_built(top, made, program):
    """Whether the proved program is there, and nothing of its crates is newer, nor crates.txt."""
    if not os.access(program, os.X_OK):
        return False
    built = os.stat(program).st_mtime_ns
    sources = [os.path.join(top, "crates.txt")]
    for folder in (os.path.join(top, "crates", crate, folder) for crate in crates_of(top, made) for folder in FOLDERS):
        sources += [os.path.join(path, name) for path, inner, names in os.walk(folder) for name in [".", *inner, *names]]
    return all(os.lstat(path).st_mtime_ns <= built for path in sources)
