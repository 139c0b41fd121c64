"""All that is packed: the programs, asked whether they are what they should be, the page, and the files of an installation."""

import collections
import os
import pathlib

from tools.packing import Failure, need
from tools.packing.layout import Entry, PAGE, installation
from tools.packing.programs import PROGRAMS, find_version, note, numbers, packed
from tools.paging.made import make_page

VARIABLE = "IPTSIM_PAGE"
# `library` is the version of the C library that the programs need, and `are_built` whether both were built from these sources.
Contents = collections.namedtuple("Contents", "version library are_built entries")


def find_page(root, version):
    """The bytes of the page with both programs, or None where a program was built elsewhere, so that none can be made of it."""
    path = os.environ.get(VARIABLE)
    if path:
        need(os.path.isfile(path), f"{VARIABLE} names no file: {path}")
        note(f"the page is the one that {VARIABLE} names")
        return pathlib.Path(path).read_bytes()
    given = [known.variable for known in PROGRAMS.values() if os.environ.get(known.variable)]
    if given:
        note(f"without a page, which isn't made of a program that {' or '.join(given)} names; {VARIABLE} can name one")
        return None
    try:
        return make_page(root, version).encode()
    except Failure as failure:
        raise Failure(f"the page: {failure}") from failure


def gather(root):
    """Has the programs built where they have to be, and reads all files."""
    version = find_version(root)
    programs = {name: packed(root, name, version) for name in PROGRAMS}
    library = max((program.library for program in programs.values()), key=numbers)
    are_built = all(program.is_built for program in programs.values())
    entries = installation(root, {name: program.data for name, program in programs.items()})
    page = find_page(root, version)
    return Contents(version, library, are_built, entries + ([Entry(PAGE, 0o644, page)] if page else []))
