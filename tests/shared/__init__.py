"""What several tests need."""

import pathlib

from tests import ROOT


def read(*place):
    """The bytes of a file, by its place below the top of the repository."""
    return pathlib.Path(ROOT, *place).read_bytes()
