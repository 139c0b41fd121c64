"""What builds and checks: modules of the scripts in this folder.

    packing      the archive, the package and the installation: tools/release, tools/install
    paging       the page: tools/page
    completing   completions: tools/completions
    documenting  documents and comments: tools/documents
    crates       sources that are written and checked, and wrong bodies: tools/rows, tools/sources, tools/edits, tools/planted, tools/uncompiled
"""

import argparse
import os

# The top of the repository.
ROOT = os.path.dirname(os.path.dirname(os.path.realpath(__file__)))


def parser(name, about):
    """What parses the words of a script; what its module says of it is its help."""
    return argparse.ArgumentParser(prog=f"tools/{name}", description=about, formatter_class=argparse.RawDescriptionHelpFormatter)
