"""tools/release [FOLDER]: packs both programs and all that belongs to them, for machines without the toolchain.

FOLDER, or the folder from which it is called, gets three files:

    iptsim-VERSION-x86_64.tar.gz   an archive: what it has runs from its folder, and its script `install` installs it
    iptsim_VERSION_amd64.deb       a package for Debian, where dpkg-deb is there, in which programs have no symbols
    iptsim-VERSION.sha256          the checksums of both, which also go to standard output

VERSION is the line of the file VERSION, with `+changed` where a file that is packed isn't as committed, and `+unversioned` outside
of git. Two runs on one commit, with the same programs, make files that are equal byte for byte.

The programs are proved and built by bin/iptsim and bin/iptaudit where they have to be, and name the commit by `--version`. Where
IPTSIM or IPTAUDIT names a program, that is taken as it is. Each program is asked a question first: one that answers it otherwise
than it must isn't packed. The page is that of tools/page, or the file that IPTSIM_PAGE names; of a program that was built elsewhere none is made.

The status is 0 where the files are there, 1 where they can't be made, and 2 for wrong words.
"""

import os
import shutil
import sys

from tools import ROOT, parser
from tools.packing import Failure, need
from tools.packing.archive import archived, tar
from tools.packing.contents import gather
from tools.packing.debian import package
from tools.packing.folder import put
from tools.packing.layout import Entry, checksums
from tools.packing.programs import note


def made(contents):
    version = contents.version
    top = f"iptsim-{version.name}"
    files = {f"{top}-x86_64.tar.gz": tar(top, version.seconds, archived(ROOT, contents))}
    if shutil.which("dpkg-deb") is None:
        note("dpkg-deb isn't there, so no package for Debian is made")
        return files
    return {**files, f"iptsim_{version.name}_amd64.deb": package(ROOT, contents)}


def release(folder):
    need(os.path.isdir(folder) and os.access(folder, os.W_OK), f"no folder in which a file can be made: {folder}")
    contents = gather(ROOT)
    entries = [Entry(name, 0o644, data) for name, data in made(contents).items()]
    sums = Entry(f"iptsim-{contents.version.name}.sha256", 0o644, checksums("sha256", entries))
    for each in (*entries, sums):
        put(os.path.join(folder, each.place), each.data)
    shown = entries if folder == "." else [each._replace(place=os.path.join(folder, each.place)) for each in entries]
    sys.stdout.write(checksums("sha256", shown).decode())


def main():
    words = parser("release", __doc__)
    words.add_argument("folder", metavar="FOLDER", nargs="?", default=".")
    try:
        release(words.parse_args().folder)
    except (Failure, OSError) as failure:
        note(failure)
        return 1
    return 0


sys.exit(main())
