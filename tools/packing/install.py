"""tools/install [--remove] [PREFIX=FOLDER] [DESTDIR=FOLDER]: installs both programs and all that belongs to them, by the files and the
script of the archive that tools/release makes. The programs are proved and built first where they have to be, or are those that IPTSIM
and IPTAUDIT name. `make install` and `make uninstall` call it.

The status is that of the script, and 1 where a program can't be had.
"""

import os
import subprocess
import sys
import tempfile

from tools import ROOT
from tools.packing import Failure
from tools.packing.archive import archived
from tools.packing.contents import gather
from tools.packing.folder import write
from tools.packing.programs import note


def main(words):
    if "--help" in words or "-h" in words:
        print(__doc__.strip())
        return 0
    try:
        contents = gather(ROOT)
    except (Failure, OSError) as failure:
        note(failure)
        return 1
    with tempfile.TemporaryDirectory() as folder:
        write(folder, archived(ROOT, contents))
        return subprocess.call([os.path.join(folder, "install"), *words])


sys.exit(main(sys.argv[1:]))
