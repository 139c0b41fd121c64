"""tools/page [FILE]: makes the page iptsim.html, one file with both programs, which any browser opens from the disk or from a server.

FILE is where it goes, web/out/iptsim.html where none is given. The programs are proved and built by bin/iptsim and bin/iptaudit where they have to
be. Then the toolchain builds each again, which takes some minutes of a core, and hands the module that it compiles to this script; where
what comes of it isn't the same program, byte for byte, no page is made. The module is compiled to WebAssembly, and linked with the files of
web/machine: docs/THEOREM.md says what is trusted there. What was compiled stays in web/out for the next call with the same programs.

Two runs on one commit, with the same programs, make the same file, byte for byte. The page names the version, as files of tools/release do.

The status is 0 where the page is there, 1 where it can't be made, and 2 for wrong words.
"""

import os
import sys

from tools import ROOT, parser
from tools.packing import Failure
from tools.packing.folder import put
from tools.packing.programs import find_version
from tools.paging.made import make_page


def main():
    words = parser("page", __doc__)
    words.add_argument("file", metavar="FILE", nargs="?", default=os.path.join(ROOT, "web", "out", "iptsim.html"))
    path = words.parse_args().file
    try:
        page = make_page(ROOT, find_version(ROOT))
        os.makedirs(os.path.dirname(os.path.abspath(path)), exist_ok=True)
        put(path, page.encode())
    except (Failure, OSError) as failure:
        print(f"page: {failure}", file=sys.stderr)
        return 1
    return 0


sys.exit(main())
