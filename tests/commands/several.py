"""bin/fit on several files at once: what it writes and its status, to the byte; and what the program lists of files that are restored one after
another beside what it lists of the one dump that comes of them.
"""

from tests.shared.run_files import runs_in
from tests.shared.rows import each, same

# Sections of which later ones speak of chains that earlier ones made, deleted or renamed.
CHAINS = (b"*filter\n:a -\n:b -\n:f -\n-N c\n-X f\n-N f\n-A f -j DROP\n-A a -j DROP\n-A b -j DROP\n-A c -j DROP\nCOMMIT\n",
          b"*filter\n:c -\n:d -\n-F b\n-X b\n-E a e\n-A d -j LOG\nCOMMIT\n*nat\nCOMMIT\n",
          b"*filter\n:a -\n:b -\n:e -\n:f -\n[1:2] -A b -j ACCEPT\nCOMMIT\n*filter\n:b -\n:FORWARD DROP\n-A FORWARD -g b\nCOMMIT\n")


@each(runs_in("commands/several.runs"))
def test_several(row, command):
    command("fit").check(row)


def test_listing(command, iptsim):
    """The listing of files that are restored in turn, and of the dump."""
    whole = command("fit").run(["--noflush", "0", "1", "2"], {str(place): data for place, data in enumerate(CHAINS)}).stdout
    one_by_one = b"".join(b"iptables-restore -n <<END\n" + data + b"END\n" for data in CHAINS) + b"iptables-save\n"
    same((iptsim.said(["session"], one_by_one),), (iptsim.said(["restore"], whole),))
