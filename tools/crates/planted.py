"""tools/planted [--list] [--only NAME..] [--quick] [--jobs N] [--keep]: plants one bug after another in a copy of the sources, builds
the program without a proof, and says which of the tests that compare it with the plain model sees the bug: `tests/memory/faults` with
`--refuse none`, which plays the cases alone, `tests/devices/cut` or `tests/memory/faults`.

Each bug is one of those for which tests were written: half an edit that is kept where memory is refused, a reply in part, another fault in
place of M0, memory taken in a line that promises to take none, a reply that comes late, and the like. Of some no session shows them: it
is said by which test they are seen, and they are not built unless they are named.

tools/crates/bugs.diff has them, behind `#` and their names: `about`, what is wrong; `file`, below crates/; `seen`, which test has to see the bug;
`cases`, a word of those that are known to show it, which are played first; and the change, as lines of a diff. The lines that it begins
with, and those that it takes away, stand in the file just once.

It isn't part of the gate: a bug takes a minute to build, and up to some minutes where it isn't seen. The status is 1 where a bug isn't seen by
the test that is named with it, or where its lines don't stand in the sources just once.
"""

import collections
import concurrent.futures
import os
import shutil
import subprocess
import sys
import tempfile

from tools import ROOT, parser
from tools.crates.copies import copy_sources, times_changed
from tools.crates.edit_files import entries, read

Bug = collections.namedtuple("Bug", "name about file old new seen cases", defaults=(None,))

# What is played, in this order: the first that sees the bug ends it.
SCRIPTS = {
    "cases": ["tests/memory/faults.py", "--refuse", "none"],
    "cut": ["tests/devices/cut.py"],
    "faults": ["tests/memory/faults.py"],
}
# The status of pytest where a test failed; others say that none could be run.
FAILED = 1
TOOLS = os.path.join(ROOT, "tools")
KEPT = os.path.join(TOOLS, "out")


def read_bugs():
    found = {}
    _, *named = entries(read(os.path.join(TOOLS, "crates", "bugs.diff")))
    for _, name, numbered in named:
        lines = [line for _, line in numbered]
        told = dict(line.split(": ", 1) for line in lines if line[0] not in " +-#")
        old, new = ("".join(line[1:] + "\n" for line in lines if line[0] in (" ", sign)) for sign in "-+")
        found[name] = Bug(name, old=old, new=new, **told)
    return found


def built(bug, folder):
    """The path of the program with a bug, or None and why it wasn't built."""
    copy_sources(folder, "tools")
    times_changed(os.path.join(folder, "crates"), bug.file, bug.old, bug.new)
    program = os.path.join(folder, "program")
    ended = subprocess.run([os.path.join(folder, "tools", "refusing"), "iptsim", "123456789", program, "session"], input=b"#\n" * 20_000_000,
                           capture_output=True, check=False)
    return (program, "") if ended.returncode == 0 else (None, ended.stderr.decode(errors="replace")[-2000:])


def runs_of(bug, is_quick):
    """What is run, and by which name: the script that is named with the bug comes first, on the cases that are named with it."""
    if bug.cases:
        yield bug.seen, [*SCRIPTS[bug.seen], "--cases=" + bug.cases]
        if is_quick:
            return
    for name in sorted(SCRIPTS, key=lambda name: name != bug.seen):
        yield name, SCRIPTS[name]


def seen_by(bug, program, is_quick):
    """Which script sees a bug first, and the first line that it writes of it."""
    for name, words in runs_of(bug, is_quick):
        call = [os.path.join(TOOLS, "python"), "pytest", *words, "-x", "-q", "--iptsim", program]
        ended = subprocess.run(call, cwd=ROOT, capture_output=True, text=True, errors="replace", check=False)
        lines = (ended.stdout + ended.stderr).strip().split("\n")
        failed = next((line for line in lines if line.startswith("FAILED ")), None)
        if ended.returncode == FAILED and failed:
            return name, failed
        if ended.returncode:
            sys.exit(f"planted: pytest ends with {ended.returncode} and runs no test: {lines[-1]}")
    return None, ""


def tried(bug, is_quick, keeps):
    """What came of a bug: whether it is as it should be, and a line that says so."""
    with tempfile.TemporaryDirectory() as folder:
        program, why = built(bug, folder)
        if program is None:
            return False, f"{bug.name}: NOT BUILT: {why}"
        if keeps:
            os.makedirs(KEPT, exist_ok=True)
            shutil.copy(program, os.path.join(KEPT, bug.name))
        name, line = seen_by(bug, program, is_quick)
    if name is None:
        return bug.seen not in SCRIPTS, f"{bug.name}: UNSEEN (is to be seen by {bug.seen})"
    return name == bug.seen, f"{bug.name}: seen by {name}: {line}"


def main():
    known = read_bugs()
    reader = parser("planted", __doc__)
    reader.add_argument("--list", action="store_true", help="print the bugs, and compare their lines with the sources, but plant none")
    reader.add_argument("--only", metavar="NAME", nargs="+", choices=list(known), help="plant these alone")
    reader.add_argument("--quick", action="store_true", help="try each bug on the cases alone that are named with it, where some are")
    reader.add_argument("--jobs", metavar="N", type=int, default=1, help="plant so many side by side")
    reader.add_argument("--keep", action="store_true", help="leave the programs in tools/out, by the names of the bugs")
    words = reader.parse_args()
    bugs = [known[name] for name in words.only or known if words.only or words.list or known[name].seen in SCRIPTS]
    wrong = [bug for bug in bugs if read(os.path.join(ROOT, "crates", bug.file)).count(bug.old) != 1]
    for bug in wrong:
        print(f"{bug.name}: its lines don't stand just once in crates/{bug.file}", file=sys.stderr)
    for bug in bugs if words.list else ():
        print(f"{bug.name}: {bug.about}; seen by {bug.seen}")
    if words.list or wrong:
        return 1 if wrong else 0
    ends = []
    with concurrent.futures.ThreadPoolExecutor(words.jobs) as pool:
        for is_right, line in pool.map(lambda bug: tried(bug, words.quick, words.keep), bugs):
            print(line, flush=True)
            ends.append(is_right)
    return 0 if all(ends) else 1


sys.exit(main())
