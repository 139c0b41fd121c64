"""tools/edits [CRATE..]: tries every edit of must-fail/ and further-edits/, of the crates that are named or of all. The prover
has to refuse each. It ends with status 1 where one isn't refused. tools/crates/edit_files.py says how edits are written.

`rt must-fail` checks a crate anew for each edit. Here a crate is proved once, on a copy, and then edited in rounds: a round makes one
edit in each of many functions, and checks these functions alone over what was proved. An edit is refused only where its own
function isn't proved, and not where that function calls one that isn't: then a later round tries it again. Every round also makes
an edit that changes nothing, which has to be reported: a round in which it is refused too counts for nothing.

What was refused is kept in the crate's out/, by a checksum of the edit, the crate, those below it and the toolchain, and isn't
tried again.
"""

import hashlib
import os
import pathlib
import re
import shutil
import subprocess
import sys
import tempfile
from concurrent.futures import ThreadPoolExecutor

from commands.crates import crates_of, uses_of
from tools import ROOT, parser
from tools.crates.copies import copy_sources
from tools.crates.edit_files import Edit, Malformed, edits_of, named_file, sources

PARTS = ("src", "specs", "proofs")
# The most memory, in KiB, that a check takes.
CHECK_KIB = 5_000_000
# How many edits a round makes at most.
ROUND_MOST = 24
# The last line of a check that came to its end.
FINISHED = re.compile(r"^(only|logic)=", re.M)
# What comes of an edit: its function isn't proved; it is; it calls one that isn't; or the prover says neither.
REFUSED, MISSED, BLOCKED, UNSURE = "refused", "NOT REFUSED", "NOT TRIED: a function that it calls isn't proved", "NOT TRIED"
# What the prover says of a proof that names what an edit took away.
LOST_NAMES = re.compile(r"has no field|is not in scope|has no `|was not admitted")


def sum_of(crate, deps, toolchain):
    """Returns a checksum of what a verdict on a crate rests on: the toolchain, its text and that of the crates below."""
    total = hashlib.sha256(toolchain.encode())
    for part in PARTS:
        for at, folders, files in os.walk(f"{ROOT}/crates/{crate}/{part}"):
            folders.sort()
            for name in sorted(files):
                total.update(repr((at[len(ROOT) :], name, pathlib.Path(at, name).read_bytes())).encode())
    for below in deps[crate]:
        total.update((sum_of(below, deps, toolchain) if below in deps else below).encode())
    return total.hexdigest()


def link(source, target):
    """Links a file, or copies it where it can't be linked."""
    try:
        os.link(source, target)
    except OSError:
        shutil.copy2(source, target)


class Bench:
    """A crate on a copy of the repository, proved as it stands, and edited there in rounds."""

    def __init__(self, crate, room):
        self.crate, self.folder, self.seed = crate, f"{room}/{crate}/crates/{crate}", f"{room}/{crate}/seed"
        copy_sources(f"{room}/{crate}")
        # (what was proved of the crates below is taken over)
        for below in crates_of(ROOT, crate) - {crate}:
            if os.path.isdir(f"{ROOT}/crates/{below}/out"):
                shutil.copytree(f"{ROOT}/crates/{below}/out", f"{room}/{crate}/crates/{below}/out", copy_function=link)
        os.mkdir(f"{room}/{crate}/.git")
        self.texts = sources(self.folder)
        # which functions stand in the way of another where both are edited, as rounds show it
        self.blocks = {}
        # the functions, callees first, and those that call an edited one
        self.functions, self.callers = [], set()

    def check(self, *words):
        """Checks the copy, and returns what is said of each function, and all that is said."""
        said = subprocess.run(["rt", "check", "--jobs", "1", *words], cwd=self.folder, stdin=subprocess.DEVNULL, stdout=subprocess.PIPE,
                              stderr=subprocess.STDOUT, errors="replace").stdout
        return dict(re.findall(r"^(?:fn|impl) (\S+): (.*)$", said, re.M)), said

    def prove(self):
        """Proves the crate as it stands, and keeps what that leaves for each round to begin with. Says why it couldn't."""
        said, text = self.check()
        if not re.search(r"^logic=proved ", text, re.M):
            return f"{self.crate} isn't proved as it stands:\n{text}"
        self.functions = [it for it in said if f"\nfn {it}: " in text]
        os.rename(f"{self.folder}/out/incremental", self.seed)
        return None

    def write(self, texts):
        for path, text in texts.items():
            pathlib.Path(self.folder, path).write_text(text, encoding="utf-8")

    def planted(self, edits):
        """Returns an edit of a function that these edits leave, which changes nothing: it adds a comment to its file."""
        taken = {it.function for it in edits} | self.callers
        modules = {it.function.rpartition("::")[0] for it in edits}
        # (callees come first, and functions of other modules are likely to call none of these)
        for function in sorted(self.functions, key=lambda it: it.rpartition("::")[0] in modules):
            names, path = function.split("::")[1:], named_file(function, self.texts)
            # (a closure's function isn't written as one)
            if path and function not in taken and "fn" not in names and re.search(rf"\bfn {names[-1]}\b", self.texts[path]):
                return Edit("planted", function, False, ((path, self.texts[path], self.texts[path] + "// Nothing.\n"),))
        raise SystemExit(f"edits: {self.crate} has no function that is left as it is")

    def check_edited(self, edits, *words):
        """Checks the copy with these edits made, over what was proved."""
        texts = dict(self.texts)
        for edit in edits:
            edit.apply(texts)
        shutil.rmtree(f"{self.folder}/out/incremental", ignore_errors=True)
        shutil.copytree(self.seed, f"{self.folder}/out/incremental", copy_function=link)
        self.write(texts)
        try:
            return self.check(*words)
        finally:
            self.write(self.texts)

    def try_round(self, edits):
        """Makes these edits, and returns what is said of the function of each, or None where nothing is known of the round."""
        made = [self.planted(edits), *edits]
        # (of an impl only a check of the whole crate tells, and else the functions are checked alone)
        alone = all(it.function in self.functions for it in made)
        said, text = self.check_edited(made, *(it for edit in made for it in ("--only", edit.function) if alone))
        outcome = judged(said.get(made[0].function, "nothing"))
        if outcome == BLOCKED:
            self.callers.add(made[0].function)
            return self.try_round(edits)
        if outcome != MISSED:
            return None, text
        functions = {it.function for it in edits}
        for function in functions:
            self.blocks.setdefault(function, set()).update(in_the_way(function, said, functions))
        return {edit: said.get(edit.function, "nothing") for edit in edits}, text

    def next_round(self, left):
        """Returns edits that can be made side by side: of one function each, of which none stands in another's way."""
        if left[0].alone:
            return [left[0]]
        texts, chosen, functions = dict(self.texts), [], set()
        for edit in left:
            ways = {edit.function} | self.blocks.get(edit.function, set())
            is_apart = not ways & functions and not any(edit.function in self.blocks.get(it, ()) for it in functions)
            if not edit.alone and is_apart and len(chosen) < ROUND_MOST and not edit.apply(texts):
                chosen.append(edit)
                functions.add(edit.function)
        return chosen


def in_the_way(function, said, edited):
    """Returns the edited functions that a function calls, or that what it calls calls, where that is why it isn't proved."""
    found, seen, left = set(), {function}, [function]
    while left:
        callees = set(re.findall(r"`([^`]+)`", said.get(left.pop(), "").partition("it calls")[2])) - seen
        found |= callees & edited
        left += callees - edited
        seen |= callees
    return found


def judged(verdict):
    """Returns what the prover's words on an edit's function say of the edit."""
    if verdict == "proved":
        return MISSED
    if "it calls" in verdict:
        return BLOCKED
    return REFUSED if verdict.startswith(("not proved", "no proof")) else UNSURE


def lines_of(function, text):
    """Returns the numbers of the lines on which a function stands in the text of its file."""
    lines = text.split("\n")
    for at, line in enumerate(lines, 1):
        found = re.match(rf"( *)(?:pub(?:\([a-z]+\))? )?fn {function.rpartition('::')[2]}\b", line)
        if found:
            return range(at, next((it for it in range(at, len(lines)) if lines[it] == found[1] + "}"), at) + 2)
    return range(0)


def reason(edit, text, texts):
    """Returns the first thing that is said against an edit's function. What its proof says of names that the edit took away
    comes last, since it shows nothing of a contract."""
    folder = f"/{'/'.join(edit.function.split('::')[1:])}/"
    lines = [it for it in text.split("\n") if ": error" in it and folder in it]
    telling = [it for it in lines if not LOST_NAMES.search(it)]
    own = {(path, number) for path, _, _ in edit.pairs for number in lines_of(edit.function, texts[path])}
    notes = re.findall(r"^(note: (src/[^:]+):(\d+):\d+: it is not proved .*)$", text, re.M)
    telling += [note for note, path, number in notes if (path, int(number)) in own]
    if lines and not telling:
        return f"(ONLY SINCE ITS PROOF NAMES WHAT THE EDIT TOOK AWAY) {lines[0][:200]}"
    return telling[0][:200] if telling else ""


def rounds(bench, edits, tell):
    """Tries the edits of a crate in rounds, and tells what came of each: whether it was refused, and what was said."""
    left = sorted(edits, key=lambda it: it.alone)
    while left:
        at_once = bench.next_round(left)
        said, text = bench.try_round(at_once)
        if said is None and not FINISHED.search(text):
            alone = {it: bench.check_edited([it], "--only", "")[1] for it in at_once}
            unread = [it for it in at_once if not FINISHED.search(alone[it])]
            for edit in unread:
                left.remove(edit)
                tell(edit, False, f"BAD EDIT: it can't be read\n{alone[edit]}")
            if unread:
                continue
        while said is None and len(at_once) > 1:
            at_once = at_once[: len(at_once) // 2]
            said, text = bench.try_round(at_once)
        if said is None:
            left.remove(at_once[0])
            tell(at_once[0], False, f"NOT TRIED: nothing is known of the round\n{text}")
            continue
        for edit, verdict in said.items():
            outcome = judged(verdict)
            if outcome == BLOCKED and bench.blocks[edit.function]:
                # (it is tried again, apart from what stood in its way)
                continue
            left.remove(edit)
            why = reason(edit, text, bench.texts) if outcome == REFUSED else outcome
            tell(edit, outcome == REFUSED, f"{edit.function}: {verdict}: {why}")


def try_crate(crate, edits, total, room):
    """Tries the edits of a crate that aren't known to be refused, and returns how many were refused and how many weren't."""
    kept = pathlib.Path(ROOT, "crates", crate, "out", "refused-edits")
    sums = {it: hashlib.sha256((total + it.name + it.text()).encode()).hexdigest() for it in edits}
    known = set(kept.read_text(encoding="utf-8").split()) if kept.is_file() else set()
    left, failed = [it for it in edits if sums[it] not in known], []
    if len(left) < len(edits):
        print(f"edits: {crate}: {len(edits) - len(left)} of {len(edits)} were refused before, over the same text", flush=True)

    def tell(edit, is_refused, text):
        print(f"{crate}/{edit.name}: {REFUSED if is_refused else 'FAILED'}: {text}", flush=True)
        if is_refused:
            kept.parent.mkdir(exist_ok=True)
            with kept.open("a", encoding="utf-8") as it:
                it.write(f"{sums[edit]}\n")
        else:
            failed.append(edit)

    if left:
        bench = Bench(crate, room)
        why = bench.prove()
        if why:
            print(f"edits: {why}", flush=True)
            return 0, len(edits)
        for edit in list(left):
            why = edit.apply(dict(bench.texts)) if edit.function else "it has no line '# function: NAME'"
            if why:
                left.remove(edit)
                tell(edit, False, f"BAD EDIT: {why}")
        rounds(bench, left, tell)
        shutil.rmtree(f"{room}/{crate}")
    return len(edits) - len(failed), len(failed)


def main():
    words = parser("edits", __doc__)
    words.add_argument("crates", metavar="CRATE", nargs="*")
    names, deps = words.parse_args().crates, uses_of(ROOT)
    try:
        edits = {it: edits_of(ROOT, it) for it in deps}
    except Malformed as trouble:
        raise SystemExit(re.sub("^", "edits: ", str(trouble), flags=re.M)) from None
    every = [it for it in deps if edits[it]]
    lacking = [it for it in names if it not in every]
    if lacking:
        raise SystemExit(f"edits: no crate {lacking[0]} has edits")
    crates = sorted(names or every, key=lambda it: -len(edits[it]))
    toolchain = subprocess.run(["rt", "version"], stdout=subprocess.PIPE, text=True, check=True).stdout
    free = int(re.search(r"^MemAvailable:\s+(\d+)", pathlib.Path("/proc/meminfo").read_text(encoding="utf-8"), re.M)[1])
    lanes = max(1, min(len(os.sched_getaffinity(0)), free // CHECK_KIB))
    with tempfile.TemporaryDirectory(prefix="edits-") as room, ThreadPoolExecutor(lanes) as pool:
        runs = [pool.submit(try_crate, it, edits[it], sum_of(it, deps, toolchain), room) for it in crates]
        results = [it.result() for it in runs]
    refused, others = (sum(column) for column in zip(*results))
    print(f"edits: {refused} of {refused + others} edits of {len(crates)} crates were refused")
    return 1 if others else 0


sys.exit(main())
