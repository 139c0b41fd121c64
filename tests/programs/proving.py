"""bin/iptsim and bin/iptaudit in a copy of the sources, with a stand-in for rt: what they build and when, and what they say."""

import os
import re

import pytest

from tests import ROOT
from tests.shared.checkouts import LACKS, Checkout

# It notes its calls. A source may change while `table` is built, and a crate may be broken.
RT = """#!/bin/bash
crate="$(basename "$PWD")"
echo "$crate: $*" >>"$CALLS"
cat >>"$CALLS.input"
if [ -n "${CHANGED-}" ] && [ "$crate" = table ]; then
  sleep 0.1
  touch "$CHANGED"
fi
if [ "$crate" = "${BROKEN-}" ]; then
  echo "$crate is not proved"
  exit 1
fi
if [ "$1" = run ]; then
  mkdir -p out
  cp "$BUILT" "out/$crate"
fi
"""
CRATES = {
    "iptsim": "fields rules bits classify table restore sessions programs iptsim".split(),
    "iptaudit": "fields notation rules bits classify table questions restore sessions programs dumps rulesets audits reports iptaudit".split(),
}
RUNS = {"iptsim": "iptsim: run -- session", "iptaudit": "iptaudit: run -- dead /dev/null"}
TAKES = """iptsim: the program is proved and built first: from nothing, some 40 minutes of one core on an idle machine, up to 70 on a slow one
iptsim: that takes 3 to 5 GB of memory, and about 5 GB of disk under crates/*/out; bin/quick answers within two minutes, without a proof
"""
READY = {"iptsim": ", and tools/release packs it.*", "iptaudit": ""}
SHOWN = "<><two words>a line"
FOLDERS = [f"crates/{crate}/{folder}" for crate in CRATES["iptsim"] for folder in ("src", "specs", "proofs")]
# The status of a call, and how many calls of rt it made.
BUILDS, SILENT = {name: (7, len(crates)) for name, crates in CRATES.items()}, (7, 0)


def first_of(folder):
    """The first file of a folder, with all that is below it."""
    return min((os.path.relpath(os.path.join(path, name), ROOT) for path, _, names in os.walk(os.path.join(ROOT, folder)) for name in names), default=None)


# A file of each folder of each crate on which iptsim stands, and what says on which.
SOURCES = ["crates.txt", "crates/fields/src/text/tap.rt", *filter(None, map(first_of, FOLDERS))]


def called(copy, name, path=None, **variables):
    """A call, and how many calls of rt it made; then what it wrote, and these calls. None of these reads the input, and the program runs where the caller
    stands."""
    status, output, errors, calls = copy.run([path or copy.path("bin", name), "", "two words"], cwd=copy.work, **variables)
    assert copy.noted(".input") == ""
    assert status != 7 or copy.noted(".folder") == copy.work + "\n"
    return (status, len(calls)), output, errors, calls


@pytest.fixture(scope="module")
def shared_copy(shared_folder):
    return Checkout(shared_folder, RT)


@pytest.fixture
def copy(shared_copy):
    """The copy, where iptsim is built."""
    called(shared_copy, "iptsim")
    return shared_copy


@pytest.mark.parametrize("name", CRATES)
def test_first_call(name, folder):
    """It says first what the proof takes, then each crate, and in the end where the program lies. Without rt nothing is made."""
    copy = Checkout(folder, RT)
    assert called(copy, name, PATH=copy.without_rt()) == ((1, 0), "", LACKS % name, [])
    assert not os.path.exists(copy.path("crates", name, "out"))
    came, output, errors, calls = called(copy, name)
    assert (came, output, calls[-1]) == (BUILDS[name], SHOWN, RUNS[name])
    assert name != "iptsim" or errors.startswith(TAKES)
    count = len(CRATES[name])
    due = [f"{name}: {text}" for crate in CRATES[name] for text in (f"proving and building {crate}, [0-9]+ of {count}", f"{crate} took [0-9]+ seconds")]
    due.append(f"{name}: built in [0-9]+ seconds; crates/{name}/out/{name} runs by itself{READY[name]}")
    assert [line for line in due if not re.search(f"(?m)^{line}$", errors)] == []
    assert called(copy, name) == (SILENT, SHOWN, "message\n", [])


@pytest.mark.parametrize("place", SOURCES)
def test_changed_source(place, copy):
    """It is seen by one call, and not by the next."""
    copy.change(f"touch {place}")
    assert [called(copy, "iptsim")[0] for _ in range(2)] == [BUILDS["iptsim"], SILENT]


def test_source_of_another_crate(copy):
    copy.change("touch crates/rule_tests/src/lib.rt")
    assert called(copy, "iptsim")[0] == SILENT


def test_source_that_changes_while_it_builds(copy):
    """It is newer than the program afterwards."""
    copy.change("touch crates.txt")
    assert called(copy, "iptsim", CHANGED=copy.path("crates/rules/src/lib.rt"))[0] == BUILDS["iptsim"]
    assert [called(copy, "iptsim")[0] for _ in range(2)] == [BUILDS["iptsim"], SILENT]


def test_link(copy, folder):
    """Called by a link, it is the same program."""
    linked = os.path.join(folder, "linked")
    os.symlink(copy.path("bin/iptsim"), linked)
    assert called(copy, "iptsim", linked)[0] == SILENT
    copy.change("touch crates.txt")
    assert called(copy, "iptsim", linked)[0] == BUILDS["iptsim"]


@pytest.mark.parametrize("crate, count", [("fields", 1), ("iptsim", len(CRATES["iptsim"]))])
def test_crate_that_is_not_proved(crate, count, copy):
    """What rt writes is shown, and the program isn't run."""
    removed = first_of("crates/table/src")
    copy.change(f"rm {removed}; touch crates/table/src")
    came, output, errors, _ = called(copy, "iptsim", BROKEN=crate)
    assert (came, output) == ((1, count), "") and f"{crate} is not proved\n" in errors
    assert called(copy, "iptsim")[0] == BUILDS["iptsim"]
    copy.change(f"touch {removed}")


def test_sources_of_iptaudit(copy):
    """Those on which iptsim doesn't stand are seen by iptaudit alone."""
    called(copy, "iptaudit")
    copy.change("touch crates/questions/src/lib.rt")
    assert [called(copy, "iptsim")[0], called(copy, "iptaudit")[:2]] == [SILENT, (BUILDS["iptaudit"], SHOWN)]
    assert called(copy, "iptaudit", BROKEN="iptaudit")[0] == SILENT
    copy.change("touch crates/questions/src/lib.rt")
    assert [called(copy, "iptsim")[0], called(copy, "iptaudit", BROKEN="fields")[:2]] == [SILENT, ((1, 1), "")]
