"""What tests ask for by name: the programs, and folders for their files. The programs are the proved ones of crates/*/out, or those that
options of pytest name: `--iptsim PATH` and the like. With `--quick` they are built without a proof.
"""

import collections
import fcntl
import json
import os
import subprocess
import tempfile

import pytest

from tests import ROOT
from tests.shared.installed import install
from tests.shared.rows import BIN, Command

# The programs, with the words with which each reads blank lines to their end.
PROGRAMS = {"iptsim": ["session"], "iptaudit": ["cover", "/dev/null"], "calls": ["conditions"], "dump_cases": []}


# The files whose tests take longest: they come first, so that no processor has one of them alone in the end.
LONGEST = ("page/page.py", "memory/faults.py", "costs/beside_figures.py", "memory/starved.py", "devices/cut.py", "answers/compare.py", "answers/asked.py")


def pytest_addoption(parser):
    group = parser.getgroup("programs")
    for name in PROGRAMS:
        place = os.path.join("crates", name, "out", name)
        group.addoption(f"--{name}", metavar="PATH", default=os.path.join(ROOT, place), help=f"the program {name}, in place of {place}")
    group.addoption("--quick", action="store_true", help="programs that are built without a proof, in one or two minutes each")
    group.addoption("--pictures", metavar="FOLDER", help="where pictures of the page's views go")
    drawn = parser.getgroup("cases")
    drawn.addoption("--seed", default="1", help="what is drawn at random, which is the same for the same word")
    drawn.addoption("--cases", metavar="WORD", action="append", default=[], help="the cases of crates/cases/data whose file or name has the word")
    drawn.addoption("--refuse", choices=["some", "all", "none"], default="some", help="of how many cases each allocation is refused")
    drawn.addoption("--times", type=int, default=1, help="draws so many times as many cases")


def pytest_configure(config):
    """Tests of one group have one worker, and the others go to whichever is free, however many `-n` asks for."""
    if getattr(config.option, "dist", None) == "load":
        config.option.dist = "loadgroup"


def pytest_collection_modifyitems(items):
    places = {os.path.join(ROOT, "tests", name): place for place, name in enumerate(LONGEST)}
    items.sort(key=lambda item: places.get(str(item.path), len(LONGEST)))


@pytest.fixture(scope="session")
def seed(pytestconfig):
    return pytestconfig.getoption("seed")


@pytest.fixture(scope="session")
def times(pytestconfig):
    return pytestconfig.getoption("times")


@pytest.fixture(scope="session")
def cases(pytestconfig):
    return tuple(pytestconfig.getoption("cases"))


@pytest.fixture(scope="session")
def refuse(pytestconfig):
    return "none" if pytestconfig.getoption("quick") else pytestconfig.getoption("refuse")


@pytest.fixture
def sum_up(tmp_path_factory, pytestconfig):
    """Adds counts to those of the other parts of a test, which may run in other processes, by the test's name: their sum, where so many parts have
    ended; else nothing."""
    folder = tmp_path_factory.getbasetemp()
    folder = folder.parent if hasattr(pytestconfig, "workerinput") else folder

    def summed(name, parts, counts):
        with open(folder / name, "a+", encoding="utf-8") as file:
            fcntl.flock(file, fcntl.LOCK_EX)
            file.write(json.dumps(counts) + "\n")
            file.flush()
            file.seek(0)
            found = [collections.Counter(json.loads(line)) for line in file]
        return sum(found, collections.Counter()) if len(found) == parts else None

    return summed


def program(config, name):
    """A program, which has to be there."""
    path = os.path.abspath(config.getoption(name))
    if config.getoption("quick"):
        path = os.path.join(ROOT, "crates", name, "out", name + "-quick")
        ended = subprocess.run([os.path.join(ROOT, "tools", "unproved"), name, *PROGRAMS[name]], stdin=subprocess.DEVNULL, capture_output=True, check=False)
        assert ended.returncode == 0, ended.stderr.decode()
    if not os.access(path, os.X_OK):
        pytest.fail(f"{path} isn't there, or can't be run: prove and build it, or name another by --{name}", pytrace=False)
    return Command(path)


def fixture_of(name):
    return pytest.fixture(scope="session", name=name)(lambda pytestconfig: program(pytestconfig, name))


iptsim, iptaudit, calls, dump_cases = map(fixture_of, PROGRAMS)


@pytest.fixture
def folder():
    """An empty folder, which goes with the test."""
    with tempfile.TemporaryDirectory() as path:
        yield os.path.realpath(path)


@pytest.fixture(scope="session")
def command(iptsim, iptaudit):
    """The commands for users by their names: they ask both programs."""
    return lambda name: Command(os.path.join(BIN, name), IPTSIM=iptsim.path, IPTAUDIT=iptaudit.path)


@pytest.fixture
def installed(iptsim, iptaudit, folder):
    """The same, installed into an empty folder."""
    return lambda name: Command(*install(folder, name), IPTSIM=iptsim.path, IPTAUDIT=iptaudit.path)


@pytest.fixture(scope="module")
def shared_folder():
    """An empty folder for all tests of a file."""
    with tempfile.TemporaryDirectory() as path:
        yield os.path.realpath(path)


@pytest.fixture(scope="session")
def proved(pytestconfig):
    """That the programs are proved ones: others are slow, can't be refused memory from outside, and need more than the C library."""
    if pytestconfig.getoption("quick"):
        pytest.skip("the programs aren't proved")
