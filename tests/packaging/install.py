"""The archive of both programs, made by tools/release, and what is installed of it. Each command is asked for one answer, to the byte: from the
archive that is unpacked into an empty folder, with a PATH of coreutils and python3 alone; installed from there by its script; and installed from
the sources by `make install`, which has to give the same files. What is installed is taken away again, and nothing may be left. The commands of
the guide are gone through with those of the archive, and with its examples.

Each first answer comes within a second of a processor.
"""

import os
import pathlib
import shutil
import stat
import subprocess

import pytest

from tests import ROOT
from tests.documents import guide
from tests.packaging.parts import first_answers
from tests.shared.installed import follow
from tests.shared.rows import same
from tools.completing.table import read_commands

pytestmark = pytest.mark.xdist_group("packaging/install")
NAMED = "".join(f"release: the program {name} is the one that {name.upper()} names, whether it is proved or not\n" for name in ("iptsim", "iptaudit"))
NAMED += "release: the page is the one that IPTSIM_PAGE names\n"


def ran(command, environment, messages="", cwd=None):
    """Runs a command that has to end with status 0 and write these messages to standard error."""
    ended = subprocess.run(command, env=environment, cwd=cwd, stdin=subprocess.DEVNULL, capture_output=True, check=False)
    same((0, messages.encode()), (ended.returncode, ended.stderr), " ".join(command))


def tree(folder):
    """What lies in a folder, with modes and bytes, or what a link names."""
    found = {}
    for path in pathlib.Path(folder).rglob("*"):
        data = os.readlink(path) if path.is_symlink() else b"" if path.is_dir() else path.read_bytes()
        found[str(path.relative_to(folder))] = (stat.filemode(path.lstat().st_mode), data)
    return found


def differing(due, came):
    return sorted(place for place in due.keys() | came.keys() if due.get(place) != came.get(place))


@pytest.fixture(scope="module")
def packing(shared_folder, proved, iptsim, iptaudit):
    """The environment in which both programs are packed, with a page."""
    return {**os.environ, "IPTSIM": iptsim.path, "IPTAUDIT": iptaudit.path, "IPTSIM_PAGE": first_answers.stand_in_page(shared_folder)}


@pytest.fixture(scope="module")
def environment(shared_folder):
    return first_answers.path_of_links(os.path.join(shared_folder, "links"))


@pytest.fixture(scope="module")
def top(shared_folder, environment, packing):
    """The folder of the archive, where it is unpacked."""
    ran([os.path.join(ROOT, "tools", "release"), shared_folder], packing, NAMED)
    archive = next(name for name in os.listdir(shared_folder) if name.endswith(".tar.gz"))
    ran(["tar", "-xzf", archive], dict(os.environ), cwd=shared_folder)
    path = os.path.join(shared_folder, archive[:-len("-x86_64.tar.gz")])
    ran(["sha256sum", "--quiet", "-c", "SHA256SUMS"], environment, cwd=path)
    return path


def installed_of(top):
    return {place: each for place, each in tree(top).items() if place.split("/")[0] in ("bin", "lib", "share")}


def test_rows():
    assert sorted(first_answers.ROWS) == sorted(read_commands(ROOT))


@pytest.mark.parametrize("word", ["--help", "PREFIX=here", "DESTDIR=here", "here"])
def test_words(word, top, environment):
    usage = b"usage: ./install [--remove] [PREFIX=FOLDER] [DESTDIR=FOLDER], where each FOLDER begins with /\n"
    ended = subprocess.run([os.path.join(top, "install"), word], env=environment, capture_output=True, check=False)
    same((2, b"", usage), (ended.returncode, ended.stdout, ended.stderr))


def test_folder(top, environment):
    """The archive in a folder, which has no more afterwards than before."""
    before = tree(top)
    first_answers.ask(os.path.join(top, "bin"), environment)
    assert differing(before, tree(top)) == []


def test_install(top, environment, folder):
    due, words, prefix = installed_of(top), ["PREFIX=/opt/of its own", f"DESTDIR={folder}"], os.path.join(folder, "opt", "of its own")
    ran(["/bin/sh", "-c", 'umask 077; exec "$0" "$@"', os.path.join(top, "install"), *words], environment)
    assert differing(due, tree(prefix)) == []
    first_answers.ask(os.path.join(prefix, "bin"), environment)
    assert differing(due, tree(prefix)) == []
    ran([os.path.join(top, "install"), "--remove", *words], environment)
    assert {place for place, each in tree(prefix).items() if each[0][0] != "d" or place.split("/")[-1] == "iptsim"} == set()


def test_guide(top, folder):
    documents = pathlib.Path(top, "share", "doc", "iptsim")
    shown = list(guide.commands_of((documents / "GUIDE.md").read_text(encoding="utf-8")))
    shutil.copytree(documents / "examples", os.path.join(folder, "examples"))
    programs = {name: os.path.join(top, "bin", name) for name in read_commands(ROOT)}
    for (command, due), came in zip(shown, follow([command for command, _ in shown], folder, **programs)):
        same((due,), (came,), command)


@pytest.mark.skipif(not shutil.which("make"), reason="make isn't there")
def test_make(top, packing, folder):
    words = ["PREFIX=/usr", f"DESTDIR={folder}"]
    ran(["make", "-s", "-C", ROOT, "install", *words], packing, NAMED)
    assert differing(installed_of(top), tree(os.path.join(folder, "usr"))) == []
    ran(["make", "-s", "-C", ROOT, "uninstall", *words], packing, NAMED)
    assert {place for place, each in tree(folder).items() if each[0][0] != "d"} == set()
