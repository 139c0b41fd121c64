"""The Debian package of both programs, which tools/release makes twice, the same to the byte; lintian is asked about it; it is installed by dpkg in a
root of its own, where each command is asked for one answer; and removed, after which nothing may be left. In a root with an older C library, or an
older Python, it isn't configured.
"""

import os
import pathlib
import re
import shutil
import subprocess

import pytest

from tests import ROOT
from tests.packaging.parts import first_answers
from tests.shared.rows import same, write

pytestmark = pytest.mark.xdist_group("packaging/package")
STATUS = """\
Package: {name}
Status: install ok installed
Maintainer: nobody <nobody@example.org>
Architecture: amd64
Version: {version}
Description: a stand-in

"""


def call(command, **more):
    return subprocess.run(command, stdin=subprocess.DEVNULL, capture_output=True, text=True, check=False, **more)


def made(folder, mask, variables):
    """The files that tools/release makes in a new folder, by a mask."""
    os.mkdir(folder)
    ended = call(["/bin/sh", "-c", f'umask {mask}; exec "$0" "$@"', os.path.join(ROOT, "tools", "release"), folder], env={**os.environ, **variables})
    assert ended.returncode == 0, ended.stderr
    return {file: pathlib.Path(folder, file).read_bytes() for file in sorted(os.listdir(folder))}


@pytest.fixture(scope="module")
def package(shared_folder, proved, iptsim, iptaudit):
    """The package, after it was made twice, with other times of the sources' files and another mask."""
    if shutil.which("dpkg-deb") is None:
        pytest.skip("dpkg-deb isn't there")
    variables = {"IPTSIM": iptsim.path, "IPTAUDIT": iptaudit.path, "IPTSIM_PAGE": first_answers.stand_in_page(shared_folder)}
    one, two = (made(os.path.join(shared_folder, name), mask, variables) for name, mask in (("one", "022"), ("two", "077")))
    assert [file for file in one.keys() | two.keys() if one.get(file) != two.get(file)] == []
    return os.path.join(shared_folder, "one", next(file for file in one if file.endswith(".deb")))


def field(package, name):
    return call(["dpkg-deb", "--field", package, name]).stdout.strip()


def test_version(package):
    version = re.escape(pathlib.Path(ROOT, "VERSION").read_text(encoding="ascii").strip())
    assert re.fullmatch(version + r"(\+changed|\+unversioned)?", field(package, "Version"))


def test_needs(package, iptsim, iptaudit):
    """The number of the C library is the largest that ldd names."""
    said = "".join(call(["ldd", "-v", program.path]).stdout for program in (iptsim, iptaudit))
    needed = re.findall(r"^\t\tlibc\.so\.6 \(GLIBC_([0-9.]+)\)", said, re.MULTILINE)
    newest = max(needed, key=lambda each: [int(part) for part in each.split(".")])
    assert field(package, "Depends") == f"libc6 (>= {newest}), python3 (>= 3.9)"


@pytest.mark.skipif(not shutil.which("lintian"), reason="lintian isn't there")
def test_lintian(package):
    # Without strip, programs have symbols.
    suppressed = [] if shutil.which("strip") else ["--suppress-tags", "unstripped-binary-or-object"]
    ended = call(["lintian", "--fail-on", "error", *suppressed, package])
    assert (ended.returncode, [line for line in ended.stdout.splitlines() if line.startswith("E: ")]) == (0, [])


def new_root(root, library, python):
    """A root for dpkg, in which the C library and Python count as installed in these versions."""
    status = STATUS.format(name="libc6", version=library) + STATUS.format(name="python3", version=python)
    write(os.path.join(root, "var/lib/dpkg"), {"updates/": b"", "triggers/": b"", "arch": b"amd64\n", "info/libc6.list": b"", "info/python3.list": b"",
                                               "status": status.encode()})


def dpkg(root, *words):
    path = os.environ["PATH"] + ":/usr/sbin:/sbin"
    return call(["dpkg", f"--root={root}", f"--log={root}/var/log-of-dpkg", *words], env=dict(os.environ, LC_ALL="C", PATH=path))


def files_of(root):
    """What lies in a root, but for what dpkg keeps."""
    return sorted(os.path.relpath(os.path.join(folder, name), root) for folder, inner, names in os.walk(root) for name in inner + names
                  if not os.path.relpath(folder, root).startswith("var") and name != "var")


# Where Debian wants files: completion for zsh, compressed manual pages, the licence.
PAGES = [f"usr/share/man/man1/{name}.gz" for name in os.listdir(os.path.join(ROOT, "docs")) if name.endswith(".1")]
PLACES = sorted(["usr/share/zsh/vendor-completions/_iptsim", "usr/share/doc/iptsim/copyright", "usr/share/doc/iptsim/changelog.gz", *PAGES])


def files_in(package):
    listed = call(["dpkg-deb", "--contents", package]).stdout
    return sorted(re.findall(r" \./(\S+?)/?(?: -> \S+)?$", listed, re.MULTILINE))


def test_places(package):
    assert [place for place in files_in(package) if re.search(r"/_iptsim$|/copyright$|/LICENSE$|/changelog|/man1/.", place)] == PLACES


@pytest.fixture
def root(folder):
    """An empty root, where dpkg may make one."""
    if os.geteuid() != 0:
        pytest.skip("dpkg may install into a root of its own for root alone")
    return os.path.join(folder, "root")


def test_install(package, root, folder):
    """The package in a root of its own; and by which Python its scripts are run."""
    new_root(root, "2.36-9", "3.11.2-1")
    ended = dpkg(root, "--install", package)
    assert (ended.returncode, ended.stderr) == (0, "")
    first_answers.ask(os.path.join(root, "usr", "bin"), first_answers.path_of_links(os.path.join(folder, "links")))
    same(("\n".join(files_in(package)),), ("\n".join(files_of(root)),))
    starters = [path.read_bytes() for path in pathlib.Path(root, "usr", "lib", "iptsim", "bin").iterdir()]
    assert {python for starter in starters for python in re.findall(rb"\bexec (\S+)", starter)} == {b"/usr/bin/python3"}
    ended = dpkg(root, "--remove", "iptsim")
    assert (ended.returncode, ended.stderr, files_of(root)) == (0, "", [])
    ended = dpkg(root, "--status", "iptsim")
    assert (ended.returncode, ended.stdout) == (1, "")


@pytest.mark.parametrize("library, python, missing", [("2.19-18", "3.11.2-1", "libc6"), ("2.36-9", "3.7.3-1", "python3")], ids=["libc6", "python3"])
def test_older(library, python, missing, package, root):
    new_root(root, library, python)
    ended = dpkg(root, "--install", package)
    assert (ended.returncode, re.findall(r"iptsim depends on (\S+) ", ended.stderr)) == (1, [missing])
