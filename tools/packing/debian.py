"""The Debian package, by dpkg-deb."""

import email.utils
import gzip
import os
import pathlib
import re
import shutil
import subprocess
import tempfile

from tools.packing import need
from tools.packing.folder import write
from tools.packing.layout import Entry, Link, checksums

DOCUMENTS = "share/doc/iptsim"
# In the starters of commands.
ANY_PYTHON, DEBIANS_PYTHON = b"\nexec python3 ", b"\nexec /usr/bin/python3 "


def compressed(place, data):
    return Entry(place + ".gz", 0o644, gzip.compress(data, 9, mtime=0))


def stripped(data):
    if shutil.which("strip") is None:
        return data
    with tempfile.TemporaryDirectory() as work:
        path = pathlib.Path(work, "program")
        path.write_bytes(data)
        need(not subprocess.run(["strip", "--strip-unneeded", path], check=False).returncode, "strip takes no program's symbols away")
        return path.read_bytes()


def placed(each):
    """A file of an installation as Debian wants it. Links to manual pages aren't made, so only files are compressed."""
    if isinstance(each, Link):
        return each
    if each.data.startswith(b"\x7fELF"):
        return each._replace(data=stripped(each.data))
    if each.place.startswith("share/man/") or each.place == f"{DOCUMENTS}/CHANGELOG.md":
        return compressed(each.place, each.data)
    if each.place == f"{DOCUMENTS}/LICENSE":
        return each._replace(place=f"{DOCUMENTS}/copyright")
    if each.place.startswith("lib/iptsim/bin/"):
        return each._replace(data=each.data.replace(ANY_PYTHON, DEBIANS_PYTHON))
    return each._replace(place=each.place.replace("zsh/site-functions", "zsh/vendor-completions"))


def files(root, contents):
    """All files of the package, those of its control with them, which is made by its form in share/package."""
    entries, version = [placed(each) for each in contents.entries], contents.version
    size = sum(-(-len(each.data) // 1024) for each in entries if isinstance(each, Entry))
    form = pathlib.Path(root, "share/package/control").read_text(encoding="utf-8")
    control = form.format(version=version.name, library=contents.library, size=size)
    maintainer = re.search(r"(?m)^Maintainer: (.*)$", control)[1]
    # Debian's own log of changes, which the policy asks for: it names the other.
    log = (f"iptsim ({version.name}) unstable; urgency=medium\n\n  * CHANGELOG.md has the changes of this version.\n\n"
           f" -- {maintainer}  {email.utils.formatdate(version.seconds)}\n")
    entries.append(compressed(f"{DOCUMENTS}/changelog", log.encode()))
    entries = [each._replace(place=f"usr/{each.place}") for each in sorted(entries, key=lambda each: each.place)]
    return [*entries, Entry("DEBIAN/control", 0o644, control.encode()), Entry("DEBIAN/md5sums", 0o644, checksums("md5", entries))]


def package(root, contents):
    with tempfile.TemporaryDirectory() as work:
        folder, made = f"{work}/package", pathlib.Path(work, "made.deb")
        write(folder, files(root, contents))
        # No file of the package is newer than the commit. With another number of threads xz writes other bytes.
        fixed = dict(os.environ, SOURCE_DATE_EPOCH=str(contents.version.seconds), DPKG_DEB_THREADS_MAX="1")
        call = ["dpkg-deb", "--build", "--root-owner-group", "-Zxz", folder, made]
        need(not subprocess.run(call, stdout=subprocess.DEVNULL, check=False, env=fixed).returncode, "dpkg-deb makes no package")
        return made.read_bytes()
