"""The archive: one folder with the files of an installation, as below PREFIX, with a text, a script that installs, and checksums."""

import gzip
import io
import os
import pathlib
import tarfile
import tempfile

from tools.packing.folder import write
from tools.packing.layout import Entry, Link, PAGE, checksums, entry

ORIGINS = {
    True: "Both programs were proved and built from the sources of this version",
    False: "A program was built elsewhere, and put into this archive as it was",
}
BROWSER = "The file `{page}` has both programs, too: a browser opens it from here, and no byte leaves it.\n\n"


def has_page(contents):
    return any(each.place == PAGE for each in contents.entries)


def text(root, contents):
    """INSTALL, by its form in share/package."""
    form = pathlib.Path(root, "share/package/INSTALL").read_text(encoding="utf-8")
    commit = contents.version.commit if contents.are_built else None
    origin = ORIGINS[contents.are_built] + (f" (commit {commit})" if commit else "")
    page = BROWSER.format(page=os.path.basename(PAGE)) if has_page(contents) else ""
    return form.format(version=contents.version.name, origin=origin, library=contents.library, page=page).encode()


def archived(root, contents):
    """The files of the archive's folder, in order."""
    entries = [*contents.entries, Entry("INSTALL", 0o644, text(root, contents)), entry(f"{root}/share/package/install", "install", 0o755)]
    if has_page(contents):
        entries.append(Link(os.path.basename(PAGE), PAGE))
    entries.sort(key=lambda each: each.place)
    return [*entries, Entry("SHA256SUMS", 0o644, checksums("sha256", entries))]


def tar(top, seconds, entries):
    """The bytes of the archive: equal for equal files, whoever makes it, and when."""
    def told(member):
        member.mtime, member.uid, member.gid, member.uname, member.gname = seconds, 0, 0, "", ""
        return member

    packed = io.BytesIO()
    with tempfile.TemporaryDirectory() as folder, tarfile.open(fileobj=packed, mode="w", format=tarfile.USTAR_FORMAT) as file:
        write(folder, entries)
        file.add(folder, top, filter=told)
    return gzip.compress(packed.getvalue(), 9, mtime=0)
