"""Files that are written into a folder."""

import os
import pathlib
import tempfile

from tools.packing.layout import Link


def write(folder, entries):
    for each in entries:
        path = pathlib.Path(folder, each.place)
        path.parent.mkdir(parents=True, exist_ok=True)
        if isinstance(each, Link):
            path.symlink_to(each.target)
        else:
            path.write_bytes(each.data)
            path.chmod(each.mode)
    for inner, _, _ in os.walk(folder):
        os.chmod(inner, 0o755)


def put(path, data):
    """Puts a file in place when it is whole."""
    folder, name = os.path.split(os.path.abspath(path))
    with tempfile.NamedTemporaryFile(dir=folder, prefix=f".{name}.", delete=False) as file:
        try:
            file.write(data)
            file.close()
            os.chmod(file.name, 0o644)
            os.replace(file.name, path)
        except BaseException:
            os.unlink(file.name)
            raise
