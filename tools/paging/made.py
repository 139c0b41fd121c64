"""The page of these sources: WebAssembly of both programs, which is kept for the next time, and the document."""

import concurrent.futures
import fcntl
import hashlib
import os
import pathlib
import sys
import tempfile

from tools.packing import need
from tools.packing.programs import PROGRAMS, find_program, told, with_version
from tools.paging.bitcode import bitcode
from tools.paging.document import page
from tools.paging.kit import Kit
from tools.paging.wasm import compiled, linked, machine


def note(text):
    print(f"page: {text}", file=sys.stderr)


def digest(paths, *texts):
    parts = [*(pathlib.Path(path).read_bytes() for path in paths), *(text.encode() for text in texts)]
    return hashlib.sha256(b"".join(hashlib.sha256(part).digest() for part in parts)).hexdigest()


class Maker:
    """What is made for the page of the sources in `root`, in the folder web/out."""

    def __init__(self, root):
        self.root, self.kit, self.out = root, Kit(), os.path.join(root, "web", "out")
        os.makedirs(self.out, exist_ok=True)

    def kept(self, name, known, make):
        """The file `name` of web/out, which is made where it isn't the one of what is known: `make` writes it to a path in a folder."""
        path, note_of = (pathlib.Path(self.out, each) for each in (name, f"{name}.of"))
        if not (path.exists() and note_of.exists() and note_of.read_text(encoding="ascii") == known):
            with tempfile.TemporaryDirectory(dir=self.out) as work:
                os.replace(make(work), path)
            note_of.write_text(known, encoding="ascii")
        return str(path)

    def object(self, name):
        """The path of a program's object file for WebAssembly."""
        program, is_built = find_program(self.root, name)
        need(is_built, f"the page takes the program of these sources alone, and not the one that {PROGRAMS[name].variable} names")

        def make(work):
            note(f"building {name} once more, for the page; this takes some minutes")
            return compiled(self.kit, name, bitcode(self.root, self.kit, name, program, work), work)

        scripts = [os.path.join(os.path.dirname(__file__), script) for script in ("bitcode.py", "wasm.py")]
        return self.kept(f"{name}.wasm.o", digest([program, *scripts], self.kit.identity), make)

    def wasm(self, name, sources):
        """The bytes of a program, linked with the files of web/machine that lie in a folder."""
        made = self.object(name)
        with tempfile.TemporaryDirectory(dir=self.out) as work:
            path = os.path.join(work, name)
            linked(self.kit, [made, *machine(self.kit, sources, work)], path)
            return pathlib.Path(path).read_bytes()


def make_page(root, version, worker=None, sources=None):
    """The page. `worker` is the text of its Worker, and `sources` a folder, where others than those of web are to be tried."""
    maker, web = Maker(root), os.path.join(root, "web")
    with open(os.path.join(maker.out, "lock"), "w", encoding="ascii") as lock:
        fcntl.flock(lock, fcntl.LOCK_EX)
        with concurrent.futures.ThreadPoolExecutor(len(PROGRAMS)) as pool:
            made = list(pool.map(lambda name: maker.wasm(name, sources or os.path.join(web, "machine")), PROGRAMS))
    programs = {name: with_version(name, data, version) for name, data in zip(PROGRAMS, made)}
    return page(web, programs, worker or pathlib.Path(web, "worker.js").read_text(encoding="utf-8"), told(version))
