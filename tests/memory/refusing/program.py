"""A program that is run with one allocation refused."""

import os
import pathlib
import re
import shutil
import subprocess
import tempfile

# What refuses an allocation of a program that it is preloaded into, and what refuses it to open a file.
FOLDER = os.path.dirname(os.path.realpath(__file__))
SOURCE, OPEN = (os.path.join(FOLDER, name) for name in ("refuse.c", "refuse_open.c"))
# In a program that tools/refusing built stands the number of the refused allocation, as the four bytes of a comparison with it. Each run
# has another in its place, since nothing can be preloaded into such a program. No run takes memory so often.
BUILT_FOR = 123456789
SIGN = BUILT_FOR.to_bytes(4, "little")
# Folders above the file that is loaded: a long path takes memory as it is opened.
DEEP = "x" * 200, "x" * 200


def preloaded(folder, source=SOURCE):
    """The environment in which a library, built in a folder, is preloaded into a program, and nothing else is said."""
    library = os.path.join(folder, "refuse.so")
    subprocess.run([os.environ.get("CC", "cc"), "-O2", "-shared", "-fPIC", "-o", library, source], check=True)
    return {"LD_PRELOAD": library}


class RefusingProgram:
    """A copy of the program, in a folder of its own that goes with it, and the file that it loads."""

    def __init__(self, path):
        self.folder = tempfile.TemporaryDirectory()
        self.path, self.load = os.path.join(self.folder.name, "program"), os.path.join(self.folder.name, *DEEP, "file")
        os.makedirs(os.path.dirname(self.load))
        shutil.copy(path, self.path)
        os.chmod(self.path, 0o700)
        self.places = [found.start() for found in re.finditer(re.escape(SIGN), pathlib.Path(self.path).read_bytes())]
        self.environment = None if self.places else preloaded(self.folder.name)

    def refuse(self, number):
        """Has the allocation of a number refused in the next runs."""
        if not self.places:
            self.environment["REFUSED"] = str(number)
            return
        with open(self.path, "r+b") as file:
            for place in self.places:
                file.seek(place)
                file.write(number.to_bytes(4, "little"))

    def run(self, words, data, file=None):
        """What it writes to standard output and to standard error, and its status."""
        if file is not None:
            pathlib.Path(self.load).write_bytes(file)
            words = (*words, "--load", self.load)
        ended = subprocess.run([self.path, *words], input=data, capture_output=True, check=False, env=self.environment)
        return ended.stdout, ended.stderr, ended.returncode
