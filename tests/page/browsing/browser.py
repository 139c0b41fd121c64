"""What both browsers have in common: they are started and ended, and say something up to a sign."""

import os
import subprocess


class BrowserFailure(Exception):
    """Why a browser gives no answer."""


class Browser:
    def start(self, words, folder, **how):
        with open(os.path.join(folder, "log"), "wb") as log:
            self.process = subprocess.Popen(words, stdin=subprocess.DEVNULL, stdout=log, stderr=log, **how)

    def told(self, stream, sign):
        """What a stream has up to a sign."""
        told = bytearray()
        while not told.endswith(sign):
            byte = stream.read(1)
            if not byte:
                raise BrowserFailure(f"{self.name} has ended")
            told += byte
        return told[:-len(sign)]

    def close(self):
        self.process.terminate()
        try:
            self.process.wait(10)
        except subprocess.TimeoutExpired:
            self.process.kill()
            self.process.wait()
