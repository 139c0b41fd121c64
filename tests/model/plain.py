"""`python3 -m tests.model.plain session [--load FILE]`, or `.. restore [--noflush] [--test] [--load FILE]`: what the program answers, by a small and slow
model of it.

It reads standard input, and writes what `iptsim` has to write to standard output and of a fault of FILE, with its status. The model,
in this folder, is written from the manuals and shares nothing with the program: tests/answers/compare compares the two. Where its words are
wrong the status is 2.
"""

import argparse
import pathlib
import sys

from tests.model.session import answer


def main():
    reader = argparse.ArgumentParser(prog="plain")
    reader.add_argument("command", choices=["session", "restore"])
    reader.add_argument("--noflush", action="store_true")
    reader.add_argument("--test", action="store_true")
    reader.add_argument("--load", metavar="FILE", type=pathlib.Path)
    words = reader.parse_args()
    if words.command == "session" and (words.noflush or words.test):
        reader.error("--noflush and --test go with restore")
    options = ["--noflush"] * words.noflush + ["--test"] * words.test
    output, errors, status = answer([words.command, *options], sys.stdin.buffer.read(), words.load and words.load.read_bytes())
    sys.stdout.buffer.write(output)
    sys.stderr.buffer.write(errors)
    return status


if __name__ == "__main__":
    sys.exit(main())
