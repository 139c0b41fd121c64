"""The two programs: where each comes from, what it needs, whether it answers as it must, and the commit that it names; and the version of what is
packed, and the commit that it is made of."""

import collections
import os
import pathlib
import re
import subprocess
import sys
import tempfile

from tools.packing import Failure, need
from tools.packing.folder import write
from tools.packing.layout import Entry

# What the programs' sources have beside the version, and tools/release writes the first digits of the commit's hash over.
UNRELEASED = "not released"
# ldd names the loader, and what the kernel gives, beside the libraries.
LIBRARIES = {"linux-vdso.so.1", "libc.so.6", "/lib64/ld-linux-x86-64.so.2"}
GLIBC = re.compile(r"^\t\tlibc\.so\.6 \(GLIBC_([0-9.]+)\) ", re.MULTILINE)

# The variable that names a program, the words that build it and do nothing else, and a question with the answer that is due.
Known = collections.namedtuple("Known", "variable building words given status output")
PROGRAMS = {
    "iptsim": Known("IPTSIM", ["session"], ["session"], """\
iptables -A INPUT -s 192.0.2.0/24 -p tcp --dport 22 -j DROP
packet INPUT src=192.0.2.7 dst=198.51.100.1 proto=tcp sport=40000 dport=22
packet INPUT src=192.0.2.7 dst=198.51.100.1 proto=tcp sport=40000 dport=23
iptables -S INPUT
""", 0, """\
INPUT 1
verdict DROP by rule
verdict ACCEPT by policy
-P INPUT ACCEPT
-A INPUT -s 192.0.2.0/24 -p tcp -m tcp --dport 22 -j DROP
"""),
    "iptaudit": Known("IPTAUDIT", ["dead", "/dev/null"], ["dead", "/dev/stdin"], """\
*filter
-A INPUT -s 192.0.2.0/24 -j DROP
-A INPUT -s 192.0.2.7/32 -j ACCEPT
COMMIT
""", 1, """\
dead INPUT 2 -A INPUT -s 192.0.2.7/32 -j ACCEPT
  taken by INPUT 1 (DROP)
2 rules, 1 dead, 0 unclear
0 redundant, 1 shadowed
"""),
}

# A program that is packed: its bytes, and whether it was built from these sources.
Program = collections.namedtuple("Program", "data is_built library")

# What the version is named in names of files, the number alone, the commit's hash where the sources are those of it, and the
# commit's time.
Version = collections.namedtuple("Version", "name number commit seconds")
# All that the programs and the files of an installation are made of.
SOURCES = ("VERSION", "CHANGELOG.md", "LICENSE", "crates.txt", "crates", "bin", "commands", "docs", "examples", "share", "tests", "tools", "web")


def note(text):
    print(f"release: {text}", file=sys.stderr)


def git(root, *words):
    ended = subprocess.run(["git", "-C", root, *words], stdout=subprocess.PIPE, text=True, check=False)
    need(not ended.returncode, "git names no commit of this repository")
    return ended.stdout


def find_version(root):
    """The version of a repository's files: `+changed` where one isn't as committed, and `+unversioned` outside of git."""
    try:
        told = pathlib.Path(root, "VERSION").read_text(encoding="ascii").strip()
    except OSError as error:
        raise Failure(f"the file VERSION can't be read: {error.strerror}") from error
    if not os.path.exists(os.path.join(root, ".git")):
        return Version(told + "+unversioned", told, None, 0)
    seconds, commit = git(root, "rev-list", "--max-count=1", "--timestamp", "HEAD").split()
    if git(root, "status", "--porcelain", "--untracked-files=normal", "--", *SOURCES):
        return Version(told + "+changed", told, None, int(seconds))
    return Version(told, told, commit, int(seconds))


def find_program(root, name):
    """The program's path, which is proved and built first where it has to be, and whether it is that of these sources."""
    known = PROGRAMS[name]
    given = os.environ.get(known.variable)
    if given:
        path = os.path.realpath(given)
        need(os.path.isfile(path), f"{known.variable} names no file: {given}")
        note(f"the program {name} is the one that {known.variable} names, whether it is proved or not")
        return path, False
    command = [os.path.join(root, "bin", name), *known.building]
    need(not subprocess.run(command, stdin=subprocess.DEVNULL, stdout=subprocess.DEVNULL, check=False).returncode, f"the program {name} is not built")
    return os.path.join(root, "crates", name, "out", name), True


def find_library(path):
    """The version of the C library that the program needs. It may need no other library."""
    ended = subprocess.run(["ldd", "-v", path], capture_output=True, text=True, check=False, env=dict(os.environ, LC_ALL="C"))
    need(not ended.returncode, f"this is no program for this machine, as ldd says: {path}")
    needed = [line.split()[0] for line in ended.stdout.partition("\n\n")[0].splitlines()]
    others = [library for library in needed if library not in LIBRARIES]
    need(not others, f"the program needs more than the C library, so it isn't the proved one: {' '.join(others)}")
    return max(GLIBC.findall(ended.stdout), key=numbers, default="0")


def numbers(version):
    return [int(part) for part in version.split(".")]


def answer(name, path, words, given):
    try:
        ended = subprocess.run([path, *words], input=given.encode(), capture_output=True, check=False, timeout=60)
    except (OSError, subprocess.TimeoutExpired) as error:
        raise Failure(f"the program {name} can't be asked: {path}: {error}") from error
    return ended.returncode, ended.stdout.decode(errors="replace")


def ask(name, path):
    """Ends with a failure unless the program answers its question as it must."""
    known = PROGRAMS[name]
    status, output = answer(name, path, known.words, known.given)
    if (status, output) != (known.status, known.output):
        raise Failure(f"this isn't {name}, or it is broken: {path} ends with status {status}, where {known.status} is due, and"
                      f" answers\n{output}where this is due:\n{known.output.rstrip()}")


def told(version):
    """What a program prints as its version, after its name."""
    return f"{version.number} ({version.commit[:len(UNRELEASED)] if version.commit else UNRELEASED})"


def with_version(name, data, version):
    place = f"{version.number} ({UNRELEASED})".encode()
    need(data.count(place) == 1, f"the program {name} has the text '{place.decode()}' in {data.count(place)} places, and not in one")
    return data.replace(place, told(version).encode())


def with_commit(name, data, version):
    """The program's bytes with the commit in its place, after it was asked for its version."""
    data = with_version(name, data, version)
    with tempfile.TemporaryDirectory() as work:
        write(work, [Entry(name, 0o755, data)])
        said = answer(name, os.path.join(work, name), ["--version"], "")
    need(said == (0, f"{name} {told(version)}\n"), f"the program {name} doesn't print '{name} {told(version)}' as its version: {said[1].rstrip()}")
    return data


def packed(root, name, version):
    """A program that is ready to be packed. One that was built elsewhere is taken as it is."""
    path, is_built = find_program(root, name)
    library = find_library(path)
    ask(name, path)
    data = pathlib.Path(path).read_bytes()
    return Program(with_commit(name, data, version) if is_built and version.commit else data, is_built, library)
