"""The completions of all commands.

- The table of share/commands.tsv has the subcommands, the options and their values that the help of each command has.
- The files in share/ are those that tools/completions writes of the table.
- bash offers what stands in the rows below: with the file alone, and at a terminal with Debian's bash-completion, which has to find it.
- zsh and fish take their files, and complete lines at a terminal, or as they are asked.
"""

import contextlib
import os
import pty
import re
import select
import shutil
import subprocess
import time

import pytest

from tests import ROOT
from tests.shared.row_files import rows_in
from tests.shared.rows import script, write
from tools.completing.table import read_commands

SHARE = os.path.join(ROOT, "share")
BASH = os.path.join(SHARE, "bash-completion", "completions")
ZSH, FISH_FILES = os.path.join(SHARE, "zsh", "site-functions", "_iptsim"), os.path.join(SHARE, "fish", "vendor_completions.d")
BASH_COMPLETION = "/usr/share/bash-completion/bash_completion"

# Prints the offers for each row, which come as a row of words.
ASK_BASH = """
source "$1"
shift
while IFS= read -r row; do
  IFS='|' read -ra COMP_WORDS <<<"$row"
  case "$row" in *'|') COMP_WORDS+=('') ;; esac
  COMP_CWORD=$((${#COMP_WORDS[@]} - 1))
  COMPREPLY=()
  _iptsim
  printf '%s\\n' "${COMPREPLY[@]}" | LC_ALL=C sort | paste -sd '|'
done
"""
# Keys at a terminal, with a tabulator for each completion, and the words that the command gets then.
TYPED = (
    ("iptsim ses\t--lo\tgateway.\t", "<session><--load><gateway.rules>"),
    ("iptsim res\t--nof\t--te\t", "<restore><--noflush><--test>"),
    ("iptaudit dea\tgateway.\t", "<dead><gateway.rules>"),
    ("iptaudit rea\tgateway.\tFORW\tdpo\t22 b\tdport", "<reach><gateway.rules><FORWARD><dport=22><by=dport>"),
    ("iptsim-che\tgateway.\t", "<gateway.rules>"),
    ("iptsim-fit --assu\tlimit=true gateway.\t", "<--assume><limit=true><gateway.rules>"),
    ("iptsim-expe\toth\tgateway.\t", "<other><gateway.rules>"),
)
# A line, and what fish offers for its last word, but files.
FISH = (
    ("iptsim ", "restore session"),
    ("iptsim restore --", "--help --load --noflush --test"),
    ("iptsim session --", "--help --load"),
    ("iptsim session --load gateway.", "gateway.rules"),
    ("iptaudit reach other INPUT d", "dport= dst="),
    ("iptaudit c", "compare cover"),
    ("iptsim-fit --s", "--services"),
    ("iptsim-check gateway.", "gateway.rules"),
)


def run(command, given="", **more):
    return subprocess.run(command, input=given.encode(), capture_output=True, check=False, **more)


def of_help(text):
    """The subcommands of a help, and its options; `..` stands after one that takes a value."""
    parts = dict(re.findall(r"^(Commands|Options|options|optional arguments):\n((?:  .*\n|\n(?=  ))*)", text, re.MULTILINE))
    commands = re.findall(r"^  ([a-z]+) ", parts.pop("Commands", ""), re.MULTILINE)
    options = re.findall(r"^ +(?:-\w(?: \S+)?, )?(--[a-z][a-z-]*)([ =][<A-Z]\S*)?", "".join(parts.values()), re.MULTILINE)
    return sorted(commands) + sorted(name + (" .." if value else "") for name, value in options)


COMMANDS = read_commands(ROOT)
FORMS = [(name, subcommand) for name in COMMANDS for subcommand in COMMANDS[name].forms]


@pytest.mark.parametrize("name, subcommand", FORMS, ids=[" ".join(row) for row in FORMS])
def test_table(name, subcommand, request, command):
    """The table beside the help of each command, and of each subcommand."""
    asked = command(name[len("iptsim-"):]) if name.startswith("iptsim-") else request.getfixturevalue(name)
    below = sorted(other for other in COMMANDS[name].forms if other) if not subcommand else []
    options = sorted(option.name + (" .." if option.value else "") for option in COMMANDS[name].forms[subcommand].options)
    # The programs write it to standard error, the scripts to standard output.
    ended = run([asked.path, *filter(None, [subcommand]), "--help"])
    assert below + options == of_help((ended.stdout + ended.stderr).decode())


def test_files():
    ended = run([os.path.join(ROOT, "tools", "completions"), "--check"])
    assert (ended.returncode, ended.stdout) == (0, b"")


@pytest.fixture(scope="module")
def work(shared_folder):
    """A folder with files, in its folder `files`, and with commands that print their words, in its folder `tools`."""
    write(shared_folder, {f"files/{name}": b"" for name in ("gateway.rules", "gateway with blanks", "other", "gates/")})
    os.mkdir(os.path.join(shared_folder, "tools"))
    for name in COMMANDS:
        script(os.path.join(shared_folder, "tools", name), "#!/bin/sh\nprintf '<%s>' \"$@\"\necho END\n")
    return shared_folder


ROWS = [(words.decode(), due.decode()) for (words,), (due,) in rows_in("packaging/offered.rows", "><")]


@pytest.fixture(scope="module")
def offers(work):
    """What bash offers for each row, with the file alone."""
    ended = run(["bash", "--norc", "-c", ASK_BASH, "bash", os.path.join(BASH, "iptsim")], "".join(words + "\n" for words, _ in ROWS),
                cwd=os.path.join(work, "files"))
    assert (ended.returncode, ended.stderr) == (0, b"")
    return ended.stdout.decode().split("\n")


@pytest.mark.parametrize("number, words, due", [(number, *row) for number, row in enumerate(ROWS)], ids=[words for words, _ in ROWS])
def test_offers(number, words, due, offers):
    assert len(offers) == len(ROWS) + 1 and offers[number] == due


def start_bash(work):
    """How bash is started at a terminal, with what variables."""
    if not os.path.exists(BASH_COMPLETION):
        pytest.skip("bash-completion isn't there")
    write(work, {"start.bash": f"source {BASH_COMPLETION}\nbind 'set enable-bracketed-paste off'\nPS1='READY '\n".encode()})
    return ["bash", "--noprofile", "--rcfile", os.path.join(work, "start.bash"), "-i"], {"XDG_DATA_DIRS": SHARE, "HOME": work}


def need(shell):
    if shutil.which(shell) is None:
        pytest.skip(f"{shell} isn't there")


def start_zsh(work):
    need("zsh")
    functions = os.path.dirname(ZSH)
    write(work, {".zshrc": f"fpath=('{functions}' $fpath)\nautoload -Uz compinit && compinit -u -D\nunsetopt zle_bracketed_paste\nPS1='READY '\n".encode()})
    return ["zsh", "-d", "-i"], {"ZDOTDIR": work, "HOME": work}


def read_until(master, text, seconds):
    """What comes from a terminal, up to a text, or for so many seconds."""
    came, end = b"", time.monotonic() + seconds
    with contextlib.suppress(OSError):
        while text not in came and time.monotonic() < end:
            if select.select([master], [], [], 0.1)[0]:
                came += os.read(master, 4096)
    return came


def typed(command, environment, folder, begins, keys, ends, seconds=30):
    """Starts a shell, types keys when `begins` was written, and returns what comes after them, up to `ends`."""
    master, slave = pty.openpty()
    shell = subprocess.Popen(command, stdin=slave, stdout=slave, stderr=slave, cwd=folder, env=environment, start_new_session=True)
    os.close(slave)
    try:
        read_until(master, begins, seconds)
        os.write(master, keys)
        return read_until(master, ends, seconds)
    finally:
        shell.kill()
        shell.wait()
        os.close(master)


@pytest.mark.parametrize("start", [start_bash, start_zsh], ids=["bash", "zsh"])
@pytest.mark.parametrize("keys, due", TYPED, ids=[keys.strip() for keys, _ in TYPED])
def test_typed(keys, due, start, work):
    command, environment = start(work)
    path = f"{os.path.join(work, 'tools')}:{os.environ['PATH']}"
    came = typed(command, dict(environment, PATH=path, TERM="dumb"), os.path.join(work, "files"), b"READY", keys.encode() + b"\n", b">END")
    found = re.search(rb"((?:<[^<>]*>)+)END", came)
    # zsh writes a value onto its option.
    assert (found[1] if found else came).decode().replace("=", "><") == due.replace("=", "><")


def test_zsh_takes_the_file():
    need("zsh")
    ended = run(["zsh", "-n", ZSH])
    assert (ended.returncode, ended.stderr) == (0, b"")


def fish(work, *words):
    need("fish")
    environment = {"PATH": f"{os.path.join(work, 'tools')}:{os.environ['PATH']}", "HOME": work, "XDG_DATA_DIRS": SHARE}
    return run(["fish", *words], cwd=os.path.join(work, "files"), env=environment)


@pytest.mark.parametrize("name", sorted(os.listdir(FISH_FILES)))
def test_fish_takes(name, work):
    ended = fish(work, "--no-config", "-n", os.path.join(FISH_FILES, name))
    assert (ended.returncode, ended.stderr) == (0, b"")


@pytest.mark.parametrize("line, due", FISH, ids=[line for line, _ in FISH])
def test_fish_offers(line, due, work):
    ended = fish(work, "-c", f"complete -C '{line}'")
    offers = sorted(offer.split("\t")[0] for offer in ended.stdout.decode().splitlines())
    assert (" ".join(offers), ended.stderr) == (due, b"")
