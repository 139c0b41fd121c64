"""The manual pages beside what they describe: docs/iptsim.1 beside iptsim; docs/iptaudit.1 beside iptaudit, by its examples and options, and the number
of steps that it says; and the pages of the scripts for users, by their examples and options.

- The faults: for each code of the section FAULTS a row below has an input that brings it out of the program. Its code, its text and
  its status have to be those of the page, and the page has no other codes. M0, of memory that is refused, no input brings out: its
  text is compared with the stored output of crates/calls. That memory which is refused ends in M0 and status 4 is shown by
  tests/memory/starved.
- The limits: a session that comes up to each number of the section LIMITS is accepted, one more is refused. Of the rules that match
  one packet the number alone is compared: a case tries it, and here it would take longer than all else.
- The examples: each command of the section EXAMPLES is run, and what it writes is compared with what the page shows.
- The names: each key of the section PACKETS is known, and those that the section REPLIES has for `lines` are the lines that it prints.
- The options: those of the synopsis, and of the description, are those that the program's own help names.
- The form of all pages, by mandoc, which may not warn, and by man; and that each is of a command.
"""

import os
import re
import shutil
import subprocess

import pytest

from tests import ROOT
from tests.shared import read
from tests.shared.installed import follow
from tests.shared.row_files import rows_in
from tools.completing.table import read_commands

DOCS = os.path.join(ROOT, "docs")
SESSION = ["session"]
RULE = "iptables -A INPUT "


def times(count, form):
    return [form % number if "%" in form else form for number in range(count)]


# Each code with the words of the program, and lines of input, of which the last is refused.
FAULTS = [(code.decode(), [word.decode()], [line.decode() for line in lines]) for (code,), (word,), lines in rows_in("documents/faults.rows", ">=|")]
FAULTS += [("T14", SESSION, times(8193, RULE)), ("T15", SESSION, times(1025, "iptables -N c%d"))]
NO_MEMORY = ("M0", 4)

# What each limit counts, with a session that has so many of it.
LIMITS = {
    "rules of a chain": lambda count: times(count, RULE),
    "user chains": lambda count: times(count, "iptables -N c%d"),
    "matches of a rule": lambda count: [RULE + "-p tcp" + " -m tcp" * count],
    "ports of a list, of which a range counts as two": lambda count: [
        RULE + "-p tcp -m multiport --dports 1:2," + ",".join(times(count - 2, "9"))],
    "bytes of a comment": lambda count: [RULE + "-m comment --comment " + "x" * count],
    "bytes of a log prefix": lambda count: [RULE + "-j LOG --log-prefix " + "x" * count],
    "bytes of the name of a chain": lambda count: ["iptables -N " + "x" * count],
    "bytes of the name of an interface": lambda count: [RULE + "-i " + "x" * count],
    "bytes of the word that ends a restore": lambda count: ["iptables-restore <<" + "x" * count, "x" * count],
    "bytes of a line, without its newline": lambda count: ["#" + "x" * (count - 1)],
}
NOT_TRIED = {"rules that match one packet": 65536}


def sections_of(name):
    """The sections of a page, by their names."""
    parts = re.split(r"(?m)^\.Sh (.*)\n", read("docs", name + ".1").decode())
    return dict(zip(parts[1::2], parts[2::2]))


def options_in(text):
    return set(re.findall(r"Fl \\-(\S+)", text))


def forms_of(name):
    """The options of each subcommand of a program, and of none, as the synopsis has them."""
    options = {subcommand: set() for subcommand in ("", *SUBCOMMANDS[name])}
    for form in PAGES[name]["SYNOPSIS"].split(".Nm\n")[1:]:
        named = re.findall(r"\b(" + "|".join(SUBCOMMANDS[name]) + r")\b", form)
        for subcommand in named + ([""] if "Op Cm" in form or not named else []):
            options[subcommand] |= options_in(form)
    return options


def described(name):
    return options_in("\n".join(re.findall(r"(?m)^\.It .*$", PAGES[name]["DESCRIPTION"])))


def examples_of(page):
    """Each command of the examples, and what it writes."""
    for shown in re.findall(r"(?ms)^\.Bd -literal.*?\n(.*?)^\.Ed", page["EXAMPLES"].replace("\\-", "-").replace("\\e", "\\")):
        for command, output in re.findall(r"(?m)^\$ (.*(?:\n> .*)*)\n((?:(?!\$ ).*\n)*)", shown):
            yield command.replace("\n> ", "\n"), output


# The subcommands of each program; the other pages are those of scripts.
SUBCOMMANDS = {"iptsim": ("session", "restore"), "iptaudit": ("dead", "compare", "tests", "cover", "reach", "walk", "assert")}
COMMANDS = read_commands(ROOT)
PAGES = {name: sections_of(name) for name in COMMANDS}
PAGE, SCRIPTS = PAGES["iptsim"], [name for name in COMMANDS if name not in SUBCOMMANDS]
# Of the page of iptsim each code with its text and its status, the limits, and the keys of packets.
CODES = [(code, text, int(status)) for status, listed in re.findall(r"(?m)^\.Ss .*: status ([0-9])\n((?:(?!\.Ss ).*\n)*)", PAGE["FAULTS"])
         for code, text in re.findall(r"(?m)^\.It Li (\S+) (.+)$", listed)]
BY_CODE = {code: fault for code, *fault in CODES}
SAID = {text: int(number.replace(",", "")) for number, text in re.findall(r"(?m)^\.It (.*)\n(.*)$", PAGE["LIMITS"])}
KEYS = {key for keys in re.findall(r"(?m)^\.It Cm (.*)$", PAGE["PACKETS"]) for key in keys.split(" , ")}


def session(lines):
    return "".join(line + "\n" for line in lines).encode()


def test_codes():
    """Each code stands once on the page, and in a row above."""
    assert sorted(code for code, *_ in CODES) == sorted({row[0] for row in FAULTS} | {NO_MEMORY[0]})


@pytest.mark.parametrize("code, words, lines", FAULTS, ids=[f"{row[0]}: {row[2][-1][:60]}" for row in FAULTS])
def test_fault(code, words, lines, iptsim):
    text, status = BY_CODE[code]
    ended = iptsim.run(words, input=session(lines))
    assert (ended.returncode, ended.stdout.decode(), ended.stderr) == (status, f"line {len(lines)}: {code} {text}\n", b"")


def test_no_memory():
    texts = re.findall(r"(?m)^NoMemory: ([^:\n]*)", read("crates/calls/stdout").decode())
    assert [[text, NO_MEMORY[1]] for text in set(texts)] == [BY_CODE[NO_MEMORY[0]]]


def test_limits():
    assert SAID.keys() == LIMITS.keys() | NOT_TRIED.keys()
    assert {name: SAID[name] for name in NOT_TRIED} == NOT_TRIED


@pytest.mark.parametrize("name", LIMITS)
def test_limit(name, iptsim):
    """So many are accepted, and one more is refused; where the last line is, those before it were accepted."""
    count = SAID[name]
    more = iptsim.run(SESSION, input=session(LIMITS[name](count + 1)))
    assert more.returncode != 0
    if not more.stdout.startswith(b"line %d: " % (count + 1)):
        assert iptsim.run(SESSION, input=session(LIMITS[name](count))).returncode == 0


EXAMPLES = [(name, number, command, due) for name, page in PAGES.items() for number, (command, due) in enumerate(examples_of(page))]


@pytest.fixture(scope="module")
def written(shared_folder, iptsim, iptaudit):
    """What the examples of each page write, one after another."""
    return {name: list(follow([command for command, _ in examples_of(page)], os.path.join(shared_folder, name), iptsim=iptsim.path, iptaudit=iptaudit.path))
            for name, page in PAGES.items()}


@pytest.mark.xdist_group("documents/manual")
@pytest.mark.parametrize("name, number, command, due", EXAMPLES, ids=[f"{row[0]}: {row[2][:60]}" for row in EXAMPLES])
def test_example(name, number, command, due, written):
    assert written[name][number] == due


def test_lines(iptsim):
    """The fields of a packet, as `lines` prints them."""
    fields = [line.split(" ")[0] for line in iptsim.said(SESSION, b"lines INPUT\n").decode().splitlines()]
    named = re.findall("[a-z]+", re.search(r"lines: ([a-z,\s]+)\.", PAGE["REPLIES"])[1])
    assert [name for name in named if name != "and"] == fields and KEYS == set(fields)


@pytest.mark.parametrize("key", sorted(KEYS))
def test_key(key, iptsim):
    assert b"F1" not in iptsim.said(SESSION, b"packet INPUT %s=\n" % key.encode())


def help_of(program, *words):
    return program.run([*words, "--help"]).stderr.decode()


FORMS = [(name, subcommand) for name in SUBCOMMANDS for subcommand in ("", *SUBCOMMANDS[name])]


@pytest.mark.parametrize("name, subcommand", FORMS, ids=[" ".join(row) for row in FORMS])
def test_options(name, subcommand, request):
    """The options of the synopsis are those of the help."""
    program = request.getfixturevalue(name)
    assert forms_of(name)[subcommand] == set(re.findall(r"--([a-z]+)", help_of(program, *filter(None, [subcommand]))))


@pytest.mark.parametrize("name", SUBCOMMANDS)
def test_subcommands(name, request):
    """The subcommands of the synopsis are those of the help, and each of its options is described."""
    forms = forms_of(name)
    assert set(re.findall(r"(?m)^  ([a-z]+)  ", help_of(request.getfixturevalue(name)))) == forms.keys() - {""}
    assert described(name) == set().union(*forms.values())


@pytest.mark.parametrize("name", SCRIPTS)
def test_table(name):
    """The options of a script beside share/commands.tsv, which tests/packaging/completion compares with its help."""
    due = {option.name[2:] for option in COMMANDS[name].forms[""].options}
    assert due == options_in(PAGES[name]["SYNOPSIS"]) == described(name)


@pytest.mark.parametrize("subcommand", SUBCOMMANDS["iptaudit"])
def test_steps(subcommand, iptaudit):
    """The number of steps that are taken where none is given."""
    described = re.findall(r"([0-9,]+) where it isn't given", PAGES["iptaudit"]["DESCRIPTION"])
    assert re.findall(r"\[default: ([0-9]+)\]", help_of(iptaudit, subcommand)) == [number.replace(",", "") for number in described]


def test_pages():
    """Each page is that of a command, and has examples."""
    assert sorted(name for name in os.listdir(DOCS) if name.endswith(".1")) == sorted(f"{name}.1" for name in PAGES)
    assert [name for name, page in PAGES.items() if not list(examples_of(page))] == []


@pytest.mark.parametrize("command", [["mandoc", "-T", "lint", "-W", "warning"], ["man", "--warnings", "-l"]], ids=lambda command: command[0])
def test_form(command):
    if shutil.which(command[0]) is None:
        pytest.skip(f"{command[0]} isn't there")
    paths = [os.path.join(DOCS, name + ".1") for name in PAGES]
    ended = subprocess.run(command + paths, stdin=subprocess.DEVNULL, capture_output=True, env={**os.environ, "LC_ALL": "C.UTF-8"}, check=False)
    assert ended.stderr + (ended.stdout if command[0] == "mandoc" else b"") == b""
