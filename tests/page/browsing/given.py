"""The calls that are tried in the page and on this machine: the cases, the guide's commands, and questions about the dumps of examples."""

import os
import pathlib
import tempfile

from tests.documents import guide
from tests.page.browsing.calls import Call
from tests.shared.case_files import all_cases
from tests.shared.played import plays_of
from tests.shared.rows import script

# Keeps what a program is given, and then does as the program.
KEEPING = """#!/bin/sh
kept="$(mktemp -d '{kept}/{name}.XXXXXXXX')"
printf '%s\\0' "$@" >"$kept/words"
number=0
for word; do
  number=$((number + 1))
  [ ! -f "$word" ] || cp "$word" "$kept/file.$number"
done
cat >"$kept/input"
exec '{program}' "$@" <"$kept/input"
"""
QUESTIONS = (["dead"], ["dead", "--json"], ["tests"], ["tests", "--json"], ["dead", "--steps", "3"])
ASKED = (["cover"], ["cover", "--json"], ["walk"], ["walk", "--json"])


def of_cases():
    for case in all_cases():
        for play in plays_of(case):
            load, files = ([], {}) if play.file is None else (["--load", "file"], {"file": play.file})
            yield Call(play.name, "iptsim", [*play.words, *load], files, play.data)


def kept_call(folder):
    words = (folder / "words").read_text().split("\0")[:-1]
    places = {word: folder / f"file.{number}" for number, word in enumerate(words, 1)}
    files = {word: place.read_bytes() for word, place in places.items() if place.exists()}
    program = folder.name.partition(".")[0]
    return Call(f"guide: {program} {' '.join(words)}", program, words, files, (folder / "input").read_bytes())


def of_guide(programs):
    with tempfile.TemporaryDirectory() as work:
        kept = pathlib.Path(work, "kept")
        kept.mkdir()
        stand_ins = {name: script(os.path.join(work, name), KEEPING.format(kept=kept, name=name, program=program)) for name, program in programs.items()}
        for document in guide.DOCUMENTS:
            text = guide.text_of(document)
            came = list(guide.written_by(text, os.path.join(work, "of", document), **stand_ins))
            assert came == [due for _, due in guide.commands_of(text)]
        return [kept_call(folder) for folder in sorted(kept.iterdir())]


def of_dumps(dumps, packets):
    """Questions about each dump (bytes by name), with these packets."""
    for name, data in dumps.items():
        for words, given in (*((words, b"") for words in QUESTIONS), *((words, packets) for words in ASKED)):
            yield Call(f"{name}: {' '.join(words)}", "iptaudit", [*words, name], {name: data}, given)
        for other, changed in dumps.items():
            yield Call(f"{name}: compare with {other}", "iptaudit", ["compare", name, other], {name: data, other: changed}, b"")
        for words in (["restore"], ["restore", "--test"], ["restore", "--noflush"]):
            yield Call(f"{name}: {' '.join(words)}", "iptsim", words, {}, data)
        yield Call(f"{name}: session", "iptsim", ["session", "--load", name], {name: data}, packets + b"iptables-save\n")


def of_words():
    """Words that are refused or ask for help, and files that aren't there."""
    for program, words in (("iptsim", []), ("iptsim", ["--help"]), ("iptsim", ["session", "--help"]), ("iptsim", ["sesion"]),
                           ("iptsim", ["session", "--load", "nothing"]), ("iptaudit", []),
                           ("iptaudit", ["--help"]), ("iptaudit", ["dead"]), ("iptaudit", ["dead", "nothing"]),
                           ("iptaudit", ["dead", "--steps", "none", "a"]), ("iptaudit", ["walk", "--help"])):
        yield Call(f"words: {program} {' '.join(words)}", program, words, {}, b"")
