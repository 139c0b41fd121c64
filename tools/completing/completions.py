"""tools/completions [--check]: writes the completions for bash, zsh and fish of the table share/commands.tsv.

They lie in share/, where an installation has them. With --check it writes nothing, names the files that aren't as they would be
written, and ends with status 1 where there is one.
"""

import pathlib
import sys

from tools import ROOT, parser
from tools.completing import bash, fish, zsh
from tools.completing.table import read_commands, read_values

TOP = pathlib.Path(ROOT)
BASH, ZSH, FISH = "share/bash-completion/completions", "share/zsh/site-functions", "share/fish/vendor_completions.d"


def files(commands, values):
    first, *others = commands
    yield f"{BASH}/{first}", bash.written(commands, values)
    yield from ((f"{BASH}/{name}", bash.POINTING.format(name=name, first=first)) for name in others)
    yield f"{ZSH}/_{first}", zsh.written(commands, values)
    yield from ((f"{FISH}/{command.name}.fish", fish.written(command, values)) for command in commands.values())


def differing(due):
    """The files that aren't as they are due: changed ones, missing ones, and others."""
    there = {f"{folder}/{path.name}": path.read_text(encoding="utf-8") for folder in (BASH, ZSH, FISH) for path in sorted((TOP / folder).iterdir())}
    return [place for place, text in due.items() if there.get(place) != text] + [place for place in there if place not in due]


def main():
    reader = parser("completions", __doc__)
    reader.add_argument("--check", action="store_true", help="write nothing, and name what would change")
    words = reader.parse_args()
    due = dict(files(read_commands(ROOT), read_values(ROOT)))
    for place in differing(due):
        if words.check:
            print(f"completions: {place} isn't as tools/completions writes it")
        elif place in due:
            (TOP / place).write_text(due[place], encoding="utf-8")
        else:
            (TOP / place).unlink()
    return 1 if words.check and differing(due) else 0


sys.exit(main())
