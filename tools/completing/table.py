"""The table of commands."""

import collections
import pathlib

# A command, by its name, with its forms: one for each subcommand, and that without a subcommand under the empty name.
Command = collections.namedtuple("Command", "name text forms")
# What may stand on a line: options, and places for other words.
Form = collections.namedtuple("Form", "text options places")
# `value` is the name of an option's value, or empty; `short` is a letter, or empty.
Option = collections.namedtuple("Option", "name short value repeats text")
Place = collections.namedtuple("Place", "value repeats")

HELP = Option("--help", "h", "", False, "Print help")


def rows(root):
    """The rows of the table, each with four cells."""
    for line in pathlib.Path(root, "share", "commands.tsv").read_text(encoding="utf-8").splitlines():
        cells = line.split("\t")
        if cells[0] and not line.startswith("#"):
            yield cells + [""] * (4 - len(cells))


def without_dots(word):
    return (word[:-2], True) if word.endswith("..") else (word, False)


def option_of(word, text):
    """An option as `-V, --version` or `--load FILE`."""
    names, _, value = word.partition(" --") if word.startswith("-") and not word.startswith("--") else ("", "", word[2:])
    name, _, value = value.partition(" ")
    value, repeats = without_dots(value)
    return Option("--" + name, names.strip("-,"), value, repeats, text)


def read_commands(root):
    """The commands by their names, in the order of the table."""
    commands = {}
    for name, subcommand, word, text in rows(root):
        if name == "value":
            continue
        if not word and not subcommand:
            commands[name] = Command(name, text, {"": Form(text, [HELP], [])})
        elif not word:
            commands[name].forms[subcommand] = Form(text, [HELP], [])
        elif word.startswith("-"):
            commands[name].forms[subcommand].options.append(option_of(word, text))
        else:
            commands[name].forms[subcommand].places.append(Place(*without_dots(word)))
    return commands


def read_values(root):
    """What may stand for each name of a value: `files`, or a list of words, which is empty where anything may stand."""
    return {value: offers if offers == "files" else offers.split() for name, value, offers, _ in rows(root) if name == "value"}


def subcommands(command):
    return [name for name in command.forms if name]
