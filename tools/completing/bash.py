"""The completion for bash: one file for all commands."""

import pathlib

from tools.completing.table import subcommands

FORM = pathlib.Path(__file__).with_name("form.bash")
# The text of the file of another command, by whose name bash-completion looks for it.
POINTING = """# Completion for bash of {name}: it stands in the file of {first}. tools/completions writes this file.

. "${{BASH_SOURCE[0]%/*}}/{first}"
"""


def dots(repeats):
    return ".." if repeats else ""


def form_row(words, form, below):
    """The row of a command, or of one with its subcommand."""
    options = [option.name + (f"={option.value}{dots(option.repeats)}" if option.value else "") for option in form.options]
    places = [place.value + dots(place.repeats) for place in form.places]
    sets = [("subcommands", below), ("options", options), ("places", places)]
    return f"    '{words}') " + " ".join(f"{name}='{' '.join(values)}'" for name, values in sets if values) + " ;;"


def value_rows(values):
    """A row for all names of files, and one for each other name for which something is offered."""
    files = " | ".join(name for name, offers in values.items() if offers == "files")
    yield f'    {files}) _iptsim_files "$2" ;;'
    yield from (f'    {name}) _iptsim_words "$2" {" ".join(offers)} ;;' for name, offers in values.items() if offers and offers != "files")


def written(commands, values):
    forms = [form_row(f"{command.name} {name}".strip(), form, [] if name else subcommands(command))
             for command in commands.values() for name, form in command.forms.items()]
    text = FORM.read_text(encoding="utf-8")
    for word, lines in (("FORMS", forms), ("VALUES", value_rows(values))):
        text = text.replace(f"\n{word}\n", "\n" + "\n".join(lines) + "\n")
    return text.replace("complete -F _iptsim COMMANDS", "complete -F _iptsim " + " ".join(commands))
