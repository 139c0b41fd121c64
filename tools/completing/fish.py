"""The completion for fish: a file for each command."""

from tools.completing.table import subcommands

HEAD = "# Completion for fish of {name}. tools/completions writes this file of share/commands.tsv.\n\n"


def quoted(text):
    return "'" + text.replace("\\", "\\\\").replace("'", "\\'") + "'"


def offer(value, values):
    """The words of `complete` for a value."""
    offers = values[value]
    return "-F" if offers == "files" else f"-f -a {quoted(' '.join(offers))}" if offers else "-f"


def form_rows(form, values):
    """The options of a form, and what may stand in its places."""
    for option in form.options:
        short = f"-s {option.short} " if option.short else ""
        value = f"-r {offer(option.value, values)} " if option.value else ""
        yield f"{short}-l {option.name[2:]} {value}-d {quoted(option.text)}"
    yield from sorted({offer(place.value, values) for place in form.places if values[place.value]})


def written(command, values):
    head = f"complete -c {command.name} "
    lines = [head + "-f"]
    for name, form in command.forms.items():
        condition = f"-n '__fish_seen_subcommand_from {name}' " if name else "-n __fish_use_subcommand " if subcommands(command) else ""
        if name:
            lines.append(f"{head}-n __fish_use_subcommand -a {name} -d {quoted(form.text)}")
        lines += [head + condition + row for row in form_rows(form, values)]
    return HEAD.format(name=command.name) + "\n".join(lines) + "\n"
