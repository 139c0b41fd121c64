"""The completion for zsh: one file for all commands."""

from tools.completing.table import subcommands

HEAD = """#compdef {names}
# Completion for zsh of iptsim and its commands. tools/completions writes this file of share/commands.tsv.

local context state state_descr line curcontext="$curcontext"
typeset -A opt_args

"""

# Options beside which nothing else stands.
ALONE = ("--help", "--version")


def quoted(text):
    return "'" + text.replace("'", "'\\''") + "'"


def action(value, values):
    offers = values[value]
    if offers == "files":
        return "_files"
    if offers and offers[0].endswith("="):
        return ' compadd -S "" - ' + " ".join(offers)
    return f"({' '.join(offers)})" if offers else " "


def described(text):
    return "".join("\\" + byte if byte in "[]:\\" else byte for byte in text)


def option_specs(option, values):
    """One option for _arguments, once for each of its names."""
    value = f":{described(option.value)}:{action(option.value, values)}" if option.value else ""
    names = ([f"-{option.short}"] if option.short else []) + [option.name]
    before = "*" if option.repeats else "(- *)" if option.name in ALONE else f"({' '.join(names)})" if option.short else ""
    return [quoted(f"{before}{name}{'=' if value and name == option.name else ''}[{described(option.text)}]{value}") for name in names]


def arguments(form, values, before=(), after=()):
    specs = [spec for option in form.options for spec in option_specs(option, values)]
    specs += [quoted(f"{'*' if place.repeats else number}:{place.value}:{action(place.value, values)}") for number, place in enumerate(form.places, 1)]
    return " ".join(["_arguments", *before, *specs, *after])


def with_subcommands(command, values):
    """The rows of a command whose first word is a subcommand."""
    offers = " ".join(f"{name}\\:{quoted(described(command.forms[name].text))}" for name in subcommands(command))
    after = (f'"1:subcommand:(({offers}))"', quoted("*:: :->words"))
    yield "    " + arguments(command.forms[""], values, ("-C",), after) + " && return"
    yield '    case "$words[1]" in'
    for name in subcommands(command):
        yield f"      {name}) {arguments(command.forms[name], values)} ;;"
    yield "    esac"


def written(commands, values):
    lines = ['case "$service" in']
    for command in commands.values():
        lines.append(f"  {command.name})")
        if subcommands(command):
            lines += with_subcommands(command, values)
        else:
            lines.append("    " + arguments(command.forms[""], values))
        lines.append("    ;;")
    return HEAD.format(names=" ".join(commands)) + "\n".join([*lines, "esac"]) + "\n"
