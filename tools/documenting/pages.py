"""The pages that tools/documents prints: the definitions, the rooms and the calls of crates, the scripts."""

import itertools
import os
import re

from tools.documenting import sources, tree


def is_asked(words, path, found):
    """Whether a file of definitions is printed: its name or one of its definitions has a word, or there are no words."""
    if not words:
        return not sources.is_step(path)
    return any(word in part for word in words for part in [sources.name_of(path), *(defined for _, defined, _ in found)])


def print_definitions(words):
    for crate in tree.crates():
        heading = f"# {crate}\n\n"
        for path in sources.definition_files(crate):
            found = list(sources.definitions(path))
            if found and is_asked(words, path, found):
                print(f"{heading}## {sources.name_of(path)}\n\n{sources.head(path)}\n")
                print("".join(f"- `{defined}`: {comment}\n" if comment else f"- `{defined}`\n" for _, defined, comment in found))
                heading = ""


def lines_of_rooms(crate):
    """A line for each module and each file of definitions of a crate, with the folder in which it lies, below `src/` or `specs/`."""
    for path in sources.modules(crate):
        folder, name = os.path.split(path.removeprefix(f"crates/{crate}/src/"))
        cited = ", ".join(f"`{name}`" for name in sources.cited(crate, path))
        yield folder, f"- `{name[:-3]}`: {sources.head(path)}" + (f" Cites {cited}." if cited else "")
    for path in sources.definition_files(crate):
        folder, name = os.path.split(sources.name_of(path))
        yield folder, f"- definitions `{name}`: {sources.head(path)}"


def print_rooms(crates):
    for crate in crates:
        print(f"# {crate}\n")
        lines = sorted(lines_of_rooms(crate), key=lambda pair: pair[0])
        for folder, group in itertools.groupby(lines, lambda pair: pair[0]):
            print(f"## {folder or 'src'}\n\n" + "".join(f"{line}\n" for _, line in group))


def shown(comment):
    """A comment as Markdown, its headings as words in bold."""
    return "\n".join(re.sub(r"^# (.*)", r"**\1**", line) for line in comment).strip()


def print_calls(crates):
    for crate in crates:
        print(f"# {crate}\n")
        for path in sources.modules(crate):
            found = list(sources.items(path))
            if found:
                print(f"## {path.removeprefix(f'crates/{crate}/src/')}\n\n{sources.head(path)}\n")
            for is_part, group in itertools.groupby(found, lambda item: item.kind in ("field", "variant")):
                if is_part:
                    print("".join(f"- `{item.name}`: {shown(item.comment)}\n" for item in group))
                else:
                    print("\n".join(f"### {item.name}\n\n    {item.declared}\n\n{shown(item.comment)}\n" for item in group))


# A page by its word, and whether the words after it are crates.
PAGES = {
    "definitions": (print_definitions, False),
    "rooms": (print_rooms, True),
    "calls": (print_calls, True),
    "scripts": (lambda _: print("\n".join(f"## {path}\n\n{sources.head_of_script(path)}\n" for path in sources.scripts())), False),
}
