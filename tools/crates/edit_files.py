"""Edits: wrong bodies that the prover has to refuse, as the folders must-fail/ and further-edits/ of a crate have them.

must-fail/NAME.edit is one edit, as `rt must-fail` reads it: lines `file: PATH`, and for each text that is changed `old: TEXT` and `new: TEXT`.
Two comments are for tools/edits: `# function: NAME` names the function that the edit makes wrong, as `rt check` prints it, and `# alone` says
that the edit changes what other functions stand on, as a constant or a method of a trait does.

further-edits/MODULE.edits has the edits of the functions in src/MODULE.rt and below src/MODULE/, but for those that a file of an inner module has;
lib.edits has those of all modules without a file. They stand by their functions and then by their names, with an empty line between two:

    # NAME
    function: CRATE::MODULE::FUNCTION
    alone
    file: PATH
    old: TEXT
    new: TEXT

`alone` and `file` stand only where they say something: without `file` the edit changes the file of the module that its function's name says. No two
edits of a crate have the same name.
"""

import dataclasses
import os
import pathlib
import re

FILE = re.compile(r"further-edits/(.+)\.edits")
HEADING = re.compile(r"^# (\w+)$", re.M)
FOR_SCRIPTS = re.compile(r"^# (?=function: |alone$)", re.M)


class Malformed(Exception):
    """What is wrong with files of edits: a line of text for each place."""


@dataclasses.dataclass(frozen=True)
class Edit:
    """An edit of one crate: the function that it makes wrong, and pairs of a file's old and new text."""

    name: str
    function: str
    alone: bool
    pairs: tuple

    def apply(self, texts):
        """Makes the edit in the texts of files, by their paths, or says why it can't be made."""
        made = dict(texts)
        for path, old, new in self.pairs:
            found = made.get(path, "").count(old)
            if found != 1:
                return f"an 'old:' text stands in {path} {found} times"
            made[path] = made[path].replace(old, new)
        if made == texts:
            return "it changes nothing"
        texts.update(made)
        return None

    def text(self):
        """The edit as a file of must-fail/ has it, wherever it stands."""
        lines, file = [f"# function: {self.function}", *["# alone"] * self.alone], ""
        for path, old, new in self.pairs:
            lines += [*[f"file: {path}"] * (path != file), f"old: {old}", f"new: {new}"]
            file = path
        return "".join(f"{line}\n" for line in lines)


def read(path):
    return pathlib.Path(path).read_text(encoding="utf-8")


def paths_below(folder, part):
    """The paths of all files in a part of a crate's folder, in order."""
    return sorted(str(path.relative_to(folder)) for path in pathlib.Path(folder, part).rglob("*") if path.is_file())


def sources(folder):
    """The texts of the files in a crate's src/ and specs/, by their paths in the crate's folder."""
    return {path: read(f"{folder}/{path}") for part in ("src", "specs") for path in paths_below(folder, part)}


def named_file(function, texts):
    """The file of the module that a function's name says, or None."""
    names = function.split("::")[1:]
    paths = (f"src/{'/'.join(names[:end])}.rt" for end in range(len(names) - 1, 0, -1))
    return next((path for path in paths if path in texts), None)


def file_of(edit, texts):
    """The file that has an edit's function, or None: that of the module that its name says, or another one that the edit changes, as of a
    type with methods in several files."""
    named, function = named_file(edit.function, texts), edit.function.rpartition("::")[2]
    having = [path for path, _, _ in edit.pairs if re.search(rf"\bfn {re.escape(function)}\b", texts.get(path, ""))]
    return having[0] if named and having and named not in having else named


def read_lines(name, lines, texts):
    """An edit from its lines, each with its number, and what is wrong with them. Where they name no file it changes its function's."""
    function, file, alone, old, pairs, troubles = "", None, False, None, [], []
    for number, line in lines:
        key, _, text = line.partition(":")
        text = text.removeprefix(" ")
        if key == "function" and not function:
            function = text.strip()
            file = named_file(function, texts)
        elif line == "alone":
            alone = True
        elif key == "file" and old is None:
            file = text.strip()
        elif key == "old" and old is None:
            old = text
        elif key == "new" and old is not None:
            pairs.append((file or "", old, text))
            old = None
        else:
            troubles.append((number, f"this can't stand here: {line}"))
    if old is not None:
        troubles.append((lines[-1][0], "an 'old:' has no 'new:'"))
    return Edit(name, function, alone, tuple(pairs)), troubles


def entries(text):
    """What a file of further-edits/ has: the number of each edit's first line, its name, and its other lines with their numbers. Lines before
    the first edit have no name."""
    found = [(0, "", [])]
    for number, line in enumerate(text.split("\n"), 1):
        heading = HEADING.match(line)
        if heading:
            found.append((number, heading[1], []))
        elif line:
            found[-1][2].append((number, line))
    return found


def module_of(file, modules):
    """The innermost of these modules that has a file of src/, or "lib"."""
    names = file.removeprefix("src/").removesuffix(".rt").split("/")
    return next((module for end in range(len(names), 0, -1) if (module := "/".join(names[:end])) in modules), "lib")


def trouble_of(edit, before, module, modules, texts):
    """What is wrong with an edit behind another one in the file of a module, if anything is."""
    if not edit.function:
        return f"{edit.name} has no 'function:'"
    if not edit.pairs:
        return f"{edit.name} has no 'old:' and 'new:'"
    file = file_of(edit, texts)
    if not file or module_of(file, modules) != module:
        return f"{edit.name} is of another module: {edit.function} stands in {file or 'no file of src/'}"
    if before and (edit.function, edit.name) < (before.function, before.name):
        return f"{edit.name} belongs before {before.name}"
    return None


def read_module(module, modules, text, texts):
    """The edits in the file of one of these modules, each with the number of its first line, and what is wrong, with numbers of lines."""
    (_, _, astray), *named = entries(text)
    found, before, troubles = [], None, [(number, f"this stands before the first name: {line}") for number, line in astray]
    for number, name, lines in named:
        edit, wrong = read_lines(name, lines, texts)
        trouble = trouble_of(edit, before, module, modules, texts)
        troubles += wrong or ([(number, trouble)] if trouble else [])
        found.append((number, edit))
        before = edit
    return found, troubles


def edits_of(top, crate):
    """The edits of a crate of the repository at `top`, by their names. Raises Malformed where files of further-edits/ aren't as they should be."""
    folder, found, places, troubles = f"{top}/crates/{crate}", [], {}, []
    texts = sources(folder)
    for path in paths_below(folder, "must-fail"):
        if path.endswith(".edit"):
            # (other comments, and what is wrong with it, are for `rt must-fail`)
            lines = FOR_SCRIPTS.sub("", read(f"{folder}/{path}")).split("\n")
            found.append(read_lines(os.path.basename(path).removesuffix(".edit"), list(enumerate(lines, 1)), texts)[0])
            places[found[-1].name] = path
    modules = {match[1]: path for path in paths_below(folder, "further-edits") if (match := FILE.fullmatch(path))}
    troubles += [f"crates/{crate}/{path}:1: a file of further-edits/ is called MODULE.edits"
                 for path in paths_below(folder, "further-edits") if path not in modules.values()]
    for module, path in modules.items():
        edits, wrong = read_module(module, modules, read(f"{folder}/{path}"), texts)
        for number, edit in edits:
            if edit.name in places:
                wrong.append((number, f"{edit.name} stands in {places[edit.name]}, too"))
            places.setdefault(edit.name, path)
            found.append(edit)
        troubles += [f"crates/{crate}/{path}:{number}: {trouble}" for number, trouble in sorted(wrong)]
    if troubles:
        raise Malformed("\n".join(troubles))
    return sorted(found, key=lambda it: it.name)
