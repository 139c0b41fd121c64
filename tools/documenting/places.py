"""Whether the table of CONTRIBUTING.md that says what a new option or match touches has each file that names the match `ttl`: by the words of its
options, of its values or of its field.

A row begins with a folder in backquotes, or goes on with the folder of the row before. The other cell has paths from there, in backquotes: files,
with their suffixes or without, and folders, which end in `/` and stand for all files below. What is in brackets isn't read. Each path has to be
there, and to name the match.
"""

import re

from tools.documenting import markdown, tree

DOCUMENT = "CONTRIBUTING.md"
HEADING = "## What a new option or match touches"
ROW = re.compile(r"^\| (?:`(?P<folder>[\w./]+)`)?[^|]*\| (?P<where>[^|]*`[^|]*)\|$")
BRACKETS = re.compile(r"\([^)]*\)")
QUOTED = re.compile(r"`([^`]+)`")
# Neither a part of another word, as in `throttle` and `--rttl`, nor a name of types of ICMP.
NAMED = re.compile(r"(?<![A-Za-z])(?:ttl|TTL)(?!-exceeded|-zero|[A-Za-z])|Ttl(?![a-z])|TimeToLive|times?[_ ]to[_ ]live")
# What names it and is no place: the table itself, this check with the faults that are planted for it, and a case named by its title.
APART = (DOCUMENT, "tools/documenting/places.py", "tools/documenting/planting.py", "tools/crates/bugs.diff")


def rows():
    """The rows of the table: the number of the line, and the paths."""
    folder, is_within = "", False
    for number, line in markdown.prose(DOCUMENT):
        if line.startswith("#"):
            is_within = line == HEADING
        found = ROW.match(line) if is_within else None
        if found:
            folder = found["folder"] or folder
            paths = QUOTED.findall(BRACKETS.sub("", found["where"]))
            yield number, [f"{folder}/{path}".removeprefix("./") for path in paths]


def names_it(file):
    """Whether the text of a file names the match, or its path; what isn't text names nothing."""
    text = tree.text(file)
    return bool(NAMED.search(file) or "\0" not in text and NAMED.search(text))


def faults():
    listed = set(APART)
    for number, paths in rows():
        for path in paths:
            # Those that it stands for: of a folder all below.
            begun = [file for file in tree.kept_files() if file.startswith(path)]
            files = begun if path.endswith("/") else [file for file in begun if re.fullmatch(r"(?:\.\w+)?", file[len(path):])]
            listed.update(files)
            if not any(names_it(file) for file in files):
                yield f"{DOCUMENT}:{number}: {path} " + ("doesn't name ttl" if files else "isn't there")
    omitted = [file for file in tree.kept_files() if file not in listed and names_it(file)]
    yield from (f"{DOCUMENT}: the table of what a new match touches lacks {file}, which names ttl" for file in omitted)
