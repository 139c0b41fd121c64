"""Whether prose reads well, as far as a script sees it: no sentence of a document is too long, none has one of the phrases below, and no word of
documents or comments stands twice in a row. And whether words are spelled right, by hunspell's American dictionary and the list words.txt, which has
the words of the field."""

import functools
import os
import re
import shutil
import subprocess
import sys

from tools.documenting import markdown, sources, tree

LONGEST = 45
TWICE = re.compile(r"\b([A-Za-z]+) +\1\b")
# Words that may stand twice in a row.
MAY_REPEAT = ("that", "had", "is")
# A phrase, and what to write in its place.
PHRASES = {
    r"what becomes of": "the verdict, the walk",
    r"hangs? on": "depends on",
    r"of which nothing is due": "name the case",
    r"who decides": "the rule or policy that decides",
    r"due to the fact that": "because",
    r"simply|obviously|of course": "leave it out",
    r"utili[sz]es?": "use",
    r"is able to|are able to": "can",
    r"used to be": "say what is",
}
PHRASE = re.compile("|".join(rf"\b(?:{phrase})\b" for phrase in PHRASES), re.IGNORECASE)
CODE = re.compile(r"`[^`]*`")
# What stands for pieces of a paragraph that aren't text.
BREAKS = {"softbreak": " ", "hardbreak": " ", "code_inline": "X"}

LIST = "tools/documenting/words.txt"
HUNSPELL = ("hunspell", "-d", "en_US", "-l")
# What isn't prose: code, links, paths, options and what else has more than letters.
NO_PROSE = re.compile(r"`[^`]*`|\]\([^)]*\)|https?:\S+|\\\(\w\w")
WORD = re.compile(r"(?<![\w./:@#$%\\'=-])[A-Za-z][a-z]+(?:'[a-z]+)?(?![\w/@=\\(:]*[\w(/@=\\])")


def prose_of_page(path):
    """The lines of a manual page that are text: no macros, and nothing of a display."""
    display = False
    for number, line in enumerate(tree.lines(path), 1):
        if line.startswith((".Bd", ".Bl")) and "literal" in line:
            display = True
        elif line.startswith(".Ed"):
            display = False
        elif not display and not line.startswith("."):
            yield number, line


def comments_of(path):
    """The comments of a module or a file of definitions that are printed, each with the number of its first line."""
    yield 1, sources.head(path)
    if path.endswith(".rt"):
        yield from ((item.line, " ".join(item.comment)) for item in sources.items(path))
    elif not sources.is_step(path):
        yield from ((number, comment) for number, _, comment in sources.definitions(path))


def texts():
    """Every line of prose, and every comment that is printed, with its file and its number."""
    places = [(path, markdown.prose(path)) for path in markdown.documents()]
    places += [(path, prose_of_page(path)) for path in tree.files(".1", below="docs/")]
    for crate in tree.crates():
        places += [(path, comments_of(path)) for path in sources.modules(crate) + sources.definition_files(crate)]
    for path in sources.scripts():
        places.append((path, [(1, "\n".join(line for line in sources.head_of_script(path).split("\n") if not line.startswith("    ")))]))
    return [(path, number, line) for path, lines in places for number, line in lines]


def of_sentences():
    for path in markdown.documents():
        for number, pieces in markdown.texts(path, "paragraph"):
            text = "".join(BREAKS.get(piece.type, piece.content) for piece in pieces)
            for sentence in re.split(r"(?<=[.!?:;])\s+", text):
                count = len(sentence.split())
                if count > LONGEST:
                    yield f"{path}:{number}: a sentence of {count} words, and at most {LONGEST} may be: {sentence[:60]}.."


def faults():
    yield from of_sentences()
    for path, number, line in texts():
        text = CODE.sub("X", line)
        for found in PHRASE.finditer(text) if path.endswith((".md", ".1")) else ():
            instead = next(put for phrase, put in PHRASES.items() if re.fullmatch(phrase, found[0], re.IGNORECASE))
            yield f"{path}:{number}: {found[0]}: {instead}"
        twice = [found[0] for found in TWICE.finditer(text) if found[1].lower() not in MAY_REPEAT and found[1] != "X"]
        yield from (f"{path}:{number}: {words}: a word twice" for words in twice)


@functools.cache
def has_dictionary():
    return bool(shutil.which("hunspell")) and subprocess.run([*HUNSPELL, os.devnull], capture_output=True, check=False).returncode == 0


def of_spelling():
    listed = tree.lines(LIST)
    if listed != sorted(set(listed), key=str.lower):
        yield f"{LIST}: the words aren't sorted, or one stands there twice"
    if not has_dictionary():
        if not tree.planted:
            print("documents: hunspell or its dictionary isn't there, so spelling is passed over", file=sys.stderr)
        return
    # Each word with the place where it stands first.
    places = {}
    for path, number, line in texts():
        for word in WORD.findall(NO_PROSE.sub(" ", line)):
            places.setdefault(word.removesuffix("'s"), f"{path}:{number}")
    env = {**os.environ, "LC_ALL": "C.UTF-8"}
    unknown = subprocess.run(HUNSPELL, input="\n".join(places), capture_output=True, text=True, check=True, env=env).stdout.split()
    words = [word for word in dict.fromkeys(unknown) if word not in listed and word.lower() not in listed]
    yield from (f"{places.get(word, 'docs')}: {word} is in no dictionary" for word in words)
