"""Whether the numbers that documents state are those of the repository: crates, functions, edits, cases and the like; and whether all Markdown
documents and manual pages together are short enough, as `wc -w` counts words."""

import functools
import operator
import re

from tools.crates import edit_files
from tools.documenting import markdown, tree

MOST_WORDS = 25_000
WORDS = "zero one two three four five six seven eight nine ten eleven twelve thirteen fourteen fifteen sixteen seventeen eighteen nineteen twenty".split()
ABOUT = "(?P<about>some |about |around |more than |over |at least |at most |up to |fewer than )?"
NUMBER = rf"{ABOUT}(?P<n>\d[\d,]*|{'|'.join(WORDS)})"
# Whether a stated number and the counted one agree, by what stands before it: by a tenth, or as a bound, and else exactly.
AGREES = {
    **dict.fromkeys(("some", "about", "around"), lambda stated, counted: abs(stated - counted) * 10 <= counted),
    "more than": operator.lt, "over": operator.lt, "at least": operator.le, "at most": operator.ge, "up to": operator.ge, "fewer than": operator.gt,
}
FUNCTION = re.compile(r"(?m)^\s*(?:pub(?:\([^)]*\))? )?(?:const )?fn ")
PUBLIC = re.compile(r"(?m)^\s*pub (?:const )?fn ")


def edits(folder, crate=r"\w+"):
    """How many edits a folder has: a file `.edit` is one."""
    paths = [path for path in tree.files(".edit", ".edits") if re.match(rf"crates/{crate}/{folder}/", path)]
    return sum(1 if path.endswith(".edit") else len(edit_files.HEADING.findall(tree.text(path))) for path in paths)


@functools.cache
def matched(pattern, suffix, below):
    """How often a pattern occurs in the files of a kind below a path."""
    return sum(len(pattern.findall(tree.text(path))) for path in tree.files(suffix, below=below))


def functions(crate, pattern=FUNCTION):
    return matched(pattern, ".rt", f"crates/{crate}/src/")


def constant(form, path):
    """The number at the end of what a constant's declaration is to begin with."""
    return int(re.search(form + r"(\d+)", tree.text(path))[1])


OPTIONS = "crates/rules/src/options/option.rt"
# What is counted: a pattern that has a number, and the count, or several of which the number may be any; it is given what the pattern found.
COUNTED = (
    (rf"\b(?:all|the) {NUMBER} crates\b", lambda _: len(tree.crates())),
    (rf"{NUMBER} crates in all", lambda _: len(tree.crates())),
    (r"\b(?P<n>\d\d) crates\b", lambda _: len(tree.crates())),
    (rf"`(?P<crate>\w+)`(?:'s| has) {NUMBER} functions", lambda found: functions(found["crate"])),
    (rf"{NUMBER} functions of `(?P<crate>\w+)`", lambda found: functions(found["crate"])),
    (rf"{NUMBER} public functions", lambda _: sum(functions(crate, PUBLIC) for crate in tree.crates())),
    (rf"{NUMBER} edits (?:of|in) `must-fail/?`", lambda _: edits("must-fail")),
    (rf"`must-fail/?` has {NUMBER}\b", lambda _: edits("must-fail")),
    (rf"{NUMBER} (?:further )?edits (?:of|in) `further-edits/?`", lambda _: edits("further-edits")),
    (rf"`further-edits/?` has {NUMBER}\b", lambda _: edits("further-edits")),
    (rf"edits of both folders,? {NUMBER}", lambda _: edits(r"[\w-]+")),
    (rf"{ABOUT}(?P<n>\d[\d,]+) edits\b", lambda _: {edits("must-fail"), edits("further-edits"), edits(r"[\w-]+")}),
    (rf"{ABOUT}(?P<n>\d[\d,]{{2,}}) cases\b", lambda _: matched(re.compile("(?m)^case "), ".cases", "crates/cases/data/")),
    (rf"{NUMBER} files of cases", lambda _: len(tree.files(".cases"))),
    (r"at most (?P<n>[\d,]{4,}) words", lambda _: MOST_WORDS),
    (rf"\b(?:the|all|each of the) {NUMBER} fields\b", lambda _: constant("const FIELDS: usize = ", "crates/fields/src/numbers/field.rt")),
    (rf"\ball {NUMBER} options\b", lambda _: constant(r"const ALL: \[Opt; ", OPTIONS)),
)


def of_line(line):
    for pattern, count in COUNTED:
        for match in re.finditer(pattern, line, re.IGNORECASE):
            groups, word = match.groupdict(), match["n"].lower()
            stated, counted = WORDS.index(word) if word in WORDS else int(word.replace(",", "")), count(groups)
            counted = counted if isinstance(counted, set) else {counted}
            agrees = AGREES.get((groups.get("about") or "").strip(), operator.eq)
            if not any(agrees(stated, each) for each in counted):
                yield f"{match[0]}: they are {' or '.join(map(str, sorted(counted)))}"


def of_length():
    count = sum(len(tree.text(path).split()) for path in tree.files(".md") + tree.files(".1", below="docs/"))
    return [f"docs: {count:,} words, and at most {MOST_WORDS:,} may be"] if count > MOST_WORDS else []


def faults():
    for document in markdown.documents():
        for number, line in markdown.prose(document) if document != "CHANGELOG.md" else ():
            yield from (f"{document}:{number}: {fault}" for fault in of_line(line))
