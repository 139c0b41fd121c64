"""The edits of all crates, as tools/edits reads them: each can be made. And rows of files that aren't as tools/crates/edit_files.py says: each has to be
refused, with the file and the line.
"""

import pytest

from commands.crates import uses_of
from tests import ROOT
from tests.shared.rows import write
from tools.crates.edit_files import Edit, Malformed, edits_of, sources

# A crate, whose file right.edits each row has.
FILES = {
    "src/left.rt": "struct Left;\n\nfn near() {}\n",
    "src/right.rt": "fn far() {}\n\nimpl Left {\n    fn both() {}\n}\n",
    "must-fail/kept.edit": "# function: x::left::near\nfile: src/left.rt\nold: {}\nnew: {;}\n",
    "src/left/inner.rt": "fn nearer() {}\n",
    "further-edits/left.edits": "# known\nfunction: x::left::near\nold: {}\nnew: {;}\n",
}
FAR, TEXTS = "function: x::right::far\n", "old: {}\nnew: {;}\n"
# Well-formed edits, one of a method of a type that another file has, and what is read.
WELL = f"""# a_
function: x::left::Left::both
alone
file: src/right.rt
old:   a: b{" "}
new:

# b
{FAR}file: src/left.rt
old: a
new: # b
file: src/right.rt
old: c
new: d
"""
READ = (Edit("a_", "x::left::Left::both", True, (("src/right.rt", "  a: b ", ""),)),
        Edit("b", "x::right::far", False, (("src/left.rt", "a", "# b"), ("src/right.rt", "c", "d"))))
# What is wrong with a file, its text, and what is said of it, behind the number of a line.
ROWS = (
    ("a name twice", f"# a\n{FAR}{TEXTS}\n# a\n{FAR}{TEXTS}", "6: a stands in further-edits/right.edits, too"),
    ("a name of another file", f"# known\n{FAR}{TEXTS}", "1: known stands in further-edits/left.edits, too"),
    ("a name of must-fail/", f"# a\n{FAR}{TEXTS}\n# kept\n{FAR}{TEXTS}", "6: kept stands in must-fail/kept.edit, too"),
    ("names out of order", f"# b\n{FAR}{TEXTS}\n# a\n{FAR}{TEXTS}", "6: a belongs before b"),
    ("functions out of order", f"# a\nfunction: x::right::further\n{TEXTS}\n# b\n{FAR}{TEXTS}", "6: b belongs before a"),
    ("no name", f"\n{FAR}", "2: this stands before the first name: function: x::right::far"),
    ("no function", f"# a\n{TEXTS}", "1: a has no 'function:'"),
    ("two functions", f"# a\n{FAR}{FAR}{TEXTS}", "3: this can't stand here: function: x::right::far"),
    ("a function of another module", f"# a\nfunction: x::left::near\n{TEXTS}", "1: a is of another module: x::left::near stands in src/left.rt"),
    ("a function of an inner module", f"# a\nfunction: x::left::inner::nearer\n{TEXTS}",
     "1: a is of another module: x::left::inner::nearer stands in src/left/inner.rt"),
    ("a method of another file", f"# a\nfunction: x::left::Left::both\nfile: src/left.rt\n{TEXTS}",
     "1: a is of another module: x::left::Left::both stands in src/left.rt"),
    ("a function of no module", f"# a\nfunction: x::middle::far\n{TEXTS}", "1: a is of another module: x::middle::far stands in no file of src/"),
    ("no texts", f"# a\n{FAR}", "1: a has no 'old:' and 'new:'"),
    ("no new text", f"# a\n{FAR}old: {{}}\n\n# b\n{FAR}{TEXTS}", "3: an 'old:' has no 'new:'"),
    ("no old text", f"# a\n{FAR}{TEXTS}new: b\n", "5: this can't stand here: new: b"),
    ("an unknown key", f"# a\n{FAR}line: 1\n{TEXTS}", "3: this can't stand here: line: 1"),
    ("a comment", f"# a\n# Some words.\n{FAR}{TEXTS}", "2: this can't stand here: # Some words."),
)


def read(folder, files):
    """What is read of the crate with these files besides: the edits of further-edits/right.edits, or what is wrong."""
    write(folder, {f"crates/x/{path}": text.encode() for path, text in {**FILES, **files}.items()})
    try:
        return tuple(edit for edit in edits_of(folder, "x") if edit.name not in ("kept", "known"))
    except Malformed as trouble:
        return str(trouble)


@pytest.mark.parametrize("crate", uses_of(ROOT))
def test_crate(crate):
    texts = sources(f"{ROOT}/crates/{crate}")
    assert [(edit.name, trouble) for edit in edits_of(ROOT, crate) if (trouble := edit.apply(dict(texts)))] == []


@pytest.mark.parametrize("files", [{"further-edits/right.edits": WELL}, {"further-edits/lib.edits": WELL},
                                   {f"must-fail/{edit.name}.edit": edit.text() for edit in READ}], ids=["further-edits", "lib", "must-fail"])
def test_well_formed(files, folder):
    assert read(folder, files) == READ


def test_file_of_one_edit(folder):
    assert read(folder, {"further-edits/a.edit": READ[1].text()}) == "crates/x/further-edits/a.edit:1: a file of further-edits/ is called MODULE.edits"


@pytest.mark.parametrize("text, due", [row[1:] for row in ROWS], ids=[row[0] for row in ROWS])
def test_malformed(text, due, folder):
    assert read(folder, {"further-edits/right.edits": text}) == f"crates/x/further-edits/right.edits:{due}"
