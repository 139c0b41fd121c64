"""tools/sources: a counter of boxes is made where a session is made, in tests and in measurements alone, so that all other boxes are counted
by whoever calls. It ends with status 1 where another function may make one.

Elsewhere the type stands only as `&mut Work` and in a plain `use`: no other name for it, and no call of its functions, however it is
spelled. A session has one as a field, lends it and hands it over, and `Session::new` alone makes it. The file that defines it has one
function that makes one, and no way to copy one.

Each way to make one that is known is planted beside the sources, and behind those of a session: it has to be found, or the check itself is
at fault.

The rows of the table of options in the crate dumps are those that tools/rows writes.
"""

import pathlib
import re
import sys

from tools import ROOT, parser
from tools.crates.option_rows import PLACE, is_written

CRATES = pathlib.Path(ROOT, "crates")
MAKERS = re.compile(r"bench|calls|.*_tests")
SESSIONS = pathlib.Path("sessions/src/run/session.rt")
DEFINITION = pathlib.Path("rules/src/boxing/work.rt")

COMMENT = re.compile(r"//[^\n]*")
NAME = re.compile(r"\bWork\b")
PLAIN = re.compile(r"&\s*mut\s+Work\b(?!\s*::)")
# A `use` in which the type has its own name.
USE = re.compile(r"\buse\s(?:(?!\bWork\s+as\b)[^;])*;")
MADE = re.compile(r"->\s*(?:Work|Self)\b")
COPIED = re.compile(r"\b(?:Clone|Copy|Default)\b")
# What makes a session; and how a session holds its counter, lends it and hands it over.
BEGUN = re.compile(r"^    pub fn new\(alloc: Global\) -> Result<Session, AllocError>\n.*?^    }\n", re.M | re.S)
MAKES = re.compile(r"\bwork: Work::new\(\),")
HELD = re.compile(r"^    work: Work,$|^    pub fn work\(&self\) -> &Work$|^    pub fn into_parts\(self\) -> \(Table, Work\)$", re.M)

PLANTED = (
    "fn second() -> u64 { let work = Work::new(); 0 }",
    "fn second() -> u64 { let work = <Work>::new(); 0 }",
    "fn second() -> u64 { count(&mut Work::new()) }",
    "fn second() -> u64 { count(&mut Work ::new()) }",
    "fn second() -> u64 { let work = rules :: Work\n    :: new(); 0 }",
    "use rules::{Boxed, Work as Counter};",
    "use rules::Work\n    as Counter;",
    "type Counter = Work;",
    "fn second(make: fn() -> Work) {}",
)


def left_over(text):
    """What mentions the type otherwise than as it may."""
    text = USE.sub("", PLAIN.sub("", COMMENT.sub("", text)))
    return [line.strip() for line in text.split("\n") if NAME.search(line)]


def left_in_session(text):
    """The same of the sources of a session, where `Session::new` makes one."""
    return left_over(HELD.sub("", BEGUN.sub(lambda new: MAKES.sub("", new[0], count=1), text, count=1)))


def problems():
    session = (CRATES / SESSIONS).read_text(encoding="utf-8")
    for planted in PLANTED:
        if not left_over(planted) or not left_in_session(session + planted):
            yield "this was planted and not found: " + planted
    for path in sorted(CRATES.glob("*/src/**/*.rt")):
        place = path.relative_to(CRATES)
        if MAKERS.fullmatch(place.parts[0]):
            continue
        text = path.read_text(encoding="utf-8")
        if place == DEFINITION:
            text = COMMENT.sub("", text)
            if len(MADE.findall(text)) != 1 or COPIED.search(text):
                yield f"{place}: a counter is made in more than one way"
            continue
        for line in left_in_session(text) if place == SESSIONS else left_over(text):
            yield f"{place}: {line}"
    if not is_written(ROOT):
        yield f"{PLACE} isn't as tools/rows writes it"


parser("sources", __doc__).parse_args()
found = list(problems())
for problem in found:
    print("sources: " + problem, file=sys.stderr)
if found:
    sys.exit(1)
print("sources: counters of boxes are made in Session::new, by tests and by measurements alone; the rows of options are those of the table")
