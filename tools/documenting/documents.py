"""tools/documents: checks the documents and the comments of the sources. With a word it prints a page of the sources' comments instead.

    tools/documents definitions [WORD..]   what contracts cite: of each file of `specs/` its head, and of each definition its comment; with words
                                         the files whose path or one of whose definitions has one, `specs/steps/` among them
    tools/documents rooms CRATE..          the folders and modules of crates, with the definitions that each module cites
    tools/documents calls CRATE..          the public items of crates: what each promises, its errors, its costs
    tools/documents scripts                the scripts and their modules

The check looks for

- links: the file of each relative link, and its heading;
- paths: each path in backquotes; in the README of a crate also those below the crate's folders;
- places: the table of what a new match touches, beside the files that name one that is there;
- layout: the tree and the crates of docs/ARCHITECTURE.md, and the commands of bin/ and tools/;
- reply: what README.md shows of its first command;
- names: each other name in backquotes, of documents about the code, anywhere in the sources;
- numbers: counts of crates, functions, edits, cases and the like, where a document states one;
- comments: the head of each module and script, the doc comment of each public item, the head of each file of `specs/` and the comment of each
  of its definitions outside of `specs/steps/`;
- length: all documents together have at most 25,000 words;
- spelling: words that neither hunspell's American dictionary nor tools/documenting/words.txt has;
- prose: sentences that are too long, words that stand twice, and some phrases.

Faults of each kind are planted: they have to be found, or the check itself is at fault.

It prints each fault with its file and line, and last how many there are, and ends with status 1 where there are any. `.ci/run` calls it. Where
hunspell isn't installed it says that spelling is passed over, and without markdown-it all but comments and length.
"""

import os
import sys

from tools import parser
from tools.documenting import counts, layout, markdown, names, places, planting, prose, sources, tree
from tools.documenting.pages import PAGES

# The checks that need no markdown-it, and the others.
PLAIN = (sources.faults, counts.of_length)
CHECKS = (*PLAIN, names.of_links, places.faults, layout.faults, names.faults, counts.faults, prose.of_spelling, prose.faults)


def check():
    found = [fault for each in (CHECKS if markdown.MarkdownIt else PLAIN) for fault in each()]
    if markdown.MarkdownIt:
        found += planting.faults(CHECKS)
    else:
        print("documents: markdown-it isn't there, so all but comments and length is passed over", file=sys.stderr)
    for fault in found:
        print(fault)
    print(f"documents: {len(found)} faults")
    return 1 if found else 0


def main():
    reader = parser("documents", __doc__)
    reader.add_argument("page", metavar="PAGE", nargs="?", choices=PAGES)
    reader.add_argument("words", metavar="WORD", nargs="*")
    given = reader.parse_args()
    if not given.page:
        return check()
    show, has_crates = PAGES[given.page]
    if has_crates and not (given.words and set(given.words) <= set(tree.crates())):
        reader.error(f"crates are {', '.join(tree.crates())}")
    show(given.words)
    return 0


try:
    sys.exit(main())
except BrokenPipeError:
    os.dup2(os.open(os.devnull, os.O_WRONLY), 1)
