"""What tests the programs, the commands, the documents and what is packed: `python3 -m pytest tests`, and `-k reach` after it for the tests whose names
have a word. `--quick` runs them on programs that are built without a proof. `tests/soak MINUTES` draws rulesets, sessions and dumps by further seeds. What ends
in `.rows` has rows of data, which tests/shared/row_files reads.

    model       the plain model: a slow program that answers as iptsim has to
    drawn       rules, packets, sessions and dumps that are drawn at random
    shared      what several tests need

    answers     the answers of both programs on drawn input
    memory      allocations that are refused, and calls that take no memory
    devices     input that is cut, and devices that fail
    programs    words, files, streams, messages and statuses of the programs
    commands    the commands for users
    options     the table of options, beside iptables and the kernel
    documents   what documents say of the programs
    packaging   completion, archive, package and installation
    page        the page, in two browsers
    tools       wrong bodies, as files have them
    costs       instructions, writes, steps and memory, beside stored figures
"""

import os

# The top of the repository, or of the commands' modules where they are installed.
ROOT = os.path.dirname(os.path.dirname(os.path.realpath(__file__)))
