"""The lines of a restore."""

import re

from .commands import apply, command_of
from .faults import need
from .words import BLANKS, is_passed_over, is_too_long, words_of

COUNTERS = re.compile(rb"\[[0-9]+:[0-9]+\]")
OUTSIDE, SKIPPED, FILTER = "outside of sections", "in a skipped section", "in a filter section"


class Restore:
    """A restore between two lines. `table` is what is in place, and `built` what the open section makes of it."""

    def __init__(self, table, noflush, test):
        self.table, self.noflush, self.test = table, noflush, test
        self.where, self.built, self.named = OUTSIDE, None, set()

    def line(self, line):
        need(not is_too_long(line), "R6")
        if is_passed_over(line):
            return
        if self.where != OUTSIDE and line.strip(BLANKS) == b"COMMIT":
            self.commit()
        elif self.where != SKIPPED:
            self.words(words_of(line))

    def takes_no_memory(self, line):
        return is_too_long(line) or is_passed_over(line) or self.where == SKIPPED or line.strip(BLANKS) == b"COMMIT"

    def words(self, words):
        begins_section = words[0].startswith(b"*")
        need(begins_section == (self.where == OUTSIDE) and (len(words) == 1 or not begins_section), "R1")
        if begins_section:
            self.begin(words[0] == b"*filter")
        elif words[0].startswith(b":"):
            self.chain_line(words)
        else:
            apply(self.built, command_of(words[1:] if COUNTERS.fullmatch(words[0]) else words, in_restore=True))

    def begin(self, is_filter):
        self.where = FILTER if is_filter else SKIPPED
        self.built, self.named = self.table.copy(), set()
        if not self.noflush:
            self.built.clear()

    def chain_line(self, words):
        """`:name policy [packets:bytes]`, the last word or not."""
        need(len(words) == 2 or len(words) == 3 and COUNTERS.fullmatch(words[2]), "R2")
        name, policy = words[0][1:], words[1]
        is_built_in = name in self.built.policies
        need(policy == b"-" or is_built_in and policy in (b"ACCEPT", b"DROP"), "R2")
        need(name not in self.named, "R3")
        self.named.add(name)
        if policy != b"-":
            self.built.set_policy(name, policy)
        elif name not in self.built.chains:
            self.built.new_chain(name)
        elif not is_built_in:
            self.built.flush(name)

    def commit(self):
        """Puts the section's table in place, but not in a test."""
        if self.where == FILTER and not self.test:
            self.table.policies, self.table.chains = self.built.policies, self.built.chains
        self.where = OUTSIDE

    def finish(self):
        need(self.where == OUTSIDE, "R4")
