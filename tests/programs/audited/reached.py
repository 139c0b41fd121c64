"""What `reach` of iptaudit writes: what becomes of packets that are given in part, by their numbers on a field."""

import pytest

from tests.programs.audited.rulesets import office, ruleset
from tests.shared.row_files import rows_in
from tests.shared.rows import Row, each, same

# The words after the file, rules of INPUT, and what becomes of packets, by their numbers on a field.
REACHED = rows_in("programs/audited/reached.rows", ">|<")

# Words after the file that ask nothing, and what is said of them.
NO_QUESTION = rows_in("programs/audited/no_question.rows", ">!")


@pytest.mark.parametrize("words, rules, due", REACHED, ids=[f"{b' ; '.join(rules).decode()} {words.decode()}" for (words,), rules, _ in REACHED])
def test_reach(words, rules, due, iptaudit):
    """Ends come in the order in which they are met."""
    ended = iptaudit.run(["reach", "R", *words[0].split()], {"R": ruleset(b"DROP", [b"-A INPUT " + rule for rule in rules])})
    same((0, sorted(due), b""), (ended.returncode, sorted(ended.stdout.splitlines()), ended.stderr))


def question_rows():
    files = {"R": office("rules")}
    for (words,), (said,) in NO_QUESTION:
        yield Row(words.decode(), ["reach", "R", *words.split()], files, b"", 2, b"iptaudit: " + said + b"\n")
    yield Row("one step", ["reach", "--steps", "1", "R", "INPUT", "by=ct"], files, b"unclear\n", 3)
    yield Row("a blank in a word", ["reach", "R", "INPUT", "ct=NEW ttl=1", "by=ct"], files, b"", 2, b"iptaudit: bad word: ct=NEW ttl=1\n")


@each(question_rows)
def test_question(row, iptaudit):
    iptaudit.check(row)
