"""The cases of crates/cases/data, read from their text. docs/CASES.md says what its lines are; the program `cases` refuses files that break
its rules, and this reader takes them to be right.
"""

import collections
import os
import re

from tests import ROOT
from tests.shared import read

DATA = os.path.join(ROOT, "crates", "cases", "data")

# A case: its file, its name and its runs, all on one session. A run: `session` or `restore`, its options, its input, and the output
# and the status that are due.
Case = collections.namedtuple("Case", "file name runs")
Run = collections.namedtuple("Run", "kind options input output status")

REPEAT = re.compile(r"repeat (?:([0-9]+) times|([a-z]+) from ([0-9]+) to ([0-9]+))")
WRITTEN = re.compile(rb"\\(?:(\\)|x([0-9A-Fa-f]{2})|\{([^}]*)\})")


def filling(text, numbers):
    """What stands between braces: a text so many times, or the number of a repeat, or one near to it."""
    times = re.fullmatch(rb"([0-9]+) of (.*)", text, re.DOTALL)
    if times:
        return written(times[2], numbers) * int(times[1])
    name, sign, step = re.fullmatch(rb"([a-z]+)(?:([+-])([0-9]+))?", text).groups()
    number, width = numbers[name]
    return b"%0*d" % (width, number + (int(step) if sign == b"+" else -int(step) if sign else 0))


def written(text, numbers):
    """A text after `>\\ ` or `<\\ `."""
    return WRITTEN.sub(lambda found: found[1] or (found[2] and bytes([int(found[2], 16)])) or filling(found[3], numbers), text)


def text_of(line, numbers):
    """The bytes that a line of input or output stands for."""
    mark, text = line[1:2], line[1:].encode()
    return written(text[2:], numbers) if mark == "\\" else text[1:]


def rounds(line):
    """The rounds of a repeat, each with the number that it names, if it names one, and how many digits that has at least."""
    times, name, first, last = REPEAT.fullmatch(line).groups()
    if times:
        return [{} for _ in range(int(times))]
    return [{name.encode(): (number, len(first))} for number in range(int(first), int(last) + 1)]


def body_of(lines):
    """The lines of a repeat, up to its `end`."""
    depth = 1
    for line in lines:
        depth += line.startswith("repeat ") - (line == "end")
        if not depth:
            return
        yield line


def expanded(lines, numbers=None):
    """The lines of a file one after another, those that are repeated as often as they stand for, each with its numbers."""
    lines, numbers = iter(lines), numbers or {}
    for line in lines:
        if line.startswith("repeat "):
            body = list(body_of(lines))
            for more in rounds(line):
                yield from expanded(body, {**numbers, **more})
        else:
            yield line, numbers


def lines_of_input(block):
    """How many lines of input a case stands for."""
    count, times = 0, [1]
    for line in block:
        if line.startswith("repeat "):
            times.append(times[-1] * len(rounds(line)))
        elif line == "end":
            times.pop()
        elif line.startswith(">"):
            count += times[-1]
    return count


def case_of(file, block):
    case, sides, call, has_newline = Case(file, block[0][5:], []), None, None, True
    for line, numbers in expanded(block[1:]):
        if line == "session" or line.split(" ")[0] == "restore":
            call, sides, has_newline = line.split(" "), {">": [], "<": []}, True
        elif line[:1] in (">", "<"):
            sides[line[0]].append(text_of(line, numbers) + b"\n")
        elif line == "no newline":
            has_newline = False
        elif line.startswith("status "):
            given = b"".join(sides[">"])
            case.runs.append(Run(call[0], tuple(call[1:]), given if has_newline else given[:-1], b"".join(sides["<"]), int(line[7:])))
    return case


def all_cases(words=(), most=None):
    """The cases of all files, by the names of the files: those that have one of the words in their file or their name, if there are
    words, and so many lines of input at most, if there is a number."""
    for name in sorted(os.listdir(DATA)):
        if name.endswith(".cases"):
            lines = read(DATA, name).decode().removesuffix("\n").split("\n")
            begins = [at for at, line in enumerate(lines) if line.startswith("case ")]
            for block in (lines[begin:end] for begin, end in zip(begins, [*begins[1:], len(lines)])):
                named = not words or any(word in f"{name}: {block[0][5:]}" for word in words)
                if named and (most is None or lines_of_input(block) <= most):
                    yield case_of(name, block)
