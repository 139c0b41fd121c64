"""What bin/check, bin/expect and bin/explain write as JSON: documents of which docs/schemas/ has the schemas.

JSON has texts alone, so a byte that is no part of UTF-8 is written as \\xNN.
"""

import json
import os
import sys

from commands.findings import visible


def text(given):
    """The bytes of an input, or a file's name, as a text."""
    return (os.fsencode(given) if isinstance(given, str) else given).decode("utf-8", "backslashreplace")


def step_object(step):
    return {"chain": text(step[0]), "number": step[1]}


def rule_object(step, rule):
    return {**step_object(step), "rule": text(rule.text)}


def verdict_object(verdict):
    """A verdict. What it leaves open has no key."""
    found = {"name": text(verdict.name)}
    if verdict.kind:
        found["type" if verdict.name == b"REJECT" else "words"] = text(verdict.kind)
    if verdict.by:
        found["by"] = step_object(verdict.by) if isinstance(verdict.by, tuple) else text(verdict.by)
    return found


def asked_object(answers, step, failure):
    found = {**rule_object(step, answers.rule(step)), "matched": failure is None}
    if failure:
        has = {field: text(value) for field, value in failure.has.items()}
        found["failed"] = {"listed": text(failure.listed), "condition": text(failure.condition), "packet": has}
    return found


def walk_object(answers, walk, asked):
    """A packet with the rules that are shown of its walk, the verdict, and where the want of `ct` may decide."""
    rules = [asked_object(answers, step, failure) for step, failure in asked]
    found = {"packet": text(walk.line), "walk": rules, "verdict": verdict_object(walk.verdict)}
    at = answers.invalid_at(walk)
    return {**found, "invalid_at": step_object(at)} if at else found


def cases_object(answers, line, walks):
    """A packet with walks that iptaudit tells, each with the answers that it needs and the rule that decides; or with none, where they aren't found out."""
    cases = [{"answers": [text(answer) for answer in walk.answers], **{"rule": rule_object(step, answers.rule(step)) for step in walk.steps},
              "verdict": verdict_object(walk.verdict)} for walk in walks]
    return {"packet": text(line), **({"cases": cases} if cases else {"unclear": True})}


def error_objects(complaints):
    found = [{"message": text(each.text), "file": each.file and text(each.file), "line": each.line} for each in complaints]
    return {"errors": [{key: value for key, value in each.items() if value is not None} for each in found]}


def checked_file(name, findings, advice, passed, error):
    """One file: its faults, what to do about the commonest, the lines that are passed over, or why it can't be read. What there is nothing to say of is
    null."""
    faults = [{"line": each.line or None, "code": each.code or None, "text": text(each.text if each.code else visible(each.text)),
               "word": text(each.word) or None, "more": text(each.more) or None, "meant": text(each.meant) or None} for each in findings]
    return {"file": text(name), "loads": not findings and error is None, "error": error, "faults": faults,
            "advice": [{"words": [text(word) for word in words], "text": text(sentence)} for words, sentence in advice], "passed_over": list(passed)}


def write(document):
    sys.stdout.buffer.write(json.dumps(document, indent=2).encode() + b"\n")
