"""Calls of the programs, on this machine and in the page: what a program is given, and what comes of it."""

import base64
import collections
import json
import subprocess
import tempfile

from tests.shared.rows import write

# `name` says where a call comes from, `files` has the bytes of files by the names that words give them, and `input` is standard input.
Call = collections.namedtuple("Call", "name program words files input")
Answer = collections.namedtuple("Answer", "status output messages")

# How many bytes of calls go to the page at a time.
BATCH = 4 << 20
RUNNING = """
(async (calls, pages) => {
  const bytes = (text) => Uint8Array.from(atob(text), (letter) => letter.charCodeAt(0));
  const letters = (part) => String.fromCharCode(...part);
  const text = (all) => {
    let whole = "";
    for (let at = 0; at < all.length; at += 8192) whole += letters(all.subarray(at, at + 8192));
    return btoa(whole);
  };
  const answers = [];
  for (const { program, words, files, input } of calls) {
    const named = Object.fromEntries(Object.entries(files).map(([name, data]) => [name, bytes(data)]));
    try {
      const answer = await iptsimPage.runProgram({ program, words, files: named, input: bytes(input), pages });
      answers.push([answer.status, text(answer.output), text(answer.messages)]);
    } catch (fault) {
      answers.push([String(fault), "", ""]);
    }
  }
  return JSON.stringify(answers);
})(%s, %s)
"""


def text(data):
    return base64.b64encode(data).decode()


def batches(calls):
    """The calls in order, in lists that aren't too long."""
    lists, length = [[]], 0
    for call in calls:
        size = sum(map(len, call.files.values())) + len(call.input)
        if lists[-1] and length + size > BATCH:
            lists.append([])
            length = 0
        lists[-1].append(call)
        length += size
    return lists


def in_page(browser, calls, pages=None):
    """What comes of the calls in the page, each with a memory of these pages, where they are given."""
    answers = []
    for batch in batches(calls):
        given = [{"program": call.program, "words": call.words, "files": {name: text(data) for name, data in call.files.items()},
                  "input": text(call.input)} for call in batch]
        told = json.loads(browser.evaluate(RUNNING % (json.dumps(given), json.dumps(pages) if pages else "undefined")))
        answers += [Answer(status, base64.b64decode(output), base64.b64decode(messages)) for status, output, messages in told]
    return answers


def on_machine(programs, call):
    """What comes of a call of the program whose path `programs` has."""
    with tempfile.TemporaryDirectory() as folder:
        write(folder, call.files)
        ended = subprocess.run([programs[call.program], *call.words], input=call.input, cwd=folder, capture_output=True, check=False)
    return Answer(ended.returncode, ended.stdout, ended.stderr)
