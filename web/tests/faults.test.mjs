// Words at fault, words of --unknown, and the replies of a session line by line.

import assert from "node:assert/strict";
import { test } from "node:test";
import { repliesOf } from "../app/transcript.js";
import { contextOf, knownWord, unknownWords, wordPlace, wordsOfLine } from "../app/word_at_fault.js";

test("words that a fault's code or the program names", () => {
  const value = (line, fault) => knownWord(line, fault)?.value;
  assert.equal(value("-A INPUT -m colour -j DROP", { code: "D3", word: "colour" }), "colour");
  assert.equal(value("-A INPUTS -j DROP", { code: "T1", word: null }), "INPUTS");
  assert.equal(value("-A INPUT -p tcp -j OFFICES", { code: "T11", word: null }), "OFFICES");
  assert.equal(value(":-x - [0:0]", { code: "T3", word: null }), ":-x");
  assert.equal(value("-N -x", { code: "T3", word: null }), "-x");
  assert.equal(value(":INPUT DROP [a:b]", { code: "R2", word: null }), undefined);
  assert.equal(knownWord("# a comment", { code: "R4", word: null }), null);
  assert.equal(knownWord("-A INPUT -p tcp --dport ssh1 -j DROP", { code: "P3", word: null }), undefined);
});

test("the place of a word, by the codes of beginnings", () => {
  // -A, INPUT, -p, tcp, --dport, ssh1, -j, DROP
  assert.equal(wordPlace(["C3", null, "P2", null, "P2", "P3", "P3", "P3"], "P3"), 5);
  // -A, INPUT, -s, fe80::/10, -j, ACCEPT
  assert.equal(wordPlace(["C3", null, "D2", "P3", "D2", "P3"], "P3"), 3);
  // -A, INPUT, --dport, 22, -p, tcp: the option needs its protocol before it.
  assert.equal(wordPlace(["C3", null, "P2", "P6", "P6", "P6"], "P6"), 2);
});

test("words of --unknown", () => {
  const asked = (line, code, value) => {
    const at = wordsOfLine(line).find((word) => word.value === value);
    return unknownWords({ code, at, value, ...contextOf(line, at) }, line);
  };
  assert.equal(asked("-A INPUT -m colour --red 5 -j DROP", "D3", "colour"), "colour --red 1");
  assert.equal(asked("-A INPUT -m colour -j DROP", "D3", "colour"), "colour");
  assert.equal(asked("-A INPUT -m colour ! --mix 3 4 -j DROP", "D3", "colour"), "colour --mix 2");
  assert.equal(asked("-A INPUT -m limit --burst 5 -j DROP", "D1", "--burst"), "limit --burst 1");
  assert.equal(asked("-A INPUT -m conntrack --ctstat NEW -j DROP", "D1", "--ctstat"), null);
  assert.equal(asked("-A INPUT -m limit --limit 5/sec -j FOO --bar 1", "D1", "--bar"), null);
});

test("replies are what the output has more, without what was undone", () => {
  assert.deepEqual(repliesOf(["a\n", "a\n", "a\nb\nc\n"]), ["a\n", "", "b\nc\n"]);
  assert.deepEqual(repliesOf(["line 1: S3 end word missing\n", "line 1: S3 end word missing\n", "", "listing\n"]), ["", "", "", "listing\n"]);
  assert.deepEqual(repliesOf(["x\n", "x\nline 2: S3 end word missing\n"]), ["x\n", "line 2: S3 end word missing\n"]);
  assert.deepEqual(repliesOf([]), []);
});
