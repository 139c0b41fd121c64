// Words, command lines, conditions, dumps, and the examples.

import assert from "node:assert/strict";
import { readFileSync } from "node:fs";
import { test } from "node:test";
import { answersText, conditionsOf, fixedAtRules, fixedInChains, whenWords, withAnswer } from "../app/conditions.js";
import { chainLines, hintsOf } from "../app/dump.js";
import { EXAMPLES } from "../app/examples.js";
import { otherKind } from "../app/file_kinds.js";
import { Failure, Refusal, faultOf, memoryFailure } from "../app/failures.js";
import { fileWord, shellCommand, shellQuoted } from "../app/shell.js";
import { counted, linesOf, listed } from "../app/texts.js";
import { wordsOf } from "../app/words.js";

test("the examples are the guide's", () => {
  for (const [name, text] of Object.entries(EXAMPLES)) {
    assert.equal(text, readFileSync(new URL(`../../examples/${name}`, import.meta.url), "utf8"), name);
  }
});

test("words of a line", () => {
  assert.deepEqual(wordsOf(' -m  "a b\\"c"\t-j'),
    [{ start: 1, end: 3, value: "-m" }, { start: 5, end: 13, value: 'a b"c' }, { start: 14, end: 16, value: "-j" }]);
  assert.equal(wordsOf('a "b'), null);
  assert.equal(wordsOf('a"b"'), null);
  assert.equal(wordsOf('"a"b'), null);
});

test("command lines", () => {
  assert.equal(shellQuoted("it's"), "'it'\\''s'");
  assert.equal(shellCommand({ program: "iptaudit", words: ["dead", "--when", "! limit --limit 5/sec", "office.rules"] }),
    "iptaudit dead --when '! limit --limit 5/sec' office.rules");
  assert.equal(shellCommand({ program: "iptsim", words: ["session"], input: "END\n" }), "iptsim session <<'END_'\nEND\nEND_");
  assert.deepEqual(["a/b.rules", "-x", ""].map(fileWord), ["b.rules", "./-x", "dump.rules"]);
});

test("texts", () => {
  assert.deepEqual([counted(1, "rule"), counted(8192, "rule"), listed(["a", "b", "c"]), listed([])],
    ["1 rule", "8,192 rules", "a, b and c", ""]);
  assert.deepEqual(linesOf("a\nb\n"), ["a", "b"]);
});

test("conditions", () => {
  const limit = { condition: "limit --limit 5/sec", chain: "INPUT", number: 6, holds: true },
    type = { condition: "addrtype --dst-type LOCAL", holds: false };
  assert.equal(answersText([type, limit]), "not addrtype --dst-type LOCAL and limit --limit 5/sec at INPUT 6");
  const [one, other] = conditionsOf([{ rules: [{ place: "INPUT 6", needs: [limit] },
    { place: "INPUT 7", needs: [type, { ...limit, number: 7 }] }] }]);
  assert.deepEqual([[...one.places], one.rules, other.places.size],
    [[["limit --limit 5/sec at INPUT 6", "INPUT 6"], ["limit --limit 5/sec at INPUT 7", "INPUT 7"]], ["INPUT 6", "INPUT 7"], 0]);
  const fixed = withAnswer(new Map([["limit --limit 5/sec at INPUT 6", true]]), "limit --limit 5/sec", [...one.places.keys()], false);
  assert.deepEqual(whenWords(fixed), ["--when", "! limit --limit 5/sec"]);
});

test("dumps", () => {
  assert.equal(chainLines("*nat\n:A - [0:0]\nCOMMIT\n*filter\n:INPUT DROP [0:0]\n-A INPUT -j DROP\n-P OUTPUT DROP\nCOMMIT\n"),
    "*nat\nCOMMIT\n*filter\n:INPUT DROP [0:0]\n-P OUTPUT DROP\nCOMMIT\n");
  assert.deepEqual(hintsOf("# iptsim-fit: for trials; assumed limit=true\r\n*nat\r\nCOMMIT\r\n").map((hint) => hint.kind),
    ["returns", "fit", "filter"]);
  assert.deepEqual(hintsOf("*filter\nCOMMIT\n"), []);
  assert.deepEqual(hintsOf("*filter\n# \uFFFD\nCOMMIT\n").map((hint) => hint.kind), ["bytes"]);
});

test("conditions that are fixed, in a comparison and in another ruleset", () => {
  const limit = (number) => ({ condition: "limit --limit 5/sec", chain: "INPUT", number, holds: true });
  const local = { condition: "addrtype --dst-type LOCAL", holds: false };
  const chains = [{ name: "INPUT", rules: [{ needs: [limit(1)] }, { needs: [local] }, { needs: [limit(3)] }] }];
  const fixed = new Map([["limit --limit 5/sec at INPUT 3", false], ["addrtype --dst-type LOCAL", true]]);
  const inChains = fixedInChains(fixed, chains);
  assert.deepEqual([...inChains], [["addrtype --dst-type LOCAL", true], ["limit --limit 5/sec in INPUT (2)", false]]);
  assert.deepEqual([...fixedAtRules(inChains, [{ name: "INPUT", rules: [{ needs: [limit(1)] }, { needs: [limit(2)] }] }])],
    [["limit --limit 5/sec at INPUT 2", false]]);
  assert.deepEqual([...fixedInChains(new Map([["limit --limit 5/sec at INPUT 1", true]]), chains)], [["limit --limit 5/sec in INPUT", true]]);
});

test("programs without an answer", () => {
  assert.match(memoryFailure("iptaudit").message, /^iptaudit ran out of memory/);
  assert.equal(faultOf("iptsim", "RangeError: could not allocate memory").message, memoryFailure("iptsim").message);
  const fault = faultOf("iptsim", "RuntimeError: unreachable");
  assert.match(fault.message, /^iptsim was ended by the browser before it answered \(RuntimeError: unreachable\)/);
  assert.ok(fault instanceof Failure && fault instanceof Refusal);
});

test("files that are no dumps of IPv4 rules", () => {
  const kind = (text) => otherKind(text)?.kind ?? null;
  for (const [name, text] of Object.entries(EXAMPLES).filter(([each]) => each.endsWith(".rules"))) assert.equal(kind(text), null, name);
  assert.equal(kind("*\u0000f\u0000i\u0000l\u0000"), "utf16");
  assert.equal(kind("\uFEFF*filter\nCOMMIT\n"), "mark");
  assert.equal(kind("table inet filter {\n}\n"), "nft");
  assert.equal(kind("Chain INPUT (policy ACCEPT)\n"), "listing");
  assert.equal(kind("# packets\npacket INPUT src=192.0.2.1\n"), "packets");
  assert.equal(kind("iptables -N X\npacket INPUT src=192.0.2.1\n"), "session");
  assert.equal(kind("*filter\n-A INPUT -s fe80::/10 -j ACCEPT\nCOMMIT\n"), "ip6");
  assert.equal(kind("*filter\n-A INPUT -m comment --comment \"iptables -L\" -j ACCEPT\nCOMMIT\n"), null);
});
