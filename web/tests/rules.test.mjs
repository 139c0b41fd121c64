// Rules' texts taken apart, trials of their conditions, and the rules that a packet came to.

import assert from "node:assert/strict";
import { test } from "node:test";
import { chainsOfListing, readListing, referencesOf } from "../app/listing.js";
import { reachedRules } from "../app/reached.js";
import { readFault, readWalks } from "../app/replies.js";
import { beginnings, readRule } from "../app/rule_text.js";
import { failingParts, trialSession } from "../app/trials.js";

test("a rule's conditions, and its target", () => {
  const rule = readRule('-A FORWARD -s 10.0.0.0/16 ! -i eth0 -p tcp -m tcp --dport 25 ! --tcp-flags SYN,ACK SYN'
    + ' -m comment --comment "a -j b" -j DROP');
  assert.deepEqual(rule.conditions.map((each) => each.text),
    ["-s 10.0.0.0/16", "! -i eth0", "-p tcp", "-m tcp --dport 25", "! --tcp-flags SYN,ACK SYN", '-m comment --comment "a -j b"']);
  assert.deepEqual([rule.chain, rule.target, rule.isGoto], ["FORWARD", "DROP", false]);
  assert.deepEqual(readRule("-A INPUT -g OTHER").target, "OTHER");
  assert.equal(readRule("-A INPUT -g OTHER").isGoto, true);
  assert.deepEqual([readRule("-A INPUT").conditions, readRule("-A INPUT").target], [[], null]);
  assert.deepEqual(readRule("-A INPUT ! -f -m ttl --ttl-eq 3").conditions.map((each) => each.text), ["! -f", "-m ttl --ttl-eq 3"]);
});

test("beginnings grow by one condition each", () => {
  assert.deepEqual(beginnings("-A INPUT -p udp -m multiport ! --dports 53,67 -j ACCEPT"), [
    { text: "-p udp", condition: "-p udp", keys: ["proto"] },
    { text: "-p udp -m multiport ! --dports 53,67", condition: "-m multiport ! --dports 53,67", keys: ["dport"] },
  ]);
});

test("a trial names the first condition that fails", () => {
  const { text, tries } = trialSession("packet INPUT src=1.2.3.4", "INPUT",
    ["-A INPUT -i lo -j ACCEPT", "-A INPUT -i eth0 -p udp -j DROP"]);
  assert.deepEqual(text.split("\n"),
    ["iptables -N trial1", "iptables -A INPUT -j trial1", "iptables -A trial1 -i lo", "iptables -A trial1 -i eth0",
    "iptables -A trial1 -i eth0 -p udp", "packet INPUT src=1.2.3.4", ""]);
  const [walk] = readWalks("INPUT 1\ntrial1 2\nverdict ACCEPT by policy\n");
  assert.deepEqual(failingParts(tries, walk).map((part) => part.condition), ["-i lo", "-p udp"]);
});

test("replies: walks and faults", () => {
  const replies = readWalks("INPUT 6\nREFUSE 2\nverdict REJECT tcp-reset by rule\nline 2: F2 key missing\nverdict TOOLONG\n");
  assert.deepEqual(replies.map((each) => each.fault?.code ?? [each.verdict, each.kind, each.by]),
    [["REJECT", "tcp-reset", "REFUSE 2"], "F2", ["TOOLONG", null, null]]);
  assert.deepEqual(readFault("line 12: D3 unknown match: colour"),
    { line: 12, code: "D3", text: "unknown match", word: "colour", whole: "line 12: D3 unknown match: colour" });
  assert.equal(readFault("INPUT 3"), null);
});

const LISTING = `*filter
:INPUT DROP [0:0]
:FORWARD DROP [0:0]
:OUTPUT ACCEPT [0:0]
:A - [0:0]
:B - [0:0]
-A INPUT -i lo -j ACCEPT
-A INPUT -j A
-A INPUT -p udp -j DROP
-A A -p tcp -g B
-A A -j LOG
-A A -s 1.2.3.4/32 -j RETURN
-A A -j DROP
-A B -i eth0
-A B -i eth1 -j ACCEPT
COMMIT
`;

test("listings, and the rules that a packet came to", () => {
  const chains = chainsOfListing(readListing(LISTING));
  assert.deepEqual(chains.map((chain) => [chain.name, chain.policy, chain.rules.length]),
    [["INPUT", "DROP", 3], ["FORWARD", "DROP", 0], ["OUTPUT", "ACCEPT", 0], ["A", null, 4], ["B", null, 2]]);
  assert.deepEqual(referencesOf(chains).get("B").map((rule) => rule.place), ["A 1"]);
  const text = ({ rule, isMatched }) => `${isMatched ? "" : "not "}${rule.place}`;
  const passed = (steps, isByPolicy) => reachedRules(chains, "INPUT", steps, isByPolicy).map(text);
  // After a goto the walk doesn't return to A.
  assert.deepEqual(passed(["INPUT 2", "A 1", "B 1"], true), ["not INPUT 1", "INPUT 2", "A 1", "B 1", "not B 2", "not INPUT 3"]);
  assert.deepEqual(passed(["INPUT 2", "A 2", "A 3", "INPUT 3"], false), ["not INPUT 1", "INPUT 2", "not A 1", "A 2", "A 3", "INPUT 3"]);
});
