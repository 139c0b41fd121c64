// Packet lines, files of expected verdicts, and which keys packets carry.

import assert from "node:assert/strict";
import { readFileSync } from "node:fs";
import { test } from "node:test";
import { enteredChains, fixedMoved, probedDump } from "../app/entered.js";
import { keysCarried, keysMissing } from "../app/packet_keys.js";
import { packetLine, readPacketLine, wholePacketLine, wordsAtFault } from "../app/packet_line.js";
import { isDue, readDue, readWishes, verdictText, wishesText } from "../app/wishes.js";

const EXPECTED = readFileSync(new URL("../../examples/office.expected", import.meta.url), "utf8");

test("a packet line and its keys", () => {
  const packet = readPacketLine("packet INPUT dst=2.2.2.2 src=1.1.1.1 proto=tcp colour=red src=3.3.3.3");
  assert.deepEqual([packet.hook, [...packet.given], packet.others],
    ["INPUT", [["dst", "2.2.2.2"], ["src", "1.1.1.1"], ["proto", "tcp"]], ["colour=red", "src=3.3.3.3"]]);
  assert.equal(packetLine(packet), "packet INPUT src=1.1.1.1 dst=2.2.2.2 proto=tcp colour=red src=3.3.3.3");
  assert.equal(wholePacketLine(" INPUT src=1.1.1.1"), "packet INPUT src=1.1.1.1");
});

test("which keys packets carry and need", () => {
  const given = new Map([["proto", "tcp"]]);
  assert.deepEqual(keysCarried("INPUT", given), ["src", "dst", "proto", "in", "frag", "sport", "dport", "flags", "ct", "ttl"]);
  assert.deepEqual(keysMissing(given), ["src", "dst", "sport", "dport"]);
  assert.deepEqual(keysCarried("OUTPUT", new Map([["proto", "1"]])), ["src", "dst", "proto", "out", "frag", "icmp", "ct", "ttl"]);
  assert.deepEqual(keysMissing(new Map([["proto", "6"], ["frag", "1"]])), ["src", "dst"]);
});

test("words at fault", () => {
  assert.deepEqual(wordsAtFault("packet input src=1.1.1.1", "F1"), ["input"]);
  assert.deepEqual(wordsAtFault("packet INPUT sorce=1.1.1.1", "F1"), ["sorce=1.1.1.1"]);
  assert.deepEqual(wordsAtFault("packet INPUT src=1.1.1.1 dst=2.2.2.2 proto=udp dport=53", "F2"), ["sport"]);
  assert.deepEqual(wordsAtFault("packet OUTPUT src=1.1.1.1 in=eth0 proto=gre sport=1", "F4"), ["in", "sport"]);
});

test("a file of expected verdicts is written as it was read", () => {
  const items = readWishes(EXPECTED);
  assert.equal(wishesText(items), EXPECTED);
  assert.deepEqual(items.filter((item) => item.packet).map((item) => item.due).slice(0, 4),
    ["ACCEPT by INPUT 1", "ACCEPT by INPUT 3", "ACCEPT by OFFICE 1", "REJECT tcp-reset by REFUSE 2"]);
});

test("expected verdicts", () => {
  const came = { verdict: "REJECT", kind: "tcp-reset", by: "REFUSE 2" };
  for (const text of ["REJECT", "REJECT tcp-reset", "REJECT by rule", "REJECT tcp-reset by REFUSE 2"]) {
    assert.ok(isDue(readDue(text), came), text);
  }
  for (const text of ["DROP", "REJECT by policy", "REJECT icmp-port-unreachable", "REJECT by REFUSE 3"]) {
    assert.ok(!isDue(readDue(text), came), text);
  }
  for (const text of ["", "accept", "DROP by", "REJECT nonsense", "TOOLONG by rule"]) assert.ok(readDue(text).fault, text);
  assert.equal(verdictText(came), "REJECT tcp-reset by REFUSE 2");
});

test("chains that are entered, and dumps with probes", () => {
  const rule = (place, target) => ({ place, target });
  const chains = [{ name: "INPUT", rules: [rule("INPUT 1", "X"), rule("INPUT 2", "Y")] }, { name: "X", rules: [rule("X 1", "ACCEPT")] },
    { name: "Y", rules: [] }];
  assert.deepEqual(enteredChains(chains, "INPUT", new Set(["INPUT 1", "X 1"])).map((chain) => chain.name), ["INPUT", "X"]);
  const lines = ["*nat", "-A POSTROUTING -j MASQUERADE", "COMMIT", "*filter", ":X - [0:0]", "-A INPUT -j X", "[1:2] -A INPUT -j DROP", "-A X", "COMMIT"];
  const { text, moved, probes } = probedDump(lines, new Set(["INPUT 2"]));
  assert.deepEqual(text.split("\n").slice(5, 9), ["-A INPUT -j X", "-A INPUT", "[1:2] -A INPUT -j DROP", "-A X"]);
  assert.deepEqual([...moved], [["INPUT 1", "INPUT 1"], ["INPUT 2", "INPUT 3"], ["X 1", "X 1"]]);
  assert.deepEqual([...probes], [["INPUT 2", "INPUT 2"]]);
  assert.equal(probedDump(["*filter", "-I INPUT -j DROP", "COMMIT"], new Set()), null);
  assert.deepEqual([...fixedMoved(new Map([["limit at INPUT 2", true], ["local", false]]), moved)], [["limit at INPUT 3", true], ["local", false]]);
});
