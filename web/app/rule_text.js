// A rule's text, as a listing has it, taken apart: its chain, what it asks, and what it does.

import { wordsOf } from "./words.js";

// How many values an option has, where it isn't one.
const VALUE_COUNTS = { "-f": 0, "--syn": 0, "--tcp-flags": 2 };
// What a packet's key is called that an option asks.
const ASKED = {
  "-s": ["src"], "-d": ["dst"], "-i": ["in"], "-o": ["out"], "-p": ["proto"], "-f": ["frag"],
  "--sport": ["sport"], "--dport": ["dport"], "--sports": ["sport"], "--dports": ["dport"], "--ports": ["sport", "dport"],
  "--tcp-flags": ["flags"], "--syn": ["flags"], "--icmp-type": ["icmp"], "--src-range": ["src"], "--dst-range": ["dst"],
  "--ctstate": ["ct"], "--state": ["ct"], "--ttl-eq": ["ttl"], "--ttl-gt": ["ttl"], "--ttl-lt": ["ttl"],
};

const isTarget = (word) => word.value === "-j" || word.value === "-g";

// The end of the option that begins at a place: with its `!`, its values, and after `-m` the first option of the match.
function optionEnd(words, first) {
  let at = first;
  if (words[at].value === "!") at += 1;
  if (at >= words.length) return words.length;
  const name = words[at].value;
  if (name === "-m") {
    const next = words[at + 2];
    return next !== undefined && !isTarget(next) && next.value !== "-m" ? optionEnd(words, at + 2) : at + 2;
  }
  return at + 1 + (VALUE_COUNTS[name] ?? 1);
}

// One condition: its text, where it ends in the rule, and the keys of a packet that it asks.
function conditionAt(line, words, first, last) {
  const names = words.slice(first, last).map((word) => word.value);
  const option = names.findLast((name) => name in ASKED);
  return { text: line.slice(words[first].start, words[last - 1].end), end: words[last - 1].end, keys: ASKED[option] ?? [] };
}

function partsOf(line, words) {
  const conditions = [];
  let at = 2;
  while (at < words.length && !isTarget(words[at])) {
    const last = Math.min(optionEnd(words, at), words.length);
    conditions.push(conditionAt(line, words, at, last));
    at = last;
  }
  return { conditions, at };
}

/**
 * A rule that a listing has: `-A CHAIN`, its conditions, and its target.
 *
 * `target` is the word after -j or -g, or null; `isGoto` says which; `body` is where the conditions begin, and `tail` where the target does.
 */
export function readRule(line) {
  const words = wordsOf(line) ?? [];
  if (words.length < 2) return { chain: "", conditions: [], target: null, isGoto: false, body: line.length, tail: line.length };
  const { conditions, at } = partsOf(line, words);
  const target = words[at + 1]?.value ?? null;
  return {
    chain: words[1].value, conditions, target, isGoto: words[at]?.value === "-g", body: words[2]?.start ?? line.length,
    tail: words[at]?.start ?? line.length,
  };
}

/** The beginnings of what a rule asks, each with one condition more than the one before. */
export function beginnings(line) {
  const rule = readRule(line);
  return rule.conditions.map(({ text, end, keys }) => ({ text: line.slice(rule.body, end), condition: text, keys }));
}
