// Listings: the chains of a ruleset with their policies and rules.

import { readRule } from "./rule_text.js";
import { linesOf } from "./texts.js";

const BUILT_IN_CHAINS = ["INPUT", "FORWARD", "OUTPUT"];

/** The chains of what `iptsim restore` prints, in its order: name, policy (null of a user chain) and the texts of rules. */
export function readListing(text) {
  const chains = new Map();
  for (const line of linesOf(text)) {
    const chain = /^:(\S+) (\S+)/.exec(line);
    if (chain) chains.set(chain[1], { name: chain[1], policy: chain[2] === "-" ? null : chain[2], rules: [] });
    else if (line.startsWith("-A ")) chains.get(line.split(" ")[1]).rules.push(line);
  }
  return [...chains.values()];
}

function makeRule(chain, number, text, needs) {
  const { target, isGoto } = readRule(text);
  return { chain, number, place: `${chain} ${number}`, text, needs, target, isGoto };
}

/** The chains of a listing with rules as objects, whose `place` is the chain and the number. */
export function chainsOfListing(chains) {
  return chains.map((chain) => ({ ...chain, rules: chain.rules.map((text, at) => makeRule(chain.name, at + 1, text, [])) }));
}

/** The same of the rules in an answer of iptaudit; `chains` says which chains there are, and their policies. */
export function chainsOfAnswer(chains, answered) {
  const found = new Map(chains.map((chain) => [chain.name, { ...chain, rules: [] }]));
  for (const { chain, number, rule, needs } of answered) {
    if (!found.has(chain)) found.set(chain, { name: chain, policy: null, rules: [] });
    found.get(chain).rules.push(makeRule(chain, number, rule, needs ?? []));
  }
  return [...found.values()];
}

/** The names of interfaces that rules ask. */
export function interfacesOf(chains) {
  const texts = chains.flatMap((chain) => chain.rules.map((rule) => rule.text));
  return [...new Set(texts.flatMap((text) => [...text.matchAll(/ -[io] ([^ "]+)/g)].map((found) => found[1])))].sort();
}

export function isBuiltIn(name) {
  return BUILT_IN_CHAINS.includes(name);
}

/** The rules that jump or go to a chain, by its name. */
export function referencesOf(chains) {
  const names = new Set(chains.map((chain) => chain.name)), found = new Map(chains.map((chain) => [chain.name, []]));
  for (const chain of chains) {
    for (const rule of chain.rules) if (rule.target !== null && names.has(rule.target)) found.get(rule.target).push(rule);
  }
  return found;
}
