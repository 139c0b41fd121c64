// What the page knows: the rulesets, what is assumed, and the packet that is looked at.

import { fixedAtRules, fixedInChains } from "./conditions.js";
import { FEW_STEPS } from "./questions.js";

// `first` is the ruleset that is looked at, `second` the one that it is compared with: each null, or a Ruleset of rulesets.js.
export const known = {
  first: null,
  second: null,
  assumed: { steps: FEW_STEPS, fixed: new Map(), unknown: [], local: "" },
  // The ruleset in which packets walk: "first" or "second".
  walkIn: "first",
  packet: "packet INPUT src=192.0.2.1 dst=198.51.100.1 proto=tcp in=eth0 sport=40000 dport=22 flags=SYN ct=NEW",
};

/** What is assumed in one of the rulesets. Conditions are fixed in the first; the second has those that it asks as well. */
export function assumedIn(ruleset) {
  const { first, assumed } = known;
  return ruleset === first ? assumed : { ...assumed, fixed: fixedAtRules(fixedInChains(assumed.fixed, first.chains), ruleset.chains) };
}

const listeners = new Map();

/** Has a function called when something of this name changes: "first", "second", "assumed", "packet" or "states". */
export function whenChanged(name, listener) {
  listeners.set(name, [...(listeners.get(name) ?? []), listener]);
}

export function changed(name) {
  for (const listener of listeners.get(name) ?? []) listener();
}
