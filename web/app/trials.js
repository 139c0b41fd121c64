// Why rules don't match a packet, asked of the program: each rule's conditions are added one by one.
//
// In a session of its own a trial chain gets, for each rule, a rule for each beginning of its conditions. Those have no target, so the
// packet walks through all of them, and the reply names the beginnings that it matches. The first that is missing ends with the condition
// that fails.

import { beginnings } from "./rule_text.js";

const TRIAL_CHAIN = "trial";
// A chain has at most 8,192 rules, and a packet matches at most 65,536.
const CHAIN_ROOM = 8192;
const WALK_ROOM = 60000;

/** A session that tries a packet on the beginnings of rules' texts; `tries` says of each rule where its beginnings stand. */
export function trialSession(packet, hook, texts) {
  const lines = [], tries = [];
  let chain = 0, number = CHAIN_ROOM, all = 0;
  for (const text of texts) {
    const parts = beginnings(text);
    if (all + parts.length > WALK_ROOM) break;
    if (number + parts.length > CHAIN_ROOM) {
      [chain, number] = [chain + 1, 0];
      lines.push(`iptables -N ${TRIAL_CHAIN}${chain}`, `iptables -A ${hook} -j ${TRIAL_CHAIN}${chain}`);
    }
    for (const part of parts) {
      lines.push(`iptables -A ${TRIAL_CHAIN}${chain} ${part.text}`);
      number += 1;
      part.place = `${TRIAL_CHAIN}${chain} ${number}`;
    }
    all += parts.length;
    tries.push(parts);
  }
  return { text: [...lines, packet, ""].join("\n"), tries };
}

/** The part of each rule that fails first, by the walk of the trial; null where each of its conditions holds. */
export function failingParts(tries, walk) {
  const matched = new Set(walk.steps);
  return tries.map((parts) => parts.find((part) => !matched.has(part.place)) ?? null);
}
