// Why rules don't match a packet: the first condition that fails, asked of the program.

import { element } from "../dom.js";
import { enteredChains, fixedMoved, probedDump } from "../entered.js";
import { NOT_GIVEN } from "../packet_keys.js";
import { readPacketLine } from "../packet_line.js";
import { askCover, askSession } from "../questions.js";
import { readWalks } from "../replies.js";
import { fileCommand } from "../shell.js";
import { bytesOf, linesOf, listed } from "../texts.js";
import { failingParts, trialSession } from "../trials.js";
import { ruleLink, ruleTextNode } from "./parts.js";

const TRIAL_DUMP = "trial.rules";

/** The name of a rule. Links lead to the rules of the first ruleset alone. */
export function placeNode(place, linked) {
  return linked ? ruleLink(place) : element("span", { class: "place" }, place);
}

function valuesText(keys, given) {
  return listed(keys.map((key) => `${key} is ${given.get(key) ?? NOT_GIVEN[key] ?? "not given"}`));
}

function partNodes(part, given) {
  const values = part.keys.length > 0 ? ` fails: ${valuesText(part.keys, given)}` : " fails";
  return [element("code", {}, part.condition), values];
}

/** A rule that doesn't match, and why: nodes. */
export function unmatchedNode(rule, why, linked) {
  return element("li", { class: "step unmatched", "data-unmatched": rule.place }, element("span", { class: "not" }, "not "),
    placeNode(rule.place, linked), ": ", ...why, " ",
    element("details", {}, element("summary", {}, "rule"), ruleTextNode(rule)));
}

/** The nodes that say which part of a rule fails; a part is null where none does, and undefined where it wasn't asked. */
export function failNodes(part, given) {
  if (part === undefined) return ["not asked: there are too many rules"];
  return part === null ? ["its conditions hold"] : partNodes(part, given);
}

/** Asks of each rule which condition fails first: a part for each, null, or undefined where it wasn't asked. */
export async function askFailing(packet, hook, rules) {
  const { text, tries } = trialSession(packet, hook, rules.map((rule) => rule.text));
  const answer = await askSession(null, text, "Looking for conditions that fail");
  const walks = readWalks(answer.output);
  const walk = walks.at(-1);
  const isWalked = walks.length === 1 && walk.fault === undefined;
  return { parts: isWalked ? failingParts(tries, walk) : [], command: answer.command };
}

// Asks whether the packet comes to rules: for each place whether it does, and the command; null where the dump can't be asked so.
async function askReached(ruleset, packet, places, assumed) {
  const trial = probedDump(linesOf(ruleset.text), places);
  if (trial === null) return null;
  const dump = { name: TRIAL_DUMP, bytes: bytesOf(trial.text) };
  const cover = await askCover(dump, [packet], { ...assumed, fixed: fixedMoved(assumed.fixed, trial.moved) });
  const covered = new Set(cover.rules.filter((rule) => rule.life === "covered").map((rule) => `${rule.chain} ${rule.number}`));
  return { isReached: (place) => covered.has(trial.probes.get(place)), command: `${fileCommand(TRIAL_DUMP, trial.text)}\n${cover.command}` };
}

function heldNodes(rule, reached, lives) {
  if (lives.get(rule.place) === "unclear") return ["whether it matches was not found out within the steps"];
  if (reached === null) return ["the packet doesn't come to it, or its conditions in the dump don't hold"];
  return reached.isReached(rule.place) ? ["where the packet comes to it, its conditions in the dump don't hold"]
    : ["the packet doesn't come to it: rules before it decide"];
}

/**
 * Why a packet doesn't match rules of a dump with conditions; `lives` says of each place what cover does, "covered" of rules that it
 * matches under some answers. The answer is a list of nodes, the names of the chains that it doesn't enter, and the commands.
 */
export async function askUnmatched(ruleset, packet, lives, assumed, linked) {
  const { hook, given } = readPacketLine(packet), matched = new Set([...lives.keys()].filter((place) => lives.get(place) === "covered"));
  const entered = enteredChains(ruleset.chains, hook, matched);
  const rules = entered.flatMap((chain) => chain.rules).filter((rule) => !matched.has(rule.place));
  const { parts, command } = await askFailing(packet, hook, rules);
  const held = new Set(rules.filter((rule, at) => parts[at] === null).map((rule) => rule.place));
  const reached = held.size === 0 ? null : await askReached(ruleset, packet, held, assumed);
  const whyOf = (rule, part) => (part === null ? heldNodes(rule, reached, lives) : failNodes(part, given));
  return {
    nodes: rules.map((rule, at) => unmatchedNode(rule, whyOf(rule, parts[at]), linked)),
    others: ruleset.chains.filter((chain) => !entered.includes(chain)).map((chain) => chain.name),
    commands: [...(rules.length > 0 ? [command] : []), ...(reached === null ? [] : [reached.command])],
  };
}
