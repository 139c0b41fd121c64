// The rules of a chain, each with its state. Long chains are drawn piece by piece.

import { answersText, conditionName } from "../conditions.js";
import { breathe, button, element } from "../dom.js";
import { listed } from "../texts.js";
import { answersNode, chainLink, ruleLink, walkPacket } from "./parts.js";

// Rules that are drawn at once.
const PIECE = 250;

// Steps and policies that take a rule's packets, as iptaudit prints them.
function takersNodes({ rules, policies }) {
  const named = rules.slice(0, 5).map(({ chain, number, verdict }) => [ruleLink(`${chain} ${number}`), verdict ? ` (${verdict})` : ""]);
  const more = rules.length > 5 ? [[`${rules.length - 5} more`]] : [];
  const last = policies.map(({ chain, verdict }) => [`the policy of ${chain} (${verdict})`]);
  return [...named, ...more, ...last].flatMap((nodes, at, all) => (at === 0 ? nodes : [at === all.length - 1 ? " and " : ", ", ...nodes]));
}

// Why a rule is dead.
function reasonNodes({ reason, chain }) {
  if (reason === undefined) return ["the reason isn't known"];
  if (reason.kind === "taken") return ["taken by ", ...takersNodes(reason)];
  if (reason.kind === "impossible") return [`no value of ${reason.field} fits`];
  if (reason.kind === "unreached") return [`no rule leads to ${chain}`];
  if (reason.kind === "no_packet") return [`no packet fits at the hooks that lead to ${chain}`];
  if (reason.kind === "unmet") return ["no answers meet its conditions"];
  const rules = reason.rules.map((each) => `${each.chain} ${each.number}`);
  return ["no packet that comes from ", listed(rules), " fits"];
}

function stateText(state) {
  if (state === undefined) return "not asked";
  return state.standing ? `${state.life}, ${state.standing}` : state.life;
}

// What stands below a rule: why it is dead, or the answers under which its packet matches it.
function moreNodes(state) {
  if (state?.life === "dead") return [element("span", { class: "reason" }, ...reasonNodes(state))];
  return state?.answers === undefined ? [] : [element("span", {}, "matched ", answersNode(state.answers))];
}

// What may be done about a rule.
function actionNode(rule, state, askMore) {
  if (state?.life === "unclear") {
    return button("More steps", askMore, { class: "more-steps", "aria-label": `Ask about ${rule.place} with more steps` });
  }
  if (state?.life !== "live") return null;
  return button("Walk it", () => walkPacket(state.packet),
    { class: "walk-it", title: state.packet, "aria-label": `Walk a packet that ${rule.place} matches` });
}

// The rule's text, with its target as a link where it is a chain.
function textNodes(rule, chainNames) {
  if (rule.target === null || !chainNames.has(rule.target)) return [rule.text];
  const at = rule.text.lastIndexOf(` ${rule.isGoto ? "-g" : "-j"} ${rule.target}`) + 4;
  return [rule.text.slice(0, at), chainLink(rule.target), rule.text.slice(at + rule.target.length)];
}

const FIXED = "This condition is fixed. Change it among the conditions.";
const OPEN = "This condition may hold or not. Change it among the conditions.";

function needNodes(rule, fixed, openCondition) {
  return rule.needs.map((need) => {
    const isFixed = fixed.has(need.condition) || fixed.has(conditionName(need));
    const text = answersText([{ condition: need.condition, holds: need.holds }]);
    return button(`if ${text}`, () => openCondition(need.condition),
      { class: isFixed ? "condition fixed" : "condition", "data-condition": need.condition, title: isFixed ? FIXED : OPEN });
  });
}

// A rule with its state. `how` says what is fixed, which chains there are, and what its buttons do.
function ruleNode(rule, state, how) {
  return element("li", { class: "rule", "data-rule": rule.place, "data-state": state?.life ?? null,
    "data-standing": state?.standing ?? null, tabindex: "-1" },
    element("span", { class: "number", "aria-hidden": "true" }, String(rule.number)),
    element("div", { class: "what" }, element("code", { class: "text" }, ...textNodes(rule, how.chainNames)), " ",
      ...needNodes(rule, how.fixed, how.openCondition)),
    element("span", { class: "state" }, stateText(state)),
    element("span", { class: "action" }, actionNode(rule, state, how.askMore)),
    element("div", { class: "more" }, ...moreNodes(state)));
}

/** Draws the rules of a chain into a place, piece by piece, as long as `isWanted` says so. Nodes are put into `how.nodes`, by their places. */
export async function drawRules(place, chain, states, how, isWanted) {
  for (let at = 0; at < chain.rules.length && isWanted(); at += PIECE) {
    const rules = chain.rules.slice(at, at + PIECE), nodes = rules.map((rule) => ruleNode(rule, states.get(rule.place), how));
    rules.forEach((rule, number) => how.nodes.set(rule.place, nodes[number]));
    const label = `Rules ${at + 1} to ${at + rules.length} of ${chain.name}`;
    place.append(element("ol", { class: "rules", start: String(at + 1), "aria-label": label }, ...nodes));
    if (at + PIECE < chain.rules.length) await breathe();
  }
}

/** Draws rules anew where they stand. */
export async function redrawRules(rules, states, how, isWanted) {
  for (let at = 0; at < rules.length && isWanted(); at += PIECE) {
    for (const rule of rules.slice(at, at + PIECE)) {
      const node = ruleNode(rule, states.get(rule.place), how);
      how.nodes.get(rule.place).replaceWith(node);
      how.nodes.set(rule.place, node);
    }
    if (at + PIECE < rules.length) await breathe();
  }
}
