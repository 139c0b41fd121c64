// What iptaudit says of two rulesets: for each hook whether they are the same, or a packet that differs with both walks.

import { button, element } from "../dom.js";
import { counted } from "../texts.js";
import { answersNode, commandsNode, ruleTextNode, verdictNode, verdictOf, walkPacket } from "./parts.js";

function stepRow(ruleset, { chain, number, answers }) {
  const place = `${chain} ${number}`, rule = ruleset.rules.get(place);
  const text = rule === undefined ? null : ruleTextNode(answers === undefined ? rule : { ...rule, needs: [] });
  return element("li", { class: "step matched", "data-step": place }, element("span", { class: "place" }, place), " ", text, " ",
    answersNode(answers));
}

// The walk in one of the rulesets.
function walkSide(title, which, ruleset, walk, packet) {
  return element("div", { class: "side", "data-side": which }, element("h4", {}, title, ": ", ruleset.name),
    element("p", { class: "outcome" }, verdictNode(verdictOf(walk), which === "first")),
    walk.trail.length === 0 ? element("p", { class: "quiet" }, "It matches no rule.")
      : element("ol", { class: "steps" }, ...walk.trail.map((step) => stepRow(ruleset, step))),
    element("p", {}, button("Walk it", () => walkPacket(packet, which), { "aria-label": `Walk the packet in ${ruleset.name}` })));
}

const ANSWERS = {
  same: "same: every packet gets the same verdict",
  unclear: "unclear: not found out within the steps",
  differs: "differs: this packet gets different verdicts",
};

function hookNode(hook, first, second, askMore) {
  const title = element("h3", {}, hook.hook, " ", element("span", { class: `answer ${hook.answer}` }, ANSWERS[hook.answer]));
  if (hook.answer !== "differs") {
    const more = hook.answer === "unclear" ? button("Ask with more steps", askMore, { class: "more-steps" }) : null;
    return element("section", { class: "hook", "data-hook": hook.hook, "data-answer": hook.answer }, title, more);
  }
  return element("section", { class: "hook", "data-hook": hook.hook, "data-answer": hook.answer }, title,
    element("p", {}, element("code", { class: "packet" }, hook.packet), " ", answersNode(hook.answers)),
    element("div", { class: "sides" }, walkSide("First", "first", first, hook.old, hook.packet),
      walkSide("Second", "second", second, hook.new, hook.packet)));
}

function countsText({ changed, dead, unclear }) {
  return `${counted(changed, "changed rule")}, each in one of the rulesets alone: ${dead} dead there, ${unclear} unclear`;
}

/** The answer of compare. `askMore` asks with more steps. */
export function comparisonNodes(answer, first, second, askMore) {
  const premise = answer.premise === undefined ? null : element("p", { class: "hint", id: "premise" },
    "“Same” assumes that a condition that depends on the moment, such as limit, gives a packet the same answer each time, in both rulesets.");
  return [...answer.hooks.map((hook) => hookNode(hook, first, second, askMore)),
    element("p", { class: "summary" }, countsText(answer.counts)), premise, commandsNode([answer.command])];
}
