// The walk of a packet: the rules that it matches, the verdict, and why other rules don't match.

import { button, element, show } from "../dom.js";
import { readPacketLine, wordsAtFault } from "../packet_line.js";
import { askCover, askSession, askWalks } from "../questions.js";
import { reachedRules } from "../reached.js";
import { readWalks } from "../replies.js";
import { shellCommand } from "../shell.js";
import { counted, listed } from "../texts.js";
import { wordsOf } from "../words.js";
import { answersNode, commandsNode, faultNode, messagesNode, ruleTextNode, verdictNode, verdictOf } from "./parts.js";
import { askFailing, askUnmatched, failNodes, placeNode, unmatchedNode } from "./why_not.js";

// More rules than this that don't match, one after the other, are folded.
const SHOWN_IN_TURN = 40;

function stepNode(rule, place, linked) {
  const text = rule === undefined ? null : ruleTextNode(rule);
  return element("li", { class: "step matched", "data-step": place }, placeNode(place, linked), " ", text);
}

// Rules that aren't matched, folded where they are many.
function foldedNodes(nodes) {
  if (nodes.length <= SHOWN_IN_TURN) return nodes;
  const details = element("details", {}, element("summary", {}, `${counted(nodes.length, "rule")} that it doesn't match`));
  details.addEventListener("toggle", () => details.append(element("ol", { class: "steps" }, ...nodes)), { once: true });
  return [element("li", { class: "step unmatched" }, details)];
}

function runNodes(run, given, linked) {
  return foldedNodes(run.map(({ each, part }) => unmatchedNode(each.rule, failNodes(part, given), linked)));
}

function reachedNodes(reached, parts, given, linked) {
  const nodes = [];
  let run = [], at = 0;
  for (const each of reached) {
    if (each.isMatched) {
      nodes.push(...runNodes(run, given, linked), stepNode(each.rule, each.rule.place, linked));
      run = [];
    } else {
      run.push({ each, part: parts[at++] });
    }
  }
  return [...nodes, ...runNodes(run, given, linked)];
}

// The rules that the packet reached, with those that it didn't match.
async function showReached(place, ruleset, packet, walk, linked) {
  const { hook, given } = readPacketLine(packet);
  const reached = reachedRules(ruleset.chains, hook, walk.steps, walk.by === "policy");
  const unmatched = reached.filter((each) => !each.isMatched);
  const { parts, command } = await askFailing(packet, hook, unmatched.map((each) => each.rule));
  show(place, element("ol", { class: "steps", id: "why-not" }, ...reachedNodes(reached, parts, given, linked)),
    unmatched.length === 0 ? element("p", { class: "quiet" }, "It reached no rule that it didn't match.")
      : commandsNode([command], "The session that tries the conditions one by one"));
}

// The value that the program can't read: the last word of the shortest beginning of the line that is refused for a value.
async function badValue(line) {
  const words = (wordsOf(line) ?? []).slice(1);
  const answer = await askSession(null, words.map((word) => `${line.slice(0, word.end)}\n`).join(""), "Looking for the word at fault");
  const faults = readWalks(answer.output).map((reply) => reply.fault?.code);
  return words[faults.indexOf("F3")]?.value ?? null;
}

/** The meaning of a fault in a packet line, with the words that it is about. */
export async function packetFaultNode(line, fault) {
  const words = wordsAtFault(line, fault.code);
  return faultNode({ ...fault, word: words.length > 0 ? words.join(", ") : fault.code === "F3" ? await badValue(line) : fault.word });
}

// A packet whose line has no state may surprise where rules ask it.
function asksStates(ruleset) {
  return ruleset.chains.some((chain) => chain.rules.some((rule) => / --(?:ct)?state /.test(rule.text)));
}

function headNodes(ruleset, packet) {
  const isWithout = !readPacketLine(packet).given.has("ct") && asksStates(ruleset);
  return [element("h3", {}, "Walk in ", ruleset.name), element("p", {}, element("code", { class: "packet" }, packet)),
    isWithout ? element("p", { class: "hint" }, "The line has no ct, so the packet is INVALID to rules that ask its state.") : null];
}

// A button that has the rules shown that didn't match, once; where that is cancelled or fails, it can be asked again.
function whyButton(showOthers) {
  const why = button("Why didn't other rules match?", async () => {
    why.disabled = true;
    try {
      await showOthers();
      why.remove();
    } finally {
      why.disabled = false;
    }
  }, { id: "ask-why-not" });
  return why;
}

// A walk by iptsim, which names each rule that matched.
async function showSessionWalk(place, ruleset, packet, linked) {
  const answer = await askSession(ruleset, `${packet}\n`, "Walking");
  const [walk] = readWalks(answer.output);
  if (walk === undefined || walk.fault !== undefined) {
    show(place, walk === undefined ? messagesNode(answer.output + answer.messages) : await packetFaultNode(packet, walk.fault));
    return null;
  }
  const steps = element("ol", { class: "steps" }, ...walk.steps.map((step) => stepNode(ruleset.rules.get(step), step, linked)));
  const why = whyButton(() => showReached(trail, ruleset, packet, walk, linked));
  const trail = element("div", {}, walk.steps.length === 0 ? element("p", { class: "quiet" }, "It matches no rule.") : steps);
  show(place, ...headNodes(ruleset, packet), element("p", { class: "outcome" }, verdictNode(walk, linked)), trail,
    element("p", {}, why),
    commandsNode([answer.command, explainCommand(ruleset, packet)]));
  return walk;
}

function explainCommand(ruleset, packet) {
  return shellCommand({ program: "iptsim-explain", words: ["--why-not", ruleset.name, packet.replace(/^packet /, "")] });
}

function outcomeNode(walk, linked) {
  return element("li", {}, walk.answers === undefined ? null : [answersNode(walk.answers), ": "], verdictNode(verdictOf(walk), linked));
}

// The verdicts of a packet: one, or one for each case.
function outcomeNodes({ unclear, walks }, linked) {
  if (unclear) return [element("p", { class: "outcome" }, "unclear: not found out within the steps")];
  if (walks.length === 1) return [element("p", { class: "outcome" }, verdictNode(verdictOf(walks[0]), linked))];
  return [element("p", {}, "The verdict depends on conditions. Just one of these cases holds:"),
    element("ul", { class: "outcomes" }, ...walks.map((walk) => outcomeNode(walk, linked)))];
}

function coveredNodes(cover, linked) {
  const covered = cover.rules.filter((rule) => rule.life === "covered");
  return covered.map((each) => {
    const place = `${each.chain} ${each.number}`;
    return element("li", { class: "step matched", "data-step": place }, placeNode(place, linked), " ",
      ruleTextNode({ text: each.rule, needs: [] }), " ", answersNode(each.answers));
  });
}

// The rules of the chains that the packet enters and that it matches under no answers.
async function showUnmatched(place, ruleset, packet, cover, assumed, linked) {
  const lives = new Map(cover.rules.map((rule) => [`${rule.chain} ${rule.number}`, rule.life]));
  const found = await askUnmatched(ruleset, packet, lives, assumed, linked);
  const others = found.others.length === 0 ? null : `It doesn't enter ${listed(found.others)}.`;
  show(place, element("h4", {}, "Rules that it doesn't match"), found.nodes.length === 0
    ? element("p", { class: "quiet" }, "It matches every rule of the chains that it enters.")
    : element("ol", { class: "steps", id: "why-not" }, ...foldedNodes(found.nodes)),
    others === null ? null : element("p", { class: "quiet" }, others),
    found.commands.length === 0 ? null : commandsNode(found.commands, "The trials of rules and conditions on the command line"));
}

// The verdicts of a dump with conditions, each with the answers under which it comes.
async function showConditionedWalk(place, ruleset, packet, assumed, linked) {
  const walked = await askWalks(ruleset, [packet], assumed);
  const [found] = walked.packets;
  if (found.unclear) {
    show(place, ...headNodes(ruleset, packet), ...outcomeNodes(found, linked), commandsNode([walked.command]));
    return found;
  }
  const cover = await askCover(ruleset, [packet], assumed);
  const rules = coveredNodes(cover, linked), others = element("div", {});
  const why = whyButton(() => showUnmatched(others, ruleset, packet, cover, assumed, linked));
  show(place, ...headNodes(ruleset, packet), ...outcomeNodes(found, linked), element("h4", {}, "Rules that it matches"),
    rules.length === 0 ? element("p", { class: "quiet" }, "It matches no rule.") : element("ol", { class: "steps" }, ...rules),
    element("p", { class: "quiet" }, "In the order of the listing. Where answers stand behind a rule, the packet matches it under "
      + "these, and perhaps under others."),
    others, element("p", {}, why), commandsNode([walked.command, cover.command]));
  return found;
}

/** Walks a packet line in a ruleset, and shows what comes of it. The answer is the walk, or null where the line is refused. */
export function showWalk(place, ruleset, packet, assumed, linked) {
  return ruleset.loads ? showSessionWalk(place, ruleset, packet, linked) : showConditionedWalk(place, ruleset, packet, assumed, linked);
}
