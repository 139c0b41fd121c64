// What came of packets with expected verdicts: each gets a `result` with its kind and, where they are of use, nodes that say what came.

import { element } from "../dom.js";
import { Refusal } from "../failures.js";
import { askSession, askWalks } from "../questions.js";
import { readFault, readWalks } from "../replies.js";
import { shellCommand } from "../shell.js";
import { assumedIn, known } from "../state.js";
import { isDue, readDue } from "../wishes.js";
import { answersNode, verdictNode, verdictOf } from "./parts.js";
import { packetFaultNode } from "./walk.js";

function cameNode({ came, answers }) {
  const before = answers === undefined ? ["came: "] : [answersNode(answers), ": "];
  return element("p", {}, ...before, verdictNode(came, known.walkIn === "first"));
}

// `cases` are the verdicts that may come, each with the answers under which it does.
function resultOf(item, cases) {
  const due = item.due === "" ? null : readDue(item.due);
  if (due === null) return { kind: "shown", nodes: cases.map(cameNode) };
  if (due.fault !== undefined) return { kind: "fault", nodes: [due.fault] };
  const isPassed = cases.every(({ came }) => isDue(due, came));
  return isPassed ? { kind: "passed", nodes: [] } : { kind: "failed", nodes: cases.map(cameNode) };
}

async function resultOfFault(item, fault) {
  return { kind: "fault", nodes: [await packetFaultNode(item.packet, fault)] };
}

function resultOfAnswer(item, answer) {
  if (answer.unclear) return { kind: "fault", nodes: ["unclear: not found out within the steps"] };
  return resultOf(item, answer.walks.map((walk) => ({ came: verdictOf(walk), answers: walk.answers })));
}

// Asks iptsim, which answers each line.
async function askByIptsim(ruleset, items, name) {
  const answer = await askSession(ruleset, `${items.map((item) => item.packet).join("\n")}\n`, "Walking the packets");
  const walks = readWalks(answer.output);
  for (const [at, item] of items.entries()) {
    const { fault } = walks[at];
    item.result = fault === undefined ? resultOf(item, [{ came: walks[at] }]) : await resultOfFault(item, fault);
  }
  return shellCommand({ program: "iptsim-expect", words: [ruleset.name, name] });
}

// Asks iptaudit, which refuses all lines for one that it can't read: that one is left out, and the others are asked again.
async function askByIptaudit(ruleset, items) {
  let left = items;
  while (left.length > 0) {
    try {
      const answer = await askWalks(ruleset, left.map((item) => item.packet), assumedIn(ruleset));
      left.forEach((item, at) => (item.result = resultOfAnswer(item, answer.packets[at])));
      return answer.command;
    } catch (error) {
      const fault = error instanceof Refusal ? readFault(error.messages.split("\n")[0]) : null;
      const wrong = fault === null ? undefined : left[fault.line - 1];
      if (wrong === undefined) throw error;
      wrong.result = await resultOfFault(wrong, fault);
      left = left.filter((item) => item !== wrong);
    }
  }
  return null;
}

/** Walks the packets of items in a ruleset, and puts a result into each. The answer is the command line that gives the same, or null. */
export function askResults(ruleset, items, name) {
  return ruleset.loads ? askByIptsim(ruleset, items, name) : askByIptaudit(ruleset, items);
}
