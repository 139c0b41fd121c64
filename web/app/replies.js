// Replies of a session: the walks of packets, and faults.

import { linesOf } from "./texts.js";

const VERDICT_LINE = /^verdict (\S+)(?: (\S+))??(?: by (rule|policy))?$/;
const STEP_LINE = /^(\S+) ([0-9]+)$/;
const FAULT_LINE = /^line ([0-9]+): ([A-Z][0-9]+) (.*)$/;

/** A fault as a program names it: the line, the code, what it says and, where the program names it, the word. Null for another text. */
export function readFault(line) {
  const found = FAULT_LINE.exec(line);
  if (!found) return null;
  const [, number, code, rest] = found, colon = rest.indexOf(": ");
  const [text, word] = colon < 0 ? [rest, null] : [rest.slice(0, colon), rest.slice(colon + 2)];
  return { line: Number(number), code, text, word, whole: line };
}

/**
 * The replies to packet lines: each a walk ({ steps, verdict, kind, by }) or a fault ({ fault }). `by` is the place of the rule that
 * decides, "policy", or null.
 */
export function readWalks(text) {
  const replies = [];
  let steps = [];
  for (const line of linesOf(text)) {
    const verdict = VERDICT_LINE.exec(line), fault = readFault(line);
    if (STEP_LINE.test(line)) {
      steps.push(line);
    } else if (verdict) {
      const [, name, kind = null, by = null] = verdict;
      replies.push({ steps, verdict: name, kind, by: by === "rule" ? steps.at(-1) : by });
      steps = [];
    } else if (fault) {
      replies.push({ fault });
      steps = [];
    }
  }
  return replies;
}
