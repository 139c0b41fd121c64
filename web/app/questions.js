// The questions that the page asks of the programs, each with the command line that gives the same answer.

import { whenWords } from "./conditions.js";
import { Refusal, memoryFailure } from "./failures.js";
import { shellCommand } from "./shell.js";
import { bytesOf } from "./texts.js";
import { run } from "./work.js";

export const FEW_STEPS = 20000;
// The status of a program that had no memory left.
export const NO_MEMORY = 4;

/** The words of iptaudit for assumptions: --steps, --when, --unknown and --local. */
export function assumptionWords({ steps, fixed, unknown, local }) {
  return [
    ...(steps !== FEW_STEPS ? ["--steps", String(steps)] : []), ...whenWords(fixed),
    ...unknown.flatMap((match) => ["--unknown", match]), ...(local !== "" ? ["--local", local] : []),
  ];
}

function filesOf(rulesets) {
  return Object.fromEntries(rulesets.map((each) => [each.name, each.bytes]));
}

async function askAudit(question, words, rulesets, input, what) {
  const all = [question, ...words, ...rulesets.map((each) => each.name)];
  const answer = await run({ program: "iptaudit", words: [...all.slice(0, -rulesets.length), "--json", ...all.slice(-rulesets.length)],
    files: filesOf(rulesets), input: input === undefined ? undefined : bytesOf(input), what });
  if (answer.status === NO_MEMORY) throw memoryFailure("iptaudit");
  if (answer.status === 2) throw new Refusal(answer.messages);
  return { ...JSON.parse(answer.output), command: shellCommand({ program: "iptaudit", words: all, input }), messages: answer.messages };
}

/** A packet for each rule that one can match. */
export function askTests(ruleset, assumed) {
  return askAudit("tests", assumptionWords(assumed), [ruleset], undefined, "Looking for a packet for each rule");
}

/** The rules that no packet can match, and why. */
export function askDead(ruleset, assumed) {
  return askAudit("dead", assumptionWords(assumed), [ruleset], undefined, "Looking for dead rules");
}

/** Whether every packet gets the same verdict from two rulesets. */
export function askCompare(first, second, assumed) {
  return askAudit("compare", assumptionWords(assumed), [first, second], undefined, "Comparing");
}

/** The verdicts of packet lines, with the answers under which they come. */
export function askWalks(ruleset, packets, assumed) {
  return askAudit("walk", assumptionWords(assumed), [ruleset], `${packets.join("\n")}\n`, "Walking");
}

/** The rules that packets match, and those that none of them does. */
export function askCover(ruleset, packets, assumed) {
  return askAudit("cover", assumptionWords(assumed), [ruleset], `${packets.join("\n")}\n`, "Looking for rules that no packet matches");
}

/** The listing of a dump, or a fault in `output`. */
export function askListing(ruleset, what = "Reading") {
  return run({ program: "iptsim", words: ["restore"], input: ruleset.bytes, what });
}

/** The command that prints the listing of a dump. */
export function listingCommand(ruleset) {
  return shellCommand({ program: "iptsim", words: ["restore"], from: ruleset.name });
}

/** The replies to the lines of a session, which begins with the table of `ruleset` where it isn't null. */
export async function askSession(ruleset, text, what) {
  const words = ruleset === null ? ["session"] : ["session", "--load", ruleset.name];
  const files = ruleset === null ? {} : filesOf([ruleset]);
  const answer = await run({ program: "iptsim", words, files, input: bytesOf(text), what });
  return { ...answer, command: shellCommand({ program: "iptsim", words, input: text }) };
}
