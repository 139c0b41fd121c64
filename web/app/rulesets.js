// Rulesets: what the programs say of a dump.

import { chainLines } from "./dump.js";
import { Refusal, memoryFailure } from "./failures.js";
import { chainsOfAnswer, chainsOfListing, readListing } from "./listing.js";
import { NO_MEMORY, askDead, askListing, askTests, listingCommand } from "./questions.js";
import { readFault } from "./replies.js";
import { fileWord } from "./shell.js";
import { bytesOf, linesOf, textOf } from "./texts.js";

/** A dump that is yet to be read. */
export function newRuleset(name, bytes) {
  return {
    name: fileWord(name), bytes, text: textOf(bytes), chains: [], rules: new Map(), loads: false, loadFault: null,
    states: new Map(), tests: null, dead: null,
  };
}

function setChains(ruleset, chains) {
  ruleset.chains = chains;
  ruleset.rules = new Map(chains.flatMap((chain) => chain.rules.map((rule) => [rule.place, rule])));
}

// The chains and policies of a dump whose rules iptsim doesn't read: those of its chain lines alone.
async function chainsOf(ruleset) {
  const answer = await askListing({ bytes: bytesOf(chainLines(ruleset.text)) });
  return answer.status === 0 ? readListing(answer.output) : [];
}

/** Reads the rules of a dump, with no condition fixed. A Refusal says that neither program does. */
export async function readRuleset(ruleset, assumed) {
  const listing = await askListing(ruleset);
  if (listing.status === NO_MEMORY) throw memoryFailure("iptsim");
  ruleset.loads = listing.status === 0;
  if (ruleset.loads) {
    setChains(ruleset, chainsOfListing(readListing(listing.output)));
    return;
  }
  ruleset.loadFault = readFault(linesOf(listing.output).at(-1) ?? "");
  ruleset.tests = await askTests(ruleset, { ...assumed, fixed: new Map() });
  setChains(ruleset, chainsOfAnswer(await chainsOf(ruleset), ruleset.tests.rules));
}

// What is known of a rule: live with a packet, dead with a reason, or unclear.
function statesOf(tests, dead) {
  const states = new Map(tests.rules.map((each) => [`${each.chain} ${each.number}`, each]));
  for (const each of dead.rules) states.set(`${each.chain} ${each.number}`, each);
  return states;
}

/** Asks which rules are live and dead; with conditions also anew how rules are listed. */
export async function askStates(ruleset, assumed) {
  const tests = ruleset.tests ?? (await askTests(ruleset, assumed));
  const dead = await askDead(ruleset, assumed);
  if (tests.rules.length !== ruleset.rules.size) throw new Refusal("The programs read different rules.");
  ruleset.tests = null;
  if (!ruleset.loads) setChains(ruleset, chainsOfAnswer(ruleset.chains, tests.rules));
  ruleset.states = statesOf(tests, dead);
  ruleset.open = dead.open ?? [];
  ruleset.counts = dead.counts;
  ruleset.commands = [dead.command, tests.command, ...(ruleset.loads ? [listingCommand(ruleset)] : [])];
}
