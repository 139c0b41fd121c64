// Dumps that are refused: all faults, each with the word at fault, asked of iptaudit.

import { dumpOfLine, withoutLine } from "./dump.js";
import { assumptionWords } from "./questions.js";
import { readFault } from "./replies.js";
import { bytesOf, linesOf } from "./texts.js";
import { contextOf, knownWord, wordPlace, wordsOfLine } from "./word_at_fault.js";
import { isCancelled, run } from "./work.js";

export const MOST_FAULTS = 20;
// Lines of more words aren't asked about word by word.
const MOST_WORDS = 60;

// The first fault of a dump; null where iptaudit reads it.
async function firstFault(text, assumed, what) {
  const words = ["walk", ...assumptionWords({ ...assumed, fixed: new Map() }), "dump.rules"];
  const { status, messages } = await run({ program: "iptaudit", words, files: { "dump.rules": bytesOf(text) }, what });
  return status === 2 ? linesOf(messages).map(readFault).find((fault) => fault !== null) ?? null : null;
}

// The word at fault, found by asking about beginnings of the line.
async function askBeginnings(line, words, chains, fault, assumed) {
  const codes = [];
  for (const word of words) {
    const found = await firstFault(dumpOfLine(chains, line.slice(0, word.end)), assumed, "Looking for the word at fault");
    codes.push(found?.code ?? null);
  }
  return words[wordPlace(codes, fault.code)];
}

// Where the word at fault stands in a line: { start, end, value }, or null.
async function locateWord(line, chains, fault, assumed) {
  const known = knownWord(line, fault), words = wordsOfLine(line);
  if (known !== undefined || words.length > MOST_WORDS) return known ?? null;
  return (await askBeginnings(line, words, chains, fault, assumed)) ?? null;
}

// Finds the faults of a dump, and puts them into a list.
async function findInto(faults, text, assumed) {
  let lines = linesOf(text);
  const given = lines, chains = lines.filter((line) => /^[ \t]*:/.test(line));
  while (faults.length < MOST_FAULTS) {
    const fault = await firstFault(`${lines.join("\n")}\n`, assumed, "Looking for faults");
    if (fault === null) break;
    const line = given[fault.line - 1] ?? "";
    const at = await locateWord(line, chains, fault, assumed);
    faults.push({ ...fault, at, value: at === null ? null : at.value, ...contextOf(line, at) });
    if (fault.code === "R4" || fault.line > lines.length || lines[fault.line - 1] === "#") break;
    lines = withoutLine(lines, fault.line);
  }
}

/**
 * The faults of a dump, in the order of its lines: { line, code, text, whole, at, value, option, match }. There are at most 20, and fewer
 * where the user cancels.
 */
export async function findRefusals(text, assumed) {
  const faults = [];
  try {
    await findInto(faults, text, assumed);
  } catch (error) {
    if (!isCancelled(error)) throw error;
  }
  return faults;
}
