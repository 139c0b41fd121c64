// The word at fault in a refused line, and words of --unknown that would have it read.

import { roughWordsOf, wordsOf } from "./words.js";

// Faults of which the option is at fault, and not its value.
const OF_OPTION = ["P2", "P4", "P6", "P8", "P9", "P11", "T13", "D2"];
// After how many words of a line stands what a fault is about.
const WORD_PLACES = { C1: 0, R1: 0, R3: 0, T1: 1, T2: 1, T3: 1, T4: 2, T5: 1, T6: 1, T7: 1, T8: 1, T9: 1, T14: 1, T15: 1, T16: 2 };
// Matches whose options are read, so none is taken as a condition, and how a line goes on after its conditions.
const READ_MATCHES = ["tcp", "udp", "icmp", "multiport", "iprange", "conntrack", "state", "ttl", "comment"];
// A line of a dump that makes a chain or sets its policy.
const CHAIN_LINE = /^[ \t]*:/;
// What a beginning is refused with that lacks a value.
const LACKING = ["P2", "D2"];
const TARGET_BEFORE = /(^|[ \t])(-j|-g|--jump|--goto)[ \t]/;

export function wordsOfLine(line) {
  return wordsOf(line) ?? roughWordsOf(line);
}

/** The word that a fault is about, as far as the line and the fault show it: a word with its place, null, or undefined where they don't. */
export function knownWord(line, { code, word }) {
  const words = wordsOfLine(line);
  if (word !== null) return words.find((each) => each.value === word) ?? null;
  if (CHAIN_LINE.test(line)) return code === "R2" ? null : words[0] ?? null;
  if (code in WORD_PLACES) return words[WORD_PLACES[code]] ?? null;
  const jump = words.findIndex((each) => each.value === "-j" || each.value === "-g");
  if (code === "T11" || code === "T12") return words[jump + 1] ?? null;
  return line.trim().startsWith("-") ? undefined : null;
}

/**
 * The place of the word at fault, by the codes that the beginnings of one word, two words and so on are refused with (null where they
 * aren't): the last word of the shortest beginning that is refused as the line is, or its option.
 */
export function wordPlace(codes, code) {
  let place = codes.length;
  while (place > 0 && (codes[place - 1] === code || LACKING.includes(codes[place - 1]))) place -= 1;
  while (place < codes.length && codes[place] !== code) place += 1;
  if (!OF_OPTION.includes(code)) return place;
  while (place > 0 && LACKING.includes(codes[place - 1])) place -= 1;
  return place;
}

/** The option that a word is a value of, and the match whose options stand before it. */
export function contextOf(line, at) {
  const before = wordsOfLine(line).filter((word) => at !== null && word.start < at.start).map((word) => word.value);
  const match = before.lastIndexOf("-m");
  return { option: before.findLast((word) => word.startsWith("-")) ?? null, match: match < 0 ? null : before[match + 1] ?? null };
}

// How many words after a place are values: those up to the next option.
function valueCount(line, end) {
  const values = wordsOfLine(line.slice(end)).map((word) => word.value);
  const next = values.findIndex((word) => word.startsWith("-") || word === "!");
  return next < 0 ? values.length : next;
}

/** The words of --unknown that would take what a fault is about as a condition; null where there are none. */
export function unknownWords({ code, at, value, match }, line) {
  if (at === null) return null;
  if (code === "D3") {
    const option = /^[ \t]+(?:![ \t]+)?(--[^ \t]+)/.exec(line.slice(at.end));
    return option === null ? value : `${value} ${option[1]} ${valueCount(line, at.end + option[0].length)}`;
  }
  const isOption = code === "D1" && value.startsWith("--") && !TARGET_BEFORE.test(line.slice(0, at.start));
  return isOption && match !== null && !READ_MATCHES.includes(match) ? `${match} ${value} ${valueCount(line, at.end)}` : null;
}
