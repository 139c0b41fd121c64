// Packet lines: their text taken apart and put together. Whether a line is right is for the programs to say.

import { PACKET_KEYS, keysCarried, keysMissing } from "./packet_keys.js";
import { wordsOf } from "./words.js";

const KEY_NAMES = PACKET_KEYS.map((each) => each.key);

/** What a packet line gives: its hook and its keys (a Map), and `others`, the words that are no key with a value, or repeat one. */
export function readPacketLine(line) {
  const words = (wordsOf(line) ?? []).map((word) => word.value);
  const [hook = "", ...rest] = words[0] === "packet" ? words.slice(1) : words;
  const given = new Map(), others = [];
  for (const word of rest) {
    const equal = word.indexOf("="), key = word.slice(0, equal);
    if (equal > 0 && KEY_NAMES.includes(key) && !given.has(key)) given.set(key, word.slice(equal + 1));
    else others.push(word);
  }
  return { hook, given, others };
}

/** The line of a packet, with the keys in the order of the manual. */
export function packetLine({ hook, given, others = [] }) {
  const keys = KEY_NAMES.filter((key) => given.has(key) && given.get(key) !== "").map((key) => `${key}=${given.get(key)}`);
  return ["packet", hook, ...keys, ...others].join(" ");
}

/** The line as a program takes it, with `packet` in front. */
export function wholePacketLine(text) {
  const line = text.trim();
  return /^packet([ \t]|$)/.test(line) ? line : `packet ${line}`;
}

/** The words that a fault of a packet line is about, as far as the line alone shows them. */
export function wordsAtFault(line, code) {
  const { hook, given, others } = readPacketLine(line);
  if (code === "F2") return keysMissing(given);
  if (code === "F4") {
    const carried = keysCarried(hook, given);
    return [...given.keys()].filter((key) => !carried.includes(key));
  }
  return code === "F1" ? (["INPUT", "FORWARD", "OUTPUT"].includes(hook) ? others.slice(0, 1) : [hook || "no hook"]) : [];
}
