// What a dump's lines say before any program reads them: sections, chain lines, and hints.

import { otherKind } from "./file_kinds.js";
import { linesOf } from "./texts.js";

const FIT_LINE = /^# iptsim-fit:/;
// Lines that make chains or set policies, as they stand in a section.
const CHAIN_WORD = /^[ \t]*(?::|-[NPXE][ \t]|--(?:new-chain|policy|delete-chain|rename-chain)[ \t])/;

/** The lines of all sections that make chains and set policies, in a dump without rules. */
export function chainLines(text) {
  const kept = [];
  let section = null;
  for (const line of linesOf(text)) {
    const opened = section === null ? /^[ \t]*\*(\S+)/.exec(line) : null;
    if (opened) section = opened[1];
    if (opened || line.trim() === "COMMIT" || (section === "filter" && CHAIN_WORD.test(line))) kept.push(line);
    if (line.trim() === "COMMIT") section = null;
  }
  return `${kept.join("\n")}\n`;
}

/** What is worth saying of a dump, as sentences with a kind. */
export function hintsOf(text) {
  const lines = linesOf(text), hints = [], other = otherKind(text);
  if (other !== null) hints.push(other);
  const returns = lines.filter((line) => line.endsWith("\r")).length;
  if (returns > 0) hints.push({ kind: "returns", text: "Lines of this file end with carriage returns, which are no blanks: remove them." });
  if (text.includes("\uFFFD")) {
    hints.push({ kind: "bytes", text: "Bytes of this file aren't UTF-8. They stand as \uFFFD here, and a text that you edit keeps that in their place." });
  }
  for (const line of lines.filter((each) => FIT_LINE.test(each))) {
    const done = line.replace(/^# iptsim-fit: (for trials; )?/, "").trim();
    hints.push({ kind: "fit", text: `iptsim-fit wrote this dump for trials, and never for a gateway: ${done}.` });
  }
  const tables = lines.map((line) => /^[ \t]*\*(\S+)/.exec(line)?.[1]).filter((name) => name !== undefined);
  if (!tables.includes("filter") && other === null) hints.push({ kind: "filter", text: "The file has no section *filter, so the table has no rules." });
  const skipped = [...new Set(tables.filter((name) => name !== "filter"))];
  if (skipped.length > 0 && tables.includes("filter")) {
    hints.push({ kind: "skipped", text: `Sections of other tables are skipped: ${skipped.join(", ")}.` });
  }
  return hints;
}

/** The dump in which the line with this number, from 1, is a comment. */
export function withoutLine(lines, number) {
  const next = lines.slice();
  next[number - 1] = "#";
  return next;
}

/** The section filter with a line alone, and with the chains of a dump before it. */
export function dumpOfLine(chains, line) {
  return `*filter\n${chains.join("\n")}\n${line}\nCOMMIT\n`;
}
