// A dump that is refused: its text with line numbers, each fault beside its line, and what to do about it.

import { button, element, show } from "../dom.js";
import { adviceOn } from "../faults.js";
import { MOST_FAULTS } from "../refusals.js";
import { shellQuoted } from "../shell.js";
import { counted, linesOf } from "../texts.js";
import { unknownWords } from "../word_at_fault.js";
import { commandsNode } from "./parts.js";

// Lines that are shown before and after one with a fault.
const AROUND = 3;

function markedLine(line, at) {
  return at === null ? [line] : [line.slice(0, at.start), element("mark", {}, line.slice(at.start, at.end)), line.slice(at.end)];
}

// A fault with its word, what to do about it, and where it helps a button that takes it as a condition.
function faultRow(fault, line, takeUnknown) {
  const word = fault.value === null ? [] : [": ", element("code", {}, fault.value)], unknown = unknownWords(fault, line);
  const take = () => button(`Take it as a condition: --unknown '${unknown}'`, () => takeUnknown(unknown),
    { class: "take-unknown", "data-unknown": unknown });
  return element("div", { class: "fault-note", "data-fault": fault.code },
    element("p", {}, element("strong", {}, `${fault.code} ${fault.text}`), ...word),
    element("p", {}, adviceOn(fault.code, fault.option, fault.value)), unknown === null ? null : element("p", {}, take()));
}

// The numbers of the lines that are shown: those with faults and some around them.
function shownNumbers(count, faults) {
  const numbers = new Set();
  for (const { line } of faults) {
    for (let number = Math.max(1, line - AROUND); number <= Math.min(count, line + AROUND); number += 1) numbers.add(number);
  }
  return [...numbers].sort((one, other) => one - other);
}

function faultLines(lines, faults, takeUnknown) {
  const rows = [];
  let last = 0;
  for (const number of shownNumbers(lines.length, faults)) {
    if (number > last + 1) rows.push(element("div", { class: "gap" }, `lines ${last + 1} to ${number - 1} left out`));
    last = number;
    const here = faults.filter((fault) => fault.line === number), line = lines[number - 1];
    rows.push(element("div", { class: here.length > 0 ? "numbered wrong" : "numbered" },
      element("span", { class: "number" }, String(number)),
      element("code", {}, ...markedLine(line.replace(/\r$/, "␍"), here[0]?.at ?? null))),
    ...here.map((fault) => faultRow(fault, line, takeUnknown)));
  }
  return rows;
}

/**
 * Shows why a dump is refused; `stillOpen` names the ruleset that the other views show, or is null. `retry` is called with the edited
 * text, and `takeUnknown` with the words of --unknown and the edited text.
 */
export function showRefused(place, { name, text, faults, messages, hints, stillOpen }, { retry, takeUnknown }) {
  const lines = linesOf(text);
  const edited = element("textarea", { id: "refused-text", rows: "14", spellcheck: "false", "aria-label": `The dump ${name}`, value: text });
  const withoutReturns = button("Remove carriage returns, and try again", () => retry(edited.value.replaceAll("\r", "")), { id: "remove-returns" });
  const most = faults.length === MOST_FAULTS ? "at least " : "";
  const title = faults.length > 0 ? `${name} is refused: ${most}${counted(faults.length, "line")} can't be read` : `${name} is refused`;
  show(place, element("h3", { tabindex: "-1", id: "refused-title" }, title),
    ...hints.map((hint) => element("p", { class: "hint", "data-hint": hint.kind }, hint.text)),
    stillOpen === null ? null : element("p", { class: "hint" }, `The other views still show ${stillOpen}.`),
    hints.some((hint) => hint.kind === "returns") ? element("p", {}, withoutReturns) : null,
    faults.length === 0 || /^iptaudit: /.test(messages) ? element("pre", { class: "messages" }, messages.trim()) : null,
    element("div", { class: "faults" }, ...faultLines(lines, faults, (unknown) => takeUnknown(unknown, edited.value))),
    commandsNode([`iptaudit dead ${shellQuoted(name)}`, `iptsim-check ${shellQuoted(name)}`], "On the command line"),
    element("details", { open: lines.length < 400 }, element("summary", {}, "Edit the text"), edited),
    element("p", { class: "row" }, button("Try again", () => retry(edited.value), { id: "try-again", class: "main" })));
  place.hidden = false;
  place.querySelector("#refused-title").focus();
}
