// Parts that several views show: commands, rules, verdicts, conditions, faults.

import { answersText } from "../conditions.js";
import { button, element } from "../dom.js";
import { meaningOf } from "../faults.js";
import { openView } from "../router.js";
import { changed, known } from "../state.js";

async function copyText(text, source) {
  try {
    await navigator.clipboard.writeText(text);
  } catch {
    const range = document.createRange();
    range.selectNodeContents(source);
    getSelection().removeAllRanges();
    getSelection().addRange(range);
    document.execCommand("copy");
  }
}

// The command line that gives an answer, with a button that copies it.
function commandNode(command) {
  const code = element("code", { class: "command-text", "data-command": true, tabindex: "0" }, command);
  const copy = button("Copy", async () => {
    await copyText(command, code);
    copy.textContent = "Copied";
    setTimeout(() => (copy.textContent = "Copy"), 2000);
  }, { class: "copy", "aria-label": `Copy the command ${command.split("\n")[0].slice(0, 80)}` });
  return element("div", { class: "command" }, code, copy);
}

/** Commands that give the same answers, folded. */
export function commandsNode(commands, title = "The same answers on the command line") {
  return element("details", { class: "commands" }, element("summary", {}, title), ...commands.map(commandNode));
}

/** A link to a rule in the view Ruleset. */
export function ruleLink(place) {
  return element("a", { class: "place", href: `#ruleset/${encodeURIComponent(place)}` }, place);
}

export function chainLink(name, text = name) {
  return element("a", { class: "chain-link", href: `#ruleset/${encodeURIComponent(name)}` }, text);
}

/** A verdict with what gives it: the place of a rule, "policy" or null. `linked` says whether the rule is one of the first ruleset. */
export function verdictNode({ verdict, kind, by }, linked = true) {
  const name = `${verdict}${kind ? ` ${kind}` : ""}`, kindClass = verdict.split(" ")[0].toLowerCase();
  const rule = () => (linked ? ruleLink(by) : element("span", { class: "place" }, by));
  const from = by === null || by === undefined ? [] : by === "policy" ? [" by the policy"] : [" by ", rule()];
  return element("span", { class: `verdict ${kindClass}`, "data-verdict": name }, element("strong", {}, name), ...from);
}

/** A verdict of iptaudit's JSON, as verdictNode takes it. */
export function verdictOf({ verdict, by }) {
  const place = by === undefined ? null : by.policy !== undefined ? "policy" : `${by.chain} ${by.number}`;
  const [name, ...words] = verdict.split(" ");
  return { verdict: name, kind: words.join(" ") || null, by: place };
}

/** Under which answers something is so. */
export function answersNode(answers) {
  return answers === undefined ? null : element("span", { class: "answers" }, "if ", element("code", {}, answersText(answers)));
}

/** A rule's text with the conditions that it has beside its listing. */
export function ruleTextNode(rule) {
  const needs = answersText(rule.needs.map(({ condition, holds }) => ({ condition, holds })));
  return element("code", { class: "text" }, rule.text, ...(needs === "" ? [] : [" ", element("span", { class: "needs" }, `if ${needs}`)]));
}

/** Goes to the view Packet with a packet line; `which` is the ruleset in which it walks, "first" or "second". */
export function walkPacket(line, which = "first") {
  known.packet = line;
  known.walkIn = which;
  openView("packet");
  changed("packet");
}

/** A fault with what it means. */
export function faultNode(fault) {
  const word = fault.word === null ? [] : [": ", element("code", {}, fault.word)];
  return element("div", { class: "fault", role: "alert" }, element("p", {}, element("strong", {}, fault.code), ` ${fault.text}`, ...word),
    element("p", {}, meaningOf(fault.code)));
}

/** What a program says where it can't answer. */
export function messagesNode(text) {
  return element("pre", { class: "messages", role: "alert" }, text.trim());
}
