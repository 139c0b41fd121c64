// The view Ruleset: each chain with its rules and their states, conditions, and a drawing of the chains.

import { conditionsOf } from "../conditions.js";
import { breathe, button, byId, element, show } from "../dom.js";
import { hintsOf } from "../dump.js";
import { Refusal } from "../failures.js";
import { referencesOf } from "../listing.js";
import { whenShown } from "../router.js";
import { askStates } from "../rulesets.js";
import { changed, known, whenChanged } from "../state.js";
import { counted, grouped } from "../texts.js";
import { during, isCancelled, say } from "../work.js";
import { openConditionRow, showConditions } from "./conditions_panel.js";
import { chainsDrawing } from "./graph.js";
import { commandsNode, messagesNode, ruleLink } from "./parts.js";
import { drawRules, redrawRules } from "./rules.js";
import { dropRefusedWords } from "./start.js";

// How long a letter may wait for the next one, in milliseconds.
const TYPING = 120;

// Counts drawings, so that one that is out of date ends; and the nodes of the rules that are drawn, by their places.
let drawn = 0;
let ruleNodes = new Map();
let searches = 0;

function howOf(ruleset) {
  return { chainNames: new Set(ruleset.chains.map((chain) => chain.name)), fixed: known.assumed.fixed, nodes: ruleNodes,
    openCondition: openConditionRow, askMore: statesWithMore };
}

function policyNode(chain, references) {
  if (chain.policy !== null) return element("span", { class: "policy" }, `policy ${chain.policy}`);
  const from = references.get(chain.name);
  if (from.length === 0) return element("span", { class: "policy" }, "no rule leads here");
  return element("span", { class: "policy" }, "from ",
    ...from.slice(0, 6).flatMap((rule, at) => [at > 0 ? ", " : "", ruleLink(rule.place)]),
    from.length > 6 ? ` and ${from.length - 6} more` : "");
}

function chainNode(chain, references) {
  return element("section", { class: "chain", "data-chain": chain.name, "aria-label": `Chain ${chain.name}`, tabindex: "-1" },
    element("h3", {}, chain.name, " ", policyNode(chain, references)), element("div", { class: "chain-rules" }),
    chain.rules.length === 0 ? element("p", { class: "quiet" }, "no rules") : null);
}

async function drawChains(ruleset) {
  ruleNodes = new Map();
  const mine = (drawn += 1), references = referencesOf(ruleset.chains), how = howOf(ruleset);
  const nodes = ruleset.chains.map((chain) => chainNode(chain, references));
  show(byId("chains"), ...nodes);
  await during("Drawing", async () => {
    for (const [at, chain] of ruleset.chains.entries()) {
      await drawRules(nodes[at].querySelector(".chain-rules"), chain, ruleset.states, how, () => mine === drawn);
      if (at % 50 === 49) await breathe();
    }
    if (mine === drawn) filterRules();
  });
}

function summaryText({ counts, rules }) {
  const live = counts.rules - counts.dead - counts.unclear;
  const standing = counts.dead > 0 ? ` (${grouped(counts.redundant)} redundant, ${grouped(counts.shadowed)} shadowed)` : "";
  const states = `${grouped(live)} live, ${grouped(counts.dead)} dead${standing}, ${grouped(counts.unclear)} unclear`;
  return `${counted(rules.size, "rule")}: ${states}`;
}

function showSummary(ruleset) {
  const { fixed } = known.assumed;
  const text = `${counted(fixed.size, "condition")} fixed: the answers assume ${fixed.size === 1 ? "it" : "them"}.`;
  const premise = fixed.size > 0 ? element("p", { class: "quiet" }, text) : null;
  show(byId("ruleset-summary"), element("p", { class: "summary" }, summaryText(ruleset)), premise);
  show(byId("ruleset-commands"), commandsNode(ruleset.commands));
}

function showHints(ruleset) {
  const { loadFault } = ruleset;
  const isWhole = !ruleset.loads && loadFault !== null;
  show(byId("ruleset-hints"), ...hintsOf(ruleset.text).map((hint) => element("p", { class: "hint" }, hint.text)),
    isWhole ? element("p", { class: "hint" }, "iptaudit reads this dump, iptsim doesn't: ", element("code", {}, loadFault.whole)) : null);
}

// The same rules with other states stand where they stood.
async function redrawChains(ruleset) {
  const mine = (drawn += 1);
  await redrawRules([...ruleset.rules.values()], ruleset.states, howOf(ruleset), () => mine === drawn);
  if (mine === drawn) filterRules();
}

async function showStates(ruleset) {
  showSummary(ruleset);
  showConditions(ruleset, known.assumed.fixed, fix);
  show(byId("graph-drawing"), ...chainsDrawing(ruleset.chains, ruleset.states));
  await redrawChains(ruleset);
}

// Asks for the states of the rules, and shows them.
async function askAndShow(ruleset) {
  await during("Asking", async () => {
    try {
      await askStates(ruleset, known.assumed);
      if (known.first === ruleset) await showStates(ruleset);
      changed("states");
    } catch (error) {
      if (isCancelled(error)) showCancelled(ruleset);
      else if (error instanceof Refusal) showRefusal(error);
      else throw error;
    }
  });
}

function showCancelled(ruleset) {
  say("Cancelled.");
  show(byId("ruleset-summary"),
    element("p", { class: "summary" }, `${counted(ruleset.rules.size, "rule")}: which are live or dead was not found out.`),
    element("p", {}, button("Ask again", () => askAndShow(ruleset), { id: "ask-again" })));
}

function showRefusal(refusal) {
  dropRefusedWords(refusal.messages);
  show(byId("ruleset-summary"), messagesNode(refusal.messages));
}

function fix(fixed) {
  known.assumed.fixed = fixed;
  changed("assumed");
  return askAndShow(known.first);
}

function statesWithMore() {
  known.assumed.steps *= 10;
  askAndShow(known.first);
}

async function showFirst() {
  const ruleset = known.first;
  show(byId("ruleset-summary"), element("p", { class: "summary" }, counted(ruleset.rules.size, "rule")));
  show(byId("ruleset-commands"));
  showHints(ruleset);
  byId("conditions").hidden = conditionsOf(ruleset.chains).length === 0;
  show(byId("graph-drawing"), ...chainsDrawing(ruleset.chains, ruleset.states));
  await during("Reading", async () => {
    await drawChains(ruleset);
    await askAndShow(ruleset);
  });
}

function isWanted(node, text, filter) {
  const { state, standing } = node.dataset;
  const isKind = filter === "all" || filter === state || filter === standing
    || (filter === "conditions" && node.querySelector(".condition") !== null);
  return isKind && (text === "" || node.querySelector(".what").textContent.toLowerCase().includes(text)
    || node.dataset.rule.toLowerCase() === text);
}

function filterRules() {
  const text = byId("rule-search").value.trim().toLowerCase(), filter = byId("rule-filter").value;
  let count = 0;
  for (const chain of document.querySelectorAll("#chains .chain")) {
    let own = 0;
    for (const node of chain.querySelectorAll(".rule")) {
      node.hidden = !isWanted(node, text, filter);
      own += node.hidden ? 0 : 1;
    }
    chain.hidden = own === 0 && (text !== "" || filter !== "all");
    count += own;
  }
  byId("rule-count").textContent = text === "" && filter === "all" ? "" : `${counted(count, "rule")} shown`;
}

// Waits for the end of typing.
function searchSoon() {
  const mine = (searches += 1);
  during("Searching", async () => {
    await new Promise((go) => setTimeout(go, TYPING));
    if (mine === searches) filterRules();
  });
}

// Scrolls to a chain or a rule, and marks the rule.
function goToPlace(place) {
  if (place === "") return;
  const chains = [...document.querySelectorAll("#chains [data-chain]")];
  const node = ruleNodes.get(place) ?? chains.find((each) => each.dataset.chain === place);
  if (node === undefined) return;
  for (const marked of document.querySelectorAll(".rule.here")) marked.classList.remove("here");
  node.hidden = false;
  node.closest(".chain").hidden = false;
  if (node.dataset.rule !== undefined) node.classList.add("here");
  node.scrollIntoView({ block: node.dataset.rule === undefined ? "start" : "center" });
  node.focus({ preventScroll: true });
}

export function startRuleset() {
  whenChanged("first", showFirst);
  whenShown("ruleset", goToPlace);
  byId("rule-filter").addEventListener("change", filterRules);
  byId("rule-search").addEventListener("input", searchSoon);
  byId("rule-tools").addEventListener("submit", (event) => event.preventDefault());
}
