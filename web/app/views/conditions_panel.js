// The conditions of a ruleset: each may hold, holds or doesn't hold, everywhere or at one place.

import { conditionsOf, withAnswer } from "../conditions.js";
import { byId, element, show } from "../dom.js";
import { counted } from "../texts.js";
import { ruleLink } from "./parts.js";

const CHOICES = [["open", "may hold"], ["true", "holds"], ["false", "doesn't hold"]];

function choiceNode(label, holds, choose) {
  const value = holds === undefined ? "open" : String(holds);
  const chosen = (event) => choose(event.target.value === "open" ? null : event.target.value === "true");
  return element("select", { "aria-label": label, onchange: chosen },
    ...CHOICES.map(([name, text]) => element("option", { value: name, selected: name === value }, text)));
}

// A condition at one of its places, which iptaudit takes as `CONDITION at CHAIN NUMBER`.
function placeRow(each, [name, place], fixed, fix) {
  return element("li", { class: "condition-place" }, ruleLink(place), choiceNode(`${each.condition} at ${place}`, fixed.get(name),
    (holds) => fix(withAnswer(withAnswer(fixed, each.condition, [], null), name, [], holds))));
}

function conditionRow(each, fixed, fix) {
  const names = [...each.places.keys()], isOfPlaces = each.places.size > 1;
  const places = isOfPlaces ? element("ul", {}, ...[...each.places].map((place) => placeRow(each, place, fixed, fix)))
    : element("span", { class: "quiet" }, "in ", ...each.rules.slice(0, 12).flatMap((place, at) => [at > 0 ? ", " : "", ruleLink(place)]),
      each.rules.length > 12 ? ` and ${each.rules.length - 12} more` : "");
  const kind = each.places.size > 0 ? "depends on the moment" : "depends on the packet alone";
  return element("li", { class: "condition-row", "data-condition": each.condition }, element("code", {}, each.condition),
    element("span", { class: "quiet" }, kind),
    choiceNode(`${each.condition} everywhere`, fixed.get(each.condition) ?? fixed.get(names.length === 1 ? names[0] : ""),
      (holds) => fix(withAnswer(fixed, each.condition, names, holds))), places);
}

function openText(open) {
  const all = open.reduce((sum, { count }) => sum + count, 0);
  return `${counted(all, "condition")} open: ${open.map(({ match, count }) => `${match} ${count}`).join(", ")}`;
}

/** Shows the conditions of a ruleset. `fix` is called with what is fixed from then on, a Map from conditions to whether they hold. */
export function showConditions(ruleset, fixed, fix) {
  const conditions = conditionsOf(ruleset.chains), panel = byId("conditions");
  panel.hidden = conditions.length === 0;
  if (panel.hidden) return;
  const open = ruleset.open ?? [], active = document.activeElement;
  const focused = panel.contains(active) ? active.getAttribute("aria-label") : null;
  panel.querySelector("summary").textContent = open.length > 0 ? openText(open) : `Conditions: ${fixed.size} fixed, none open`;
  show(byId("conditions-list"),
    element("p", { class: "quiet" },
      "Rules ask these beside what a packet line says. The answers of this page are right whichever of them hold together, unless you fix some."),
    element("ul", { class: "conditions" }, ...conditions.map((each) => conditionRow(each, fixed, fix))));
  if (focused !== null) [...panel.querySelectorAll("select")].find((each) => each.getAttribute("aria-label") === focused)?.focus();
}

/** Opens the conditions at one of them. */
export function openConditionRow(condition) {
  byId("conditions").open = true;
  const row = [...document.querySelectorAll(".condition-row")].find((each) => each.dataset.condition === condition);
  row?.querySelector("select").focus();
  row?.scrollIntoView({ block: "center" });
}
