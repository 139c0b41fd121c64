// The view Change: a second ruleset, and how it treats packets otherwise than the first.

import { fixedInChains } from "../conditions.js";
import { byId, element, saveFile, show } from "../dom.js";
import { Refusal } from "../failures.js";
import { askCompare } from "../questions.js";
import { known, whenChanged } from "../state.js";
import { bytesOf, linesOf, textOf } from "../texts.js";
import { announce, during, isCancelled, say } from "../work.js";
import { comparisonNodes } from "./comparison.js";
import { drawLines } from "./lines_drawing.js";
import { messagesNode } from "./parts.js";
import { readDump, watchFiles } from "./start.js";

let secondName = "changed.rules";
// The bytes of a file that was opened, until its text is edited.
let secondBytes = null;
let linesDrawn = 0;

// A name for the second ruleset that isn't the first one's.
function nameBeside(first, name) {
  return name === first ? `changed-${name}` : name;
}

function takeSecondFile(name, bytes) {
  secondName = name;
  secondBytes = bytes;
  byId("second-text").value = textOf(bytes);
  compareSecond();
}

function editFirst() {
  secondName = `changed-${known.first.name}`;
  secondBytes = null;
  byId("second-text").value = known.first.text;
  byId("second-text").focus();
}

async function showLines() {
  const mine = (linesDrawn += 1);
  const [first, second] = [known.first, known.second].map(({ name, text }) => ({ name, lines: linesOf(text) }));
  await drawLines(byId("lines"), first, second, () => mine === linesDrawn);
}

function compareWithMore() {
  known.assumed.steps *= 10;
  showComparison();
}

// What the comparison assumes: the conditions that are fixed in the first ruleset.
function premiseNode(fixed) {
  if (fixed.size === 0) return null;
  const names = [...fixed].map(([name, holds]) => element("li", {}, element("code", {}, name), holds ? " holds" : " doesn't hold"));
  const isOfPlaces = [...fixed.keys()].some((name) => !known.assumed.fixed.has(name));
  return element("div", { class: "hint", id: "fixed-here" },
    element("p", {}, "In both rulesets the conditions are as you fixed them in the first:"), element("ul", {}, ...names), isOfPlaces
      ? element("p", {}, "Of conditions with one text in one chain, the first of a ruleset is that of the other, and so on.") : null);
}

async function showComparison() {
  const { first, second, assumed } = known;
  await during("Comparing", async () => {
    try {
      const fixed = fixedInChains(assumed.fixed, first.chains);
      const answer = await askCompare(first, second, { ...assumed, fixed });
      announce(answer.hooks.map(({ hook, answer: came }) => `${hook} ${came}`).join(", "));
      show(byId("comparison"), premiseNode(fixed), ...comparisonNodes(answer, first, second, compareWithMore));
    } catch (error) {
      if (isCancelled(error)) say("Cancelled.");
      else if (error instanceof Refusal) show(byId("comparison"), messagesNode(error.messages));
      else throw error;
    }
    await showLines();
  });
}

async function takeSecond(ruleset) {
  known.second = ruleset;
  if (byId("second-text").value !== ruleset.text) byId("second-text").value = ruleset.text;
  await showComparison();
}

async function compareSecond() {
  const text = byId("second-text").value;
  if (text.trim() === "" && secondBytes === null) {
    say("Give the second ruleset first.");
    return;
  }
  show(byId("comparison"));
  show(byId("lines"));
  show(byId("second-refused"));
  await readDump(nameBeside(known.first.name, secondName), secondBytes ?? bytesOf(text), byId("second-refused"), takeSecond);
}

export function startChange() {
  watchFiles(byId("second-drop"), byId("second-file"), takeSecondFile);
  byId("edit-first").addEventListener("click", editFirst);
  byId("compare").addEventListener("click", compareSecond);
  byId("second-text").addEventListener("input", () => (secondBytes = null));
  byId("save-second").addEventListener("click", () => saveFile(secondName, byId("second-text").value));
  whenChanged("first", () => {
    for (const id of ["comparison", "lines"]) show(byId(id));
    byId("second-text").value = "";
    secondBytes = null;
  });
}
