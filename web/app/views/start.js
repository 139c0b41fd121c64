// The start: a dump is opened, dropped, pasted or taken from the examples, and read.

import { findRefusals } from "../refusals.js";
import { hintsOf } from "../dump.js";
import { breathe, byId, show } from "../dom.js";
import { EXAMPLES } from "../examples.js";
import { Failure, Refusal } from "../failures.js";
import { FEW_STEPS } from "../questions.js";
import { openView } from "../router.js";
import { newRuleset, readRuleset } from "../rulesets.js";
import { changed, known } from "../state.js";
import { bytesOf, counted } from "../texts.js";
import { during, isCancelled, say } from "../work.js";
import { messagesNode } from "./parts.js";
import { showRefused } from "./refused.js";

function showTabs() {
  for (const view of ["ruleset", "packet", "change"]) byId(`tab-${view}`).hidden = known.first === null;
  byId("ruleset-name").hidden = known.first === null;
  const { first } = known;
  if (first === null) return;
  byId("ruleset-name").textContent = `${first.name}: ${counted(first.rules.size, "rule")}, ${counted(first.chains.length, "chain")}`;
}

function takeFirst(ruleset) {
  known.first = ruleset;
  known.second = null;
  known.walkIn = "first";
  byId("refused").hidden = true;
  showTabs();
  changed("first");
  openView("ruleset");
}

/** Drops the words of --unknown that a program refuses. */
export function dropRefusedWords(messages) {
  const { assumed } = known;
  const lines = messages.split("\n").filter((line) => line.startsWith("iptaudit: "));
  assumed.unknown = assumed.unknown.filter((match) => !lines.some((line) => line.endsWith(`: ${match}`)));
  byId("unknown").value = assumed.unknown.join("\n");
}

// Shows why a dump is refused. `retry` reads the edited text again.
async function showFaults(place, ruleset, refusal, retry) {
  dropRefusedWords(refusal.messages);
  const faults = await findRefusals(ruleset.text, known.assumed);
  const stillOpen = place === byId("refused") ? known.first?.name ?? null : null;
  const about = { faults, messages: refusal.messages, hints: hintsOf(ruleset.text), stillOpen };
  showRefused(place, { name: ruleset.name, text: ruleset.text, ...about }, {
    retry,
    takeUnknown: (unknown, text) => {
      known.assumed.unknown = [...known.assumed.unknown, unknown];
      byId("unknown").value = known.assumed.unknown.join("\n");
      return retry(text);
    },
  });
}

function showFailure(place, failure) {
  show(place, messagesNode(failure.messages));
  place.hidden = false;
}

/** Reads a dump, and has it taken; where it is refused, shows why in a place, with a way to try again. */
export async function readDump(name, bytes, place, take) {
  const ruleset = newRuleset(name, bytes);
  await during(`Reading ${ruleset.name}`, async () => {
    try {
      await readRuleset(ruleset, known.assumed);
      place.hidden = true;
      take(ruleset);
    } catch (error) {
      if (isCancelled(error)) say("Cancelled.");
      else if (error instanceof Failure) showFailure(place, error);
      else if (error instanceof Refusal) await showFaults(place, ruleset, error, (text) => readDump(name, bytesOf(text), place, take));
      else throw error;
    }
  });
}

// Takes the addresses of the machine and the matches that are read as conditions.
function takeOptions() {
  known.assumed.local = byId("local").value.replaceAll(/[ \t]/g, "");
  known.assumed.unknown = byId("unknown").value.split("\n").map((line) => line.trim()).filter((line) => line !== "");
}

// Opens a dump as the first ruleset.
async function openDump(name, bytes) {
  takeOptions();
  Object.assign(known.assumed, { fixed: new Map(), steps: FEW_STEPS });
  show(byId("refused"));
  await readDump(name, bytes, byId("refused"), takeFirst);
  if (!byId("refused").hidden) openView("start");
}

/** Has files that are dropped on a node, or chosen with an input, read: `take` gets the name and the bytes. */
export function watchFiles(node, input, take) {
  const read = (file) => during(`Reading ${file.name}`, async () => take(file.name, new Uint8Array(await file.arrayBuffer())));
  input.addEventListener("change", () => {
    if (input.files.length > 0) read(input.files[0]);
    input.value = "";
  });
  if (node === null) return;
  node.addEventListener("dragover", (event) => {
    event.preventDefault();
    node.classList.add("over");
  });
  node.addEventListener("dragleave", () => node.classList.remove("over"));
  node.addEventListener("drop", (event) => {
    event.preventDefault();
    node.classList.remove("over");
    if (event.dataTransfer.files.length > 0) read(event.dataTransfer.files[0]);
  });
}

async function openPasted() {
  if (byId("paste").value.trim() !== "") await openDump("pasted.rules", bytesOf(byId("paste").value));
}

export function startStart() {
  watchFiles(byId("drop"), byId("open-file"), openDump);
  byId("read-paste").addEventListener("click", openPasted);
  byId("paste").addEventListener("paste", () => during("Reading", async () => {
    await breathe();
    await openPasted();
  }));
  byId("load-example").addEventListener("click", () => openDump("office.rules", bytesOf(EXAMPLES["office.rules"])));
  byId("load-host-example").addEventListener("click", () => openDump("host.rules", bytesOf(EXAMPLES["host.rules"])));
  byId("take-options").addEventListener("click", () => {
    takeOptions();
    if (known.first !== null) openDump(known.first.name, known.first.bytes);
  });
  // A file that is dropped beside the places for it would take the page's place.
  for (const kind of ["dragover", "drop"]) window.addEventListener(kind, (event) => event.preventDefault());
  window.addEventListener("paste", (event) => {
    const isInField = event.target instanceof HTMLInputElement || event.target instanceof HTMLTextAreaElement;
    const text = event.clipboardData?.getData("text") ?? "";
    if (!isInField && /^[ \t]*\*/m.test(text)) openDump("pasted.rules", bytesOf(text));
  });
}
