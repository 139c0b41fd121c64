// What the page is doing: programs that run, with their progress, and parts that are drawn.

import { breathe, byId } from "./dom.js";
import { Refusal, faultOf } from "./failures.js";
import { cancelPrograms, runProgram } from "./programs.js";
import { textOf } from "./texts.js";

// Work is shown once it takes longer than this, in milliseconds.
const PATIENCE = 250;

let under = 0;
let timer = null;

function showIdle() {
  document.documentElement.dataset.idle = under === 0 ? "true" : "false";
}

/** Says something in the place for what the page is doing. */
export function say(text) {
  byId("status-text").textContent = text;
}

/** Has screen readers say what came of a question, in a sentence; the page shows it whole. */
export async function announce(text) {
  byId("announcement").textContent = "";
  await breathe();
  byId("announcement").textContent = text;
}

function showBusy(what) {
  say(`${what} …`);
  byId("cancel").hidden = false;
}

// Takes back what the page was doing, and nothing else that it said.
function showDone() {
  if (byId("status-text").textContent.endsWith(" …")) say("");
}

function begin(what) {
  under += 1;
  showIdle();
  clearTimeout(timer);
  timer = setTimeout(() => showBusy(what), PATIENCE);
}

function end() {
  under -= 1;
  if (under > 0) return;
  clearTimeout(timer);
  byId("cancel").hidden = true;
  byId("progress").textContent = "";
  setTimeout(showIdle, 0);
}

/** Does something that the page says it is doing; `what` is such as "Looking for dead rules". */
export async function during(what, work) {
  begin(what);
  try {
    return await work();
  } finally {
    end();
    if (under === 0) showDone();
  }
}

// What a program writes while it runs, without that which it erases: it stands after the last carriage return of its line.
function withoutProgress(text) {
  return text.split("\n").map((line) => line.split("\r").at(-1).replace("\u001b[K", "")).join("\n");
}

function showProgress(text) {
  const found = /question (\d+) of (\d+)/.exec(text.split("\r").at(-1));
  byId("progress").textContent = found ? `${found[1]} of ${found[2]} questions` : "";
}

// Runs a program; where the browser ends it, a Failure says so.
async function runWhole(call) {
  try {
    return await runProgram(call);
  } catch (error) {
    throw isCancelled(error) ? error : faultOf(call.program, error.message);
  }
}

/** Runs a program: its status, and as texts its output and messages. */
export async function run({ program, words, files, input, what }) {
  return during(what, async () => {
    const answer = await runWhole({ program, words, files, input, onMessages: showProgress });
    return { status: answer.status, output: textOf(answer.output), messages: withoutProgress(textOf(answer.messages)) };
  });
}

/** Whether an error says that the user has cancelled. */
export function isCancelled(error) {
  return error.name === "Cancelled";
}

// What nobody has caught is said, so that no work ends in silence.
function sayFailure(error) {
  if (isCancelled(error)) say("Cancelled.");
  else say(error instanceof Refusal ? error.message : `The page failed: ${error.message}`);
}

export function watchWork() {
  byId("cancel").addEventListener("click", () => cancelPrograms());
  window.addEventListener("unhandledrejection", (event) => sayFailure(event.reason));
  showIdle();
}
