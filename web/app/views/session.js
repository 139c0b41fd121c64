// The view Session: lines of `iptsim session` and their replies.

import { byId, element, saveFile, show } from "../dom.js";
import { meaningOf } from "../faults.js";
import { Failure, memoryFailure } from "../failures.js";
import { NO_MEMORY, askSession } from "../questions.js";
import { readFault } from "../replies.js";
import { known, whenChanged } from "../state.js";
import { counted, linesOf, textOf } from "../texts.js";
import { repliesOf } from "../transcript.js";
import { isCancelled, say } from "../work.js";
import { commandsNode, messagesNode } from "./parts.js";
import { watchFiles } from "./start.js";

// What was sent, each time some lines, with the output of the whole session up to there. `history` has single lines, and `chosen` is the
// place of the one that is shown.
let entries = [];
let lineHistory = [];
let chosen = 0;

function allText(more = "") {
  return entries.map((entry) => entry.text).join("") + more;
}

function loadedRuleset() {
  return byId("session-load").checked && known.first !== null ? known.first : null;
}

function meaningsOf(reply) {
  const faults = linesOf(reply).map(readFault).filter((fault) => fault !== null);
  const codes = [...new Set(faults.map((fault) => fault.code))];
  return codes.map((code) => element("p", { class: "meaning" }, element("strong", {}, code), ` ${meaningOf(code)}`));
}

function replyNode(reply) {
  const lineNode = (line) => (readFault(line.trimEnd()) === null ? line : element("span", { class: "fault-line" }, line));
  return element("pre", { class: "reply", "data-reply": true }, ...reply.split(/(?<=\n)/).map(lineNode));
}

// What was sent, folded where it is long.
function sentNode(text) {
  const lines = linesOf(text);
  const pre = element("pre", { class: "sent" }, text.replace(/\n$/, ""));
  return lines.length <= 20 ? pre : element("details", {}, element("summary", {}, counted(lines.length, "line")), pre);
}

// A line and its reply. Those that stand there already stay, so that screen readers say what is new alone.
function drawTranscript() {
  const replies = repliesOf(entries.map((entry) => entry.output)), transcript = byId("transcript");
  entries.forEach((entry, at) => {
    const reply = replies[at];
    if (entry.reply === reply) return;
    const node = element("div", {}, sentNode(entry.text), ...(reply === "" ? [] : [replyNode(reply), ...meaningsOf(reply)]));
    if (entry.node === undefined) transcript.append(node);
    else entry.node.replaceWith(node);
    Object.assign(entry, { node, reply });
  });
  transcript.scrollTop = transcript.scrollHeight;
}

function drawCommand(answer) {
  const messages = answer.messages.trim() === "" ? null : element("pre", { class: "messages" }, answer.messages);
  show(byId("session-command"), element("p", { class: "quiet" }, `Status ${answer.status}`), messages,
    answer.status === NO_MEMORY ? messagesNode(memoryFailure("iptsim").messages) : null,
    commandsNode([answer.command]));
}

// Runs the whole session with these lines at its end.
async function send(text) {
  try {
    const answer = await askSession(loadedRuleset(), allText(text), "Running the session");
    entries.push({ text, output: answer.output });
    drawTranscript();
    drawCommand(answer);
  } catch (error) {
    if (isCancelled(error)) say("Cancelled: the line isn't part of the session.");
    else if (error instanceof Failure) show(byId("session-command"), messagesNode(error.messages));
    else throw error;
  }
}

async function sendLine() {
  const line = byId("session-line").value;
  byId("session-line").value = "";
  lineHistory.push(line);
  chosen = lineHistory.length;
  await send(`${line}\n`);
  byId("session-line").focus();
}

// Takes an earlier line, or a later one.
function choose(event) {
  const step = { ArrowUp: -1, ArrowDown: 1 }[event.key];
  if (step === undefined || lineHistory.length === 0) return;
  event.preventDefault();
  chosen = Math.max(0, Math.min(lineHistory.length, chosen + step));
  byId("session-line").value = lineHistory[chosen] ?? "";
}

function clearSession() {
  entries = [];
  show(byId("transcript"));
  show(byId("session-command"));
}

function takeLines(name, bytes) {
  const text = textOf(bytes);
  lineHistory.push(...linesOf(text));
  chosen = lineHistory.length;
  clearSession();
  send(text.endsWith("\n") ? text : `${text}\n`);
}

// The table that the session begins with is another, so all its lines are run again.
function runAgain() {
  const text = allText();
  clearSession();
  if (text !== "") send(text);
}

function showLoad() {
  byId("session-load-label").hidden = known.first === null || !known.first.loads;
  byId("session-load").checked = known.first !== null && known.first.loads;
  byId("session-load-name").textContent = known.first?.name ?? "";
}

export function startSession() {
  byId("session-form").addEventListener("submit", (event) => {
    event.preventDefault();
    sendLine();
  });
  byId("session-line").addEventListener("keydown", choose);
  byId("session-clear").addEventListener("click", clearSession);
  byId("session-save").addEventListener("click", () => saveFile("lines.session", allText()));
  byId("session-load").addEventListener("change", runAgain);
  watchFiles(byId("transcript"), byId("session-file"), takeLines);
  whenChanged("first", () => {
    showLoad();
    runAgain();
  });
  showLoad();
}
