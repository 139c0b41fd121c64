// The table of packets with expected verdicts.

import { byId, button, element, saveFile, show } from "../dom.js";
import { EXAMPLES } from "../examples.js";
import { Refusal } from "../failures.js";
import { wholePacketLine } from "../packet_line.js";
import { askCover } from "../questions.js";
import { assumedIn, known, whenChanged } from "../state.js";
import { counted, textOf } from "../texts.js";
import { announce, isCancelled, say } from "../work.js";
import { readWishes, verdictText, wishesText } from "../wishes.js";
import { commandsNode, messagesNode, ruleLink, ruleTextNode, walkPacket } from "./parts.js";
import { watchFiles } from "./start.js";
import { askResults } from "./wishes_results.js";

// Heads of columns that are for screen readers alone.
const UNSEEN_HEADS = ["Number", "Actions"];

// The lines of the file: packets with what is expected, and others, which stay where they stand.
let items = [];
let wishesName = "wishes.expected";

function commentBefore(at) {
  const before = items[at - 1]?.text;
  return before !== undefined && before.trim().startsWith("#") ? before.trim().replace(/^#\s*/, "") : null;
}

function cell(item, name, label, listener) {
  const attributes = { class: "code", value: item[name], "aria-label": label, spellcheck: "false", autocomplete: "off",
    onchange: (event) => listener(event.target.value.trim()) };
  return name === "packet" ? element("textarea", { ...attributes, rows: "2" }) : element("input", attributes);
}

function takePacketCell(item, value) {
  item.packet = wholePacketLine(value.replaceAll(/\s+/g, " "));
  item.result = undefined;
  drawWishes();
}

function takeDueCell(item, value) {
  item.due = value;
  item.result = undefined;
  drawWishes();
}

function removeItem(item) {
  const at = items.indexOf(item);
  items.splice(commentBefore(at) === null ? at : at - 1, commentBefore(at) === null ? 1 : 2);
  drawWishes();
}

function resultNode({ result }) {
  if (result === undefined) return element("span", { class: "quiet" }, "not run");
  const text = { passed: "passed", failed: "failed", shown: "no verdict is expected", fault: "can't be read" }[result.kind];
  return element("span", { class: `result is-${result.kind}` }, text);
}

// A packet, and below it what came where it wasn't as expected.
function rowsOf(item, number) {
  const comment = commentBefore(items.indexOf(item)), nodes = item.result?.nodes ?? [];
  const row = element("tr", { "data-wish": String(number), "data-result": item.result?.kind ?? null },
    element("td", { class: "wish-number" }, String(number)),
    element("td", { class: "wish-packet" }, comment === null ? null : element("p", { class: "quiet" }, comment),
      cell(item, "packet", `Packet ${number}`, (value) => takePacketCell(item, value))),
    element("td", { class: "wish-due" }, cell(item, "due", `Expected verdict of packet ${number}`, (value) => takeDueCell(item, value))),
    element("td", {}, resultNode(item)),
    element("td", { class: "wish-actions" },
      button("Walk", () => walkPacket(item.packet, known.walkIn), { "aria-label": `Walk packet ${number}` }), " ",
      button("Remove", () => removeItem(item), { "aria-label": `Remove packet ${number}` })));
  return nodes.length === 0 ? [row] : [row, element("tr", { class: "came" }, element("td", {}), element("td", { colspan: "4" }, ...nodes))];
}

function drawWishes() {
  const packets = items.filter((item) => item.packet !== undefined);
  byId("run-wishes").disabled = packets.length === 0;
  byId("save-wishes").disabled = packets.length === 0;
  byId("example-wishes").hidden = known.first?.name !== "office.rules";
  if (packets.length === 0) {
    show(byId("wishes"), element("p", { class: "quiet" }, "There are no packets yet."));
    return;
  }
  const heads = ["Number", "Packet", "Expected", "Result", "Actions"].map((text) => element("th", { scope: "col" },
    element("span", { class: UNSEEN_HEADS.includes(text) ? "unseen" : null }, text)));
  show(byId("wishes"), element("table", { "aria-labelledby": "wishes-title" }, element("thead", {}, element("tr", {}, ...heads)),
    element("tbody", {}, ...packets.flatMap((item, at) => rowsOf(item, at + 1)))));
}

function missedRow({ chain, number, rule, needs = [], packet }) {
  const place = `${chain} ${number}`, name = known.walkIn === "first" ? ruleLink(place) : element("span", { class: "place" }, place);
  return element("li", {}, name, " ", ruleTextNode({ text: rule, needs }), " ",
    button("Add its packet", () => addWish(packet, ""), { "aria-label": `Add a packet that ${place} matches` }));
}

function missedNode(cover) {
  const missed = cover.rules.filter((rule) => rule.life === "missed");
  if (missed.length === 0) return element("p", {}, "Every live rule matches one of the packets.");
  return element("details", { open: missed.length < 20, id: "missed" },
    element("summary", {}, `${counted(missed.length, "live rule")} that none of the packets matched`),
    element("ul", { class: "missed" }, ...missed.map(missedRow)));
}

function tallyText(packets) {
  const count = (kind) => packets.filter((item) => item.result.kind === kind).length;
  return [`${count("passed")} passed`, `${count("failed")} failed`, ...(count("fault") > 0 ? [`${count("fault")} can't be read`] : []),
    ...(count("shown") > 0 ? [`${count("shown")} without an expected verdict`] : [])].join(", ");
}

async function runWishes() {
  const ruleset = known.walkIn === "second" ? known.second : known.first, packets = items.filter((item) => item.packet !== undefined);
  try {
    const command = await askResults(ruleset, packets, wishesName);
    drawWishes();
    const readable = packets.filter((item) => item.result.kind !== "fault").map((item) => item.packet);
    announce(tallyText(packets));
    show(byId("wishes-result"), element("p", { class: "summary" }, `${ruleset.name}: ${tallyText(packets)}`),
      command === null ? null : commandsNode([command]));
    if (readable.length === 0) return;
    const cover = await askCover(ruleset, readable, assumedIn(ruleset));
    byId("wishes-result").append(missedNode(cover), commandsNode([cover.command], "The rules that none of them matched, on the command line"));
  } catch (error) {
    if (isCancelled(error)) say("Cancelled.");
    else if (error instanceof Refusal) show(byId("wishes-result"), messagesNode(error.messages));
    else throw error;
  }
}

// Adds a packet line with a expected verdict.
function addWish(packet, due) {
  items.push({ packet: wholePacketLine(packet), due });
  drawWishes();
}

function takeWishesFile(name, bytes) {
  wishesName = name;
  items = readWishes(textOf(bytes));
  drawWishes();
}

/** Starts the table; `lastVerdict` says what came of a packet line, or null where it wasn't walked. */
export function startWishes(lastVerdict) {
  byId("add-wish").addEventListener("click", () => {
    const packet = wholePacketLine(byId("packet-line").value), came = lastVerdict(packet);
    addWish(packet, came === null ? "" : verdictText(came));
  });
  byId("run-wishes").addEventListener("click", runWishes);
  byId("save-wishes").addEventListener("click", () => saveFile(wishesName, wishesText(items)));
  byId("example-wishes").addEventListener("click", () => {
    wishesName = "office.expected";
    items = readWishes(EXAMPLES["office.expected"]);
    drawWishes();
  });
  watchFiles(byId("wishes"), byId("wishes-file"), takeWishesFile);
  whenChanged("first", () => {
    for (const item of items) delete item.result;
    show(byId("wishes-result"));
    drawWishes();
  });
  drawWishes();
}
