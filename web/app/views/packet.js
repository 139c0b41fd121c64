// The view Packet: a packet, its walk, and the table of expected verdicts.

import { byId, element, show } from "../dom.js";
import { Refusal } from "../failures.js";
import { interfacesOf } from "../listing.js";
import { wholePacketLine } from "../packet_line.js";
import { readFault } from "../replies.js";
import { whenShown } from "../router.js";
import { assumedIn, known, whenChanged } from "../state.js";
import { verdictText } from "../wishes.js";
import { announce, isCancelled, say } from "../work.js";
import { messagesNode, verdictOf } from "./parts.js";
import { showPacket } from "./packet_form.js";
import { packetFaultNode, showWalk } from "./walk.js";
import { startWishes } from "./wishes_table.js";

// The last walk: its packet line and the verdict that came, or null.
let lastWalk = { packet: "", verdict: null };

function chosenRuleset() {
  return known.walkIn === "second" && known.second !== null ? known.second : known.first;
}

function verdictCame(ruleset, found) {
  if (found === null) return null;
  if (ruleset.loads) return found;
  return found.unclear || found.walks.length !== 1 ? null : verdictOf(found.walks[0]);
}

async function showProblem(error, packet) {
  if (isCancelled(error)) {
    say("Cancelled.");
  } else if (error instanceof Refusal) {
    const fault = readFault(error.messages.split("\n")[0]);
    show(byId("walk"), fault === null ? messagesNode(error.messages) : await packetFaultNode(packet, fault));
  } else {
    throw error;
  }
}

// Walks the packet of the form.
async function walkShown() {
  const ruleset = chosenRuleset(), packet = wholePacketLine(byId("packet-line").value);
  known.packet = packet;
  show(byId("walk"));
  try {
    const found = await showWalk(byId("walk"), ruleset, packet, assumedIn(ruleset), ruleset === known.first);
    lastWalk = { packet, verdict: verdictCame(ruleset, found) };
    if (found !== null) announce(lastWalk.verdict === null ? "The verdict depends on conditions." : verdictText(lastWalk.verdict));
  } catch (error) {
    lastWalk = { packet, verdict: null };
    await showProblem(error, packet);
  }
}

function showKnownPacket() {
  const names = interfacesOf(chosenRuleset()?.chains ?? []).filter((name) => !name.endsWith("+"));
  showPacket(known.packet, names, (line) => (known.packet = line));
}

function showChoices() {
  const field = byId("walk-in-field"), select = byId("walk-in");
  field.hidden = known.second === null;
  show(select, ...["first", "second"].filter((which) => known[which] !== null)
    .map((which) => element("option", { value: which, selected: which === known.walkIn }, known[which].name)));
}

export function startPacket() {
  byId("packet-form").addEventListener("submit", (event) => {
    event.preventDefault();
    walkShown();
  });
  byId("packet-line").addEventListener("input", () => {
    known.packet = byId("packet-line").value;
    showKnownPacket();
  });
  byId("walk-in").addEventListener("change", () => {
    known.walkIn = byId("walk-in").value;
    walkShown();
  });
  whenShown("packet", showChoices);
  whenChanged("first", () => {
    show(byId("walk"));
    showKnownPacket();
  });
  whenChanged("packet", () => {
    showKnownPacket();
    showChoices();
    walkShown();
  });
  startWishes((packet) => (packet === lastWalk.packet ? lastWalk.verdict : null));
  showKnownPacket();
}
