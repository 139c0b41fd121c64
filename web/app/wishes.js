// Packets with expected verdicts: the lines that iptsim-expect(1) reads.

const DUE = /^(ACCEPT|DROP|TOOLONG|REJECT(?: (\S+))?)(?: by (rule|policy|\S+ [1-9][0-9]*))?$/;
const REJECT_KINDS = [
  "icmp-net-unreachable", "icmp-host-unreachable", "icmp-port-unreachable", "icmp-proto-unreachable", "icmp-net-prohibited",
  "icmp-host-prohibited", "icmp-admin-prohibited", "tcp-reset",
];

/** What is expected: { verdict, kind, by }, in which null is any; or { fault } where the text can't be read. */
export function readDue(text) {
  const words = text.trim().split(/[ \t]+/).join(" "), found = DUE.exec(words);
  if (!found) return { fault: "Write ACCEPT, DROP by policy, or DROP by CHAIN NUMBER." };
  const [, verdict, kind = null, by = null] = found;
  if (kind !== null && !REJECT_KINDS.includes(kind)) return { fault: `${kind} is no type of REJECT.` };
  if (by !== null && verdict === "TOOLONG") return { fault: "TOOLONG has no rule and no policy." };
  return { verdict: verdict.split(" ")[0], kind, by };
}

/** Whether a verdict that came, { verdict, kind, by }, is one that is expected. */
export function isDue(due, came) {
  const byMatches = due.by === null || due.by === came.by || (due.by === "rule" && came.by !== null && came.by !== "policy");
  return due.verdict === came.verdict && (due.kind === null || due.kind === came.kind) && byMatches;
}

export function verdictText({ verdict, kind, by }) {
  return `${verdict}${kind ? ` ${kind}` : ""}${by ? ` by ${by}` : ""}`;
}

/** The lines of such a file: packets ({ packet, due }, where `due` may be empty), and other lines as they stand ({ text }). */
export function readWishes(text) {
  const lines = text.split("\n");
  if (lines.at(-1) === "") lines.pop();
  return lines.map((line) => {
    const stripped = line.trim(), found = /^(packet[ \t].*?)(?:[ \t]+->(?:[ \t]+(.*))?)?$/.exec(stripped);
    return found ? { packet: found[1], due: found[2] ?? "" } : { text: line };
  });
}

export function wishesText(items) {
  return items.map((item) => `${item.text ?? (item.due ? `${item.packet} -> ${item.due}` : item.packet)}\n`).join("");
}
