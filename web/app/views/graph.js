// A drawing of the chains: hooks at the left, and each chain to the right of all that lead to it.

import { drawing, element } from "../dom.js";
import { isBuiltIn } from "../listing.js";
import { counted, listed } from "../texts.js";
import { chainLink } from "./parts.js";

const COLUMN = 220, ROW = 46, WIDTH = 160, HEIGHT = 30, MARGIN = 8;
// Drawings of more chains than this would only be looked through.
const MOST_CHAINS = 150;

// The jumps between chains: { from, to, rules }, where `rules` are the numbers of the rules that jump.
function jumpsOf(chains) {
  const names = new Set(chains.map((chain) => chain.name)), jumps = new Map();
  for (const chain of chains) {
    for (const rule of chain.rules) {
      if (rule.target === null || !names.has(rule.target)) continue;
      const key = `${chain.name} ${rule.target}`;
      if (!jumps.has(key)) jumps.set(key, { from: chain.name, to: rule.target, rules: [] });
      jumps.get(key).rules.push(rule.number);
    }
  }
  return [...jumps.values()];
}

// How many jumps lie before each chain, on the longest way from a hook; chains that no hook leads to have none.
function depthsOf(chains, jumps) {
  const depths = new Map(chains.filter((chain) => isBuiltIn(chain.name)).map((chain) => [chain.name, 0]));
  for (let round = 0, isMoved = true; isMoved && round <= chains.length; round += 1) {
    isMoved = false;
    for (const { from, to } of jumps) {
      if (depths.has(from) && (depths.get(to) ?? -1) < depths.get(from) + 1) {
        depths.set(to, depths.get(from) + 1);
        isMoved = true;
      }
    }
  }
  return depths;
}

// Where each chain stands: those of one depth below each other, near the chains that lead there.
function placesOf(chains, jumps, depths) {
  const columns = [], places = new Map();
  for (const chain of chains) {
    const depth = depths.get(chain.name) ?? Math.max(1, ...depths.values());
    (columns[depth] ??= []).push(chain.name);
  }
  columns.forEach((names, depth) => {
    const weight = (name) => {
      const rows = jumps.filter((jump) => jump.to === name && places.has(jump.from)).map((jump) => places.get(jump.from).row);
      return rows.length === 0 ? Infinity : rows.reduce((sum, row) => sum + row, 0) / rows.length;
    };
    const sorted = depth === 0 ? names : names.toSorted((one, other) => weight(one) - weight(other) || 0);
    sorted.forEach((name, row) => places.set(name, { row, x: MARGIN + depth * COLUMN, y: MARGIN + row * ROW }));
  });
  return places;
}

function jumpPath({ from, to, rules }, places) {
  const start = places.get(from), end = places.get(to);
  const x = start.x + WIDTH, y = start.y + HEIGHT / 2, u = end.x, v = end.y + HEIGHT / 2, bend = Math.max(24, (u - x) / 2);
  const line = drawing("path", { d: `M${x} ${y}C${x + bend} ${y} ${u - bend} ${v} ${u - 2} ${v}`, "marker-end": "url(#arrow)" });
  const count = drawing("text", { class: "jump-count", x: u - 14, y: v - 4, "text-anchor": "end" }, `${rules.length}×`);
  return drawing("g", { class: "jump" }, line, rules.length > 1 ? count : null);
}

function chainTitle(chain, depths, dead) {
  const rules = counted(chain.rules.length, "rule"), policy = chain.policy === null ? "" : `, policy ${chain.policy}`;
  return `${chain.name}: ${rules}${dead > 0 ? `, ${dead} dead` : ""}${policy}${depths.has(chain.name) ? "" : "; no rule leads there"}`;
}

function chainBox(chain, { x, y }, depths, states) {
  const dead = chain.rules.filter((rule) => states.get(rule.place)?.life === "dead").length;
  const title = chainTitle(chain, depths, dead), name = chain.name.length > 17 ? `${chain.name.slice(0, 16)}…` : chain.name;
  const kind = isBuiltIn(chain.name) ? "box hook" : depths.has(chain.name) ? "box" : "box unreached";
  return drawing("a", { href: `#ruleset/${encodeURIComponent(chain.name)}`, class: kind, "aria-label": title }, drawing("title", {}, title),
    drawing("rect", { x, y, width: WIDTH, height: HEIGHT, rx: 4 }), drawing("text", { x: x + 10, y: y + 20 }, name),
    drawing("text", { x: x + WIDTH - 8, y: y + 20, "text-anchor": "end", class: "size" }, String(chain.rules.length)));
}

function arrowHead() {
  return drawing("defs", {},
    drawing("marker", { id: "arrow", viewBox: "0 0 8 8", refX: 7, refY: 4, markerWidth: 7, markerHeight: 7, orient: "auto" },
    drawing("path", { d: "M0 0L8 4L0 8z", class: "arrow-head" })));
}

function rulesText(rules) {
  if (rules.length > 6) return counted(rules.length, "rule");
  return `${rules.length === 1 ? "rule" : "rules"} ${listed(rules.map(String))}`;
}

// The jumps in words.
function jumpsList(chains, jumps) {
  const rows = chains.map((chain) => {
    const own = jumps.filter((jump) => jump.from === chain.name);
    const nodes = own.flatMap(({ to, rules }, at) => [at > 0 ? ", " : "", chainLink(to), ` (${rulesText(rules)})`]);
    return own.length === 0 ? null : element("li", {}, chainLink(chain.name), " jumps to ", ...nodes);
  }).filter((row) => row !== null);
  const list = rows.length === 0 ? element("p", {}, "No rule jumps to a chain.") : element("ul", {}, ...rows);
  return element("details", { class: "quiet" }, element("summary", {}, "The jumps in words"), list);
}

/** The drawing of chains, and its jumps in words. */
export function chainsDrawing(chains, states) {
  const jumps = jumpsOf(chains);
  if (chains.length > MOST_CHAINS) {
    return [element("p", { class: "quiet" }, `There are ${chains.length} chains, too many for a drawing.`), jumpsList(chains, jumps)];
  }
  const depths = depthsOf(chains, jumps), places = placesOf(chains, jumps, depths);
  const width = Math.max(...[...places.values()].map((place) => place.x)) + WIDTH + MARGIN;
  const height = Math.max(...[...places.values()].map((place) => place.y)) + HEIGHT + MARGIN;
  const size = { viewBox: `0 0 ${width} ${height}`, width, height };
  const picture = drawing("svg", { class: "graph", ...size, role: "group", "aria-label": "Chains and their jumps" }, arrowHead(),
    ...jumps.map((jump) => jumpPath(jump, places)), ...chains.map((chain) => chainBox(chain, places.get(chain.name), depths, states)));
  return [element("div", { class: "scrolling", tabindex: "0", role: "region", "aria-label": "Drawing of the chains" }, picture),
    jumpsList(chains, jumps)];
}
