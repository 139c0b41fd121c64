// Two texts side by side, with the lines that came and went.

import { breathe, element, show } from "../dom.js";
import { diffLines } from "../line_diff.js";
import { counted } from "../texts.js";

// Lines that are shown around a change, and rows that are drawn at once.
const NEAR = 3, ROWS_AT_ONCE = 300;

// Stretches of rows: those near a change, and those between, which are folded.
function stretchesOf(rows) {
  const isNear = new Uint8Array(rows.length);
  rows.forEach((row, at) => {
    if (row.kind !== "same") isNear.fill(1, Math.max(0, at - NEAR), at + NEAR + 1);
  });
  const stretches = [];
  rows.forEach((row, at) => {
    if (stretches.length === 0 || stretches.at(-1).isNear !== (isNear[at] === 1)) stretches.push({ isNear: isNear[at] === 1, rows: [] });
    stretches.at(-1).rows.push(row);
  });
  return stretches;
}

// Of lines that went and came, each two stand beside each other.
function paired(rows) {
  const pairs = [];
  let gone = [], come = [];
  const flush = () => {
    for (let at = 0; at < Math.max(gone.length, come.length); at += 1) {
      pairs.push({ kind: "changed", old: gone[at] ?? null, new: come[at] ?? null });
    }
    [gone, come] = [[], []];
  };
  for (const row of rows) {
    if (row.kind === "gone") gone.push(row.old);
    else if (row.kind === "come") come.push(row.new);
    else {
      flush();
      pairs.push(row);
    }
  }
  flush();
  return pairs;
}

function sideCells(lines, at, mark) {
  if (at === null) return [element("td", { class: "line-number" }), element("td", { class: "empty" })];
  const sign = mark === "" ? null : element("span", { class: "sign" }, mark === "gone" ? "− " : "+ ");
  return [element("td", { class: "line-number" }, String(at + 1)),
    element("td", { class: mark === "" ? "line" : `line ${mark}` }, sign, lines[at])];
}

function rowNode(row, oldLines, newLines) {
  const isSame = row.kind === "same";
  return element("tr", { "data-change": isSame ? null : row.kind }, ...sideCells(oldLines, row.old, isSame ? "" : "gone"),
    ...sideCells(newLines, row.new, isSame ? "" : "come"));
}

function tableOf(caption, rows) {
  return element("table", { class: "lines" }, element("caption", { class: "unseen" }, caption),
    element("colgroup", {}, ...["of-number", "of-line", "of-number", "of-line"].map((name) => element("col", { class: name }))),
    element("tbody", {}, ...rows));
}

// Equal lines between changes, which are drawn when they are asked for.
function foldedNode(rows, oldLines, newLines) {
  const details = element("details", { class: "equal" }, element("summary", {}, counted(rows.length, "equal line")));
  details.addEventListener("toggle", () => {
    if (details.children.length === 1) details.append(tableOf("Equal lines", rows.map((row) => rowNode(row, oldLines, newLines))));
  }, { once: true });
  return details;
}

function tallyOfLines(rows, first, second) {
  const gone = rows.filter((row) => row.kind === "gone").length, come = rows.filter((row) => row.kind === "come").length;
  if (gone + come === 0) return "The files have the same lines.";
  return `${counted(gone, "line")} of ${first.name} removed, ${counted(come, "line")} of ${second.name} added`;
}

/** Shows two texts' lines side by side; ends early when `isWanted` says that nobody waits for it. */
export async function drawLines(place, first, second, isWanted) {
  const rows = diffLines(first.lines, second.lines);
  show(place, element("h3", {}, "Lines"), element("p", { class: "summary" }, tallyOfLines(rows, first, second)));
  for (const stretch of stretchesOf(rows)) {
    if (!stretch.isNear) {
      place.append(foldedNode(stretch.rows, first.lines, second.lines));
      continue;
    }
    const pairs = paired(stretch.rows);
    for (let at = 0; at < pairs.length && isWanted(); at += ROWS_AT_ONCE) {
      place.append(element("div", { class: "scrolling", tabindex: "0", role: "region", "aria-label": "Changed lines" },
        tableOf("Changed lines", pairs.slice(at, at + ROWS_AT_ONCE).map((row) => rowNode(row, first.lines, second.lines)))));
      await breathe();
    }
  }
}
