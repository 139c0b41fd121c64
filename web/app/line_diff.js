// Lines that came and went between two texts: a shortest edit by the algorithm of Myers, in memory that grows with the lines alone. Texts
// that differ in too much for it are first split at lines that stand once in each.

// The middle of a shortest edit of a[aLow..aHigh) to b[bLow..bHigh): walks from both ends meet there.
function middle(a, aLow, aHigh, b, bLow, bHigh, limit) {
  const n = aHigh - aLow, m = bHigh - bLow, delta = n - m, odd = (delta & 1) !== 0;
  const most = Math.min(Math.ceil((n + m) / 2), limit), size = 2 * most + 3, base = most + 1;
  const ahead = new Int32Array(size), back = new Int32Array(size);
  for (let d = 0; d <= most; d += 1) {
    for (let k = -d; k <= d; k += 2) {
      let x = k === -d || (k !== d && ahead[base + k - 1] < ahead[base + k + 1]) ? ahead[base + k + 1] : ahead[base + k - 1] + 1;
      const from = x;
      while (x < n && x - k < m && a[aLow + x] === b[bLow + x - k]) x += 1;
      ahead[base + k] = x;
      const kBack = delta - k;
      if (odd && Math.abs(kBack) < d && x + back[base + kBack] >= n) return { x: from, y: from - k, u: x, v: x - k };
    }
    for (let k = -d; k <= d; k += 2) {
      let x = k === -d || (k !== d && back[base + k - 1] < back[base + k + 1]) ? back[base + k + 1] : back[base + k - 1] + 1;
      const from = x;
      while (x < n && x - k < m && a[aHigh - 1 - x] === b[bHigh - 1 - x + k]) x += 1;
      back[base + k] = x;
      const kAhead = delta - k;
      if (!odd && Math.abs(kAhead) <= d && x + ahead[base + kAhead] >= n) return { x: n - x, y: m - x + k, u: n - from, v: m - from + k };
    }
  }
  return null;
}

// How many changes on each side of the middle are tried before a stretch is split otherwise.
const MOST_STEPS = 1000;

// The places of lines that stand just once in a stretch.
function singles(lines, low, high) {
  const places = new Map();
  for (let at = low; at < high; at += 1) places.set(lines[at], places.has(lines[at]) ? null : at);
  return places;
}

// The longest run of pairs, sorted by their first places, whose second places rise too.
function rising(pairs) {
  const ends = [], before = new Array(pairs.length).fill(-1);
  pairs.forEach(([, place], at) => {
    let low = 0, high = ends.length;
    while (low < high) {
      const half = (low + high) >> 1;
      if (pairs[ends[half]][1] < place) low = half + 1;
      else high = half;
    }
    before[at] = low > 0 ? ends[low - 1] : -1;
    ends[low] = at;
  });
  const run = [];
  for (let at = ends.at(-1) ?? -1; at >= 0; at = before[at]) run.push(pairs[at]);
  return run.reverse();
}

// Pairs of places of one line each, in both stretches, that split them.
function anchors(a, aLow, aHigh, b, bLow, bHigh) {
  const theirs = singles(b, bLow, bHigh);
  const pairs = [...singles(a, aLow, aHigh)].map(([line, at]) => [at, theirs.get(line) ?? null]);
  return rising(pairs.filter(([one, other]) => one !== null && other !== null).sort(([one], [other]) => one - other));
}

// The stretches between anchors, each of which begins with one.
function stretchesAt(pairs, aLow, aHigh, bLow, bHigh) {
  const corners = [[aLow, bLow], ...pairs, [aHigh, bHigh]];
  return corners.slice(0, -1).map(([x, y], at) => [x, corners[at + 1][0], y, corners[at + 1][1]]);
}

// The pairs of places of lines that stayed, in their order.
function kept(a, b) {
  const found = [], stretches = [[0, a.length, 0, b.length]];
  while (stretches.length > 0) {
    let [aLow, aHigh, bLow, bHigh] = stretches.pop();
    while (aLow < aHigh && bLow < bHigh && a[aLow] === b[bLow]) found.push([aLow++, bLow++]);
    while (aLow < aHigh && bLow < bHigh && a[aHigh - 1] === b[bHigh - 1]) found.push([--aHigh, --bHigh]);
    if (aLow === aHigh || bLow === bHigh) continue;
    const snake = middle(a, aLow, aHigh, b, bLow, bHigh, MOST_STEPS);
    if (snake === null) {
      const pairs = anchors(a, aLow, aHigh, b, bLow, bHigh);
      if (pairs.length > 0) stretches.push(...stretchesAt(pairs, aLow, aHigh, bLow, bHigh));
      continue;
    }
    for (let x = snake.x, y = snake.y; x < snake.u && y < snake.v; x += 1, y += 1) {
      if (a[aLow + x] === b[bLow + y]) found.push([aLow + x, bLow + y]);
    }
    stretches.push([aLow, aLow + snake.x, bLow, bLow + snake.y], [aLow + snake.u, aHigh, bLow + snake.v, bHigh]);
  }
  return found.sort((one, other) => one[0] - other[0]);
}

/** The rows of two texts side by side: { kind, old, new }, whose kind is "same", "gone" or "come", and places of lines or null. */
export function diffLines(oldLines, newLines) {
  const rows = [];
  let at = 0, to = 0;
  for (const [x, y] of [...kept(oldLines, newLines), [oldLines.length, newLines.length]]) {
    while (at < x) rows.push({ kind: "gone", old: at++, new: null });
    while (to < y) rows.push({ kind: "come", old: null, new: to++ });
    if (x < oldLines.length || y < newLines.length) rows.push({ kind: "same", old: at++, new: to++ });
  }
  return rows;
}
