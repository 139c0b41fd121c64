// Random texts: the rows put together give both texts, and lines that stayed are the longest common part.

import assert from "node:assert/strict";
import { test } from "node:test";
import { diffLines } from "../app/line_diff.js";

function random(seed) {
  let state = seed;
  return (below) => {
    state = (Math.imul(state, 1664525) + 1013904223) >>> 0;
    return Math.floor((state / 2 ** 32) * below);
  };
}

function longestCommon(a, b) {
  const row = new Array(b.length + 1).fill(0);
  for (const line of a) {
    let before = 0;
    b.forEach((other, at) => {
      const above = row[at + 1];
      row[at + 1] = line === other ? before + 1 : Math.max(above, row[at]);
      before = above;
    });
  }
  return row[b.length];
}

function check(a, b) {
  const rows = diffLines(a, b);
  assert.deepEqual(rows.filter((row) => row.old !== null).map((row) => row.old), a.map((_, at) => at));
  assert.deepEqual(rows.filter((row) => row.new !== null).map((row) => row.new), b.map((_, at) => at));
  const same = rows.filter((row) => row.kind === "same");
  for (const row of same) assert.equal(a[row.old], b[row.new]);
  return same.length;
}

test("the rows of random texts are those of a shortest edit", () => {
  const next = random(7);
  for (let round = 0; round < 3000; round += 1) {
    const letters = 1 + next(5), a = Array.from({ length: next(14) }, () => String(next(letters))),
      b = Array.from({ length: next(14) }, () => String(next(letters)));
    assert.equal(check(a, b), longestCommon(a, b), JSON.stringify([a, b]));
  }
});

test("8,192 lines of which none stay, and of which few changed", () => {
  const a = Array.from({ length: 8192 }, (_, at) => `old ${at}`), b = Array.from({ length: 8192 }, (_, at) => `new ${at}`);
  assert.equal(check(a, b), 0);
  const c = a.slice();
  c.splice(4000, 3, "x", "y");
  c.push("z");
  assert.equal(check(a, c), 8189);
});

test("8,192 lines of which every second changed", () => {
  const a = Array.from({ length: 8192 }, (_, at) => `line ${at}`), b = a.map((line, at) => (at % 2 === 0 ? line : `new ${at}`));
  assert.equal(check(a, b), 4096);
});
