import assert from "node:assert/strict";
import { test } from "node:test";
import { dataOf, event, run } from "./harness.mjs";

const DATA = dataOf([event(1, "a", { a: 1 })]);
const way = (...given) => run(DATA, `wayOf(...${JSON.stringify(given)})`);

test("an arrow with nothing in its way is straight", () => {
  const grid = { step: 40, height: 50, columns: [[0], [], [2]] };
  assert.deepEqual(way(grid, [0, 0], [80, 100]), [[0, 0], [80, 100]]);
});

test("an arrow is bent beside an event in its way, and keeps its distance", () => {
  const grid = { step: 40, height: 50, columns: [[0], [1], [2]] };
  assert.deepEqual(way(grid, [0, 0], [80, 100]), [[0, 0], [54, 36], [54, 64], [80, 100]]);
});

test("columns that are too near leave an arrow straight", () => {
  const grid = { step: 10, height: 50, columns: [[0], [1], [2]] };
  assert.deepEqual(way(grid, [0, 0], [20, 100]), [[0, 0], [20, 100]]);
});

test("no way of a random grid meets an event that is none of its ends", () => {
  let bent = 0;
  for (let seed = 1; seed < 60; seed++) {
    const columns = Array.from({ length: 5 }, (_, row) =>
      [0, 1, 2, 3, 4, 5].filter(c => (seed * 7 + row * 5 + c * 3) % 4 < 2));
    const grid = { step: 40, height: 50, columns }, from = [columns[0][0] * 40, 0], to = [columns[4].at(-1) * 40, 200];
    if (to[0] - from[0] < 40) continue;
    const got = way(grid, from, to);
    bent += got.length > 2;
    for (let k = 1; k < got.length; k++) columns.forEach((them, row) => them.forEach(c => {
      const isEnd = [from, to].some(([x, y]) => x === c * 40 && y === row * 50);
      assert.ok(isEnd || distance([c * 40, row * 50], got[k - 1], got[k]) > 4, `${seed}: ${got} ${c} ${row}`);
    }));
  }
  assert.ok(bent > 10, `${bent} ways are bent`);
});

function distance([x, y], [x0, y0], [x1, y1]) {
  const long = (x1 - x0) ** 2 + (y1 - y0) ** 2 || 1;
  const along = Math.max(0, Math.min(1, ((x - x0) * (x1 - x0) + (y - y0) * (y1 - y0)) / long));
  return Math.hypot(x - x0 - along * (x1 - x0), y - y0 - along * (y1 - y0));
}
