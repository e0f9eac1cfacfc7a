import assert from "node:assert/strict";
import { test } from "node:test";
import { dataOf, event, randomLog, run } from "./harness.mjs";
import { isBefore, momentOf } from "./oracle.mjs";

const RULES = { h0: "while", h1: "at" };

test("columns keep the order, and the moment's line parts what was known from the rest", () => {
  let moments = 0;
  for (let seed = 1; seed < 40; seed++) {
    const log = randomLog(seed, 40, 2 + seed % 4), moment = momentOf(log, RULES);
    const [column, line] = run(dataOf(log, { rules: RULES, moment }), "[[...column], momentColumn]");
    moments += moment !== null;
    log.forEach((a, i) => {
      log.forEach((b, j) => assert.ok(i === j || !isBefore(a, b) || column[i] < column[j], `${seed}: ${i} ${j}`));
      const isKnown = (moment ?? []).some(m => m === i || isBefore(a, log[m]));
      if (moment) assert.equal(column[i] <= line, isKnown, `${seed}: ${i}`);
    });
  }
  assert.ok(moments > 20, `${moments} moments`);
});

test("rows of three silent events or more are folded into one column, others aren't", () => {
  const log = [1, 2, 3, 4, 5, 6].map(n => event(n, "a", { a: n }, "", n === 4 || n === 5));
  log.push(event(7, "b", { b: 1, a: 6 }), event(8, "b", { b: 2, a: 6 }));
  const got = run(dataOf(log, { rules: { a: "while" } }), "(() => { const plain = [...column]; place(true); " +
    "return [plain, [...column], [...foldOf], [...foldLength]]; })()");
  assert.deepEqual(got, [[0, 1, 2, 3, 4, 5, 6, 7], [0, 0, 0, 1, 2, 3, 4, 5], [0, 0, 0, 3, 4, 5, 6, 7],
    [3, 3, 3, 1, 1, 1, 1, 1]]);
});

test("folded columns keep the order of all but events of one fold, and unfold as they were", () => {
  for (let seed = 1; seed < 30; seed++) {
    const log = randomLog(seed, 60, 3), moment = momentOf(log, RULES);
    const [plain, folded, fold, again] = run(dataOf(log, { rules: RULES, moment }), "(() => { const plain = " +
      "[...column]; place(true); const folded = [...column]; place(false); " +
      "return [plain, folded, [...foldOf], [...column]]; })()");
    assert.deepEqual(again, plain);
    log.forEach((a, i) => log.forEach((b, j) => {
      if (i !== j && isBefore(a, b))
        assert.ok(fold[i] === fold[j] ? folded[i] === folded[j] : folded[i] < folded[j], `${seed}: ${i} ${j}`);
    }));
  }
});

test("no fold reaches across the moment's line", () => {
  const log = [1, 2, 3, 4, 5, 6].map(n => event(n, "a", { a: n }));
  log.push(event(7, "b", { b: 1, a: 3 }, "", true), event(8, "c", { c: 1 }, "", true));
  const data = dataOf(log, { rules: { b: "while", c: "while" }, moment: [6, 7], messages: [] });
  assert.deepEqual(run(data, "(() => { place(true); return [[...foldOf], [...column], momentColumn]; })()"),
    [[0, 0, 0, 3, 3, 3, 6, 7], [0, 0, 0, 2, 2, 2, 1, 1], 1]);
});
