import assert from "node:assert/strict";
import { test } from "node:test";
import { dataOf, event, randomLog, run } from "./harness.mjs";
import { isBefore } from "./oracle.mjs";

const LOGS = Array.from({ length: 30 }, (_, seed) => randomLog(seed + 1, 30, 2 + seed % 4));

test("what comes before what is as the clocks say", () => {
  for (const log of LOGS) {
    const got = run(dataOf(log), "events.map((_, a) => events.map((_, b) => a !== b && before(a, b)))");
    assert.deepEqual(got, log.map(a => log.map(b => a !== b && isBefore(a, b))));
  }
});

test("messages and hosts' lines say all of the order, and no message is needless", () => {
  for (const log of LOGS) {
    const messages = run(dataOf(log), "messages.map(it => [it.from, it.to])");
    const own = log.flatMap((it, k) => {
      const next = log.findIndex((other, at) => at > k && other.host === it.host);
      return next < 0 ? [] : [[k, next]];
    });
    const wanted = order(log.length, (a, b) => isBefore(log[a], log[b]));
    assert.deepEqual(reached(log.length, [...own, ...messages]), wanted);
    for (const message of messages)
      assert.notDeepEqual(reached(log.length, [...own, ...messages.filter(it => it !== message)]), wanted);
  }
});

test("a chain leads along hosts and messages, by as few messages as there can be", () => {
  let chains = 0;
  for (const log of LOGS.slice(0, 12)) {
    const data = dataOf(log), messages = run(data, "messages.map(it => [it.from, it.to])");
    const got = run(data, "events.map((_, a) => events.map((_, b) => a !== b && before(a, b) ? chainOf(a, b) : null))");
    log.forEach((first, a) => log.forEach((last, b) => {
      const chain = got[a][b];
      assert.equal(chain !== null, a !== b && isBefore(first, last));
      if (!chain) return;
      chains++;
      assert.deepEqual([chain[0], chain.at(-1)], [a, b]);
      const hops = chain.slice(1).filter((i, k) => log[i].host !== log[chain[k]].host);
      for (const [k, i] of chain.slice(1).entries())
        assert.ok(log[i].host === log[chain[k]].host ? isBefore(log[chain[k]], log[i])
          : messages.some(([from, to]) => from === chain[k] && to === i));
      assert.equal(hops.length, fewest(log, messages, a, b));
    }));
  }
  assert.ok(chains > 1000, `${chains} chains`);
});

test("the last event that is known of a host", () => {
  const log = [event(1, "a", { a: 1 }), event(2, "a", { a: 2 }), event(3, "b", { b: 1 }),
    event(4, "b", { b: 2, a: 2 })];
  assert.deepEqual(run(dataOf(log), "[lastKnown(2, 0), lastKnown(3, 0), lastKnown(0, 1)]"), [-1, 1, -1]);
});

const order = (count, isFirst) => Array.from({ length: count }, (_, a) =>
  Array.from({ length: count }, (_, b) => a !== b && isFirst(a, b)));
function reached(count, edges) {
  const to = order(count, () => false);
  for (const [a, b] of edges) to[a][b] = true;
  for (let m = 0; m < count; m++) for (let a = 0; a < count; a++) if (to[a][m])
    for (let b = 0; b < count; b++) if (to[m][b] && a !== b) to[a][b] = true;
  return to;
}
// How many messages lead from one event to another at least, in rounds of one message more.
function fewest(log, messages, a, b) {
  const seen = new Set([a]);
  for (let hops = 0; ; hops++) {
    for (const i of [...seen]) log.forEach((it, k) => {
      if (it.host === log[i].host && isBefore(log[i], it)) seen.add(k);
    });
    if (seen.has(b)) return hops;
    const reachedNow = messages.filter(([from]) => seen.has(from));
    for (const [, to] of reachedNow) seen.add(to);
  }
}
