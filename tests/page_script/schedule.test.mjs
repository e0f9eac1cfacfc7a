import assert from "node:assert/strict";
import { test } from "node:test";
import { dataOf, event, randomLog, run } from "./harness.mjs";
import { isBefore, momentOf, ofHost, runsOf } from "./oracle.mjs";

const RULES = [{ h0: "while", h1: "while" }, { h0: "while", h1: "at", h2: "while" }, { h0: "at", h1: "at" }];
const played = (log, members, more) => run(dataOf(log, { moment: members, ...more }), "scheduleOf(members)");
const words = (log, moment, more) => run(dataOf(log, { moment, ...more }),
  "plain(playedFromWords(members, scheduleOf(members)))");

// The same events in another order that keeps each host's: one host after the other, the last one first.
function byHosts(log) {
  const names = [...new Set(log.map(it => it.host))].sort().reverse();
  return names.flatMap(name => ofHost(log, name)).map((it, k) => ({ ...it, line: k + 1 }));
}
function checkOrder(log, members, order) {
  const those = members.map(m => log[m]), seen = order.map(i => log[i]);
  const led = log.filter(it => those.some(m => it === m || isBefore(it, m)));
  assert.deepEqual([...order].sort((a, b) => a - b), led.map(it => log.indexOf(it)), "what led to the members");
  seen.forEach((later, k) => seen.slice(0, k).forEach(it => assert.ok(!isBefore(later, it), `${later.line} is late`)));
  // Each comes as early as its line lets it, but the members as late as they can.
  const isFirst = (a, b) => those.includes(a) === those.includes(b) ? a.line < b.line : those.includes(b);
  seen.forEach((it, k) => {
    const free = seen.slice(k).filter(one => !seen.slice(k).some(other => isBefore(other, one)));
    assert.ok(free.every(other => other === it || isFirst(it, other)), `${it.line} isn't the first`);
  });
}

test("all that led to the moment is played in an order that fits, and the members last of their hosts", () => {
  let moments = 0, unsorted = 0;
  for (let seed = 1; seed <= 150; seed++) {
    const drawn = randomLog(seed, 14 + seed % 30, 3 + seed % 3), log = seed % 2 ? drawn : byHosts(drawn);
    const rules = RULES[seed % 3], moment = momentOf(log, rules);
    if (!moment) continue;
    moments++;
    const order = played(log, moment, { rules });
    checkOrder(log, moment, order);
    for (const m of moment) assert.equal(order.filter(i => log[i].host === log[m].host).at(-1), m);
    assert.ok(moment.includes(order.at(-1)));
    if (order.some((i, k) => k && log[i].line < log[order[k - 1]].line)) unsorted++;
  }
  assert.ok(moments > 70 && unsorted > 20, `${moments} moments, ${unsorted} in another order than that of the lines`);
});

test("the runs are played until all have begun", () => {
  for (let seed = 1; seed <= 16; seed++) {
    const log = randomLog(seed, 40, 3), rules = { h0: "while", h1: "while" };
    const first = Object.entries(rules).map(([host, rule]) => runsOf(log, host, rule).at(-1)?.[0]);
    if (first.some(it => !it)) continue;
    const members = first.map(it => log.indexOf(it)), order = played(log, members, { rules, answer: "definite" });
    checkOrder(log, members, order);
    assert.ok(members.includes(order.at(-1)));
  }
});

test("clocks that contradict each other are played too", () => {
  const log = [event(1, "ada", { ada: 1, ben: 1 }), event(2, "ben", { ada: 1, ben: 1 }),
    event(3, "ben", { ada: 1, ben: 2 })];
  assert.deepEqual(played(log, [0, 2]), [1, 0, 2]);
});

test("it is said from where on, where earlier events are left out", () => {
  const log = [event(11, "ada", { ada: 4 }), event(12, "ben", { ben: 1, ada: 4 }), event(13, "cam", { cam: 7 })];
  const left = { left_out: { before: 9, after: 0, more: false } };
  assert.equal(words(log, [1]), "");
  assert.equal(words(log, [1], left), "from line 11 on; earlier events are left out");
  assert.equal(words([{ ...log[1], clock: { ben: 1 } }, log[2]], [0], left), "");
  assert.equal(words([{ ...log[0], far: true }, log[2]], [0, 1], left), "from line 13 on; earlier events are left out");
  const unseen = [event(12, "ben", { ben: 1, cam: 6 }), log[2]];
  assert.equal(words(unseen, [0], left), "from line 12 on; earlier events are left out");
});
