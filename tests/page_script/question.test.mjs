import assert from "node:assert/strict";
import { test } from "node:test";
import { dataOf, event, randomLog, run } from "./harness.mjs";
import { momentOf } from "./oracle.mjs";

// The data of a page of several questions: each has its rules, and says at which events of the log they hold.
function several(log, questions, more = {}) {
  const [first, ...others] = questions.map(({ name, rules, holds, ...asked }) => {
    const data = dataOf(log.map(it => ({ ...it, holds: holds(it) })), { rules, ...more, ...asked });
    return { ...data, question: name };
  });
  return { ...first, others: others.map(({ hosts, events, question, asks, answer, words, moment, over }) => ({
    question, asks, answer, words, moment, over,
    watches: hosts.map(({ rule, condition }) => rule ? { rule, condition } : null),
    holds: [...events.keys()].filter(i => events[i].holds) })) };
}
// What is worked out of the data of a question.
const FOUND = "[events, hosts, members, asked, [...column], momentColumn, messages, runs, miss, answerText()]";

test("a page of one question has its data as they are", () => {
  const data = dataOf(randomLog(1, 30, 3), { rules: { h0: "while" }, left_out: { before: 3, after: 0, more: true } });
  assert.deepEqual(run(data, "data"), data);
});

test("of several questions each is shown as on a page of its own", () => {
  for (let seed = 1; seed < 20; seed++) {
    const log = randomLog(seed, 40, 4), odd = it => it.line % 3 > 0, even = it => it.holds;
    const asked = [[{ h0: "while", h1: "at" }, even], [{ h2: "while", h1: "while" }, odd], [{ h3: "at" }, () => false]]
      .map(([rules, holds], k) => {
        const held = log.map(it => ({ ...it, holds: holds(it) }));
        return { name: `question ${k}`, rules, holds, moment: momentOf(held, rules) };
      });
    const data = several(log, asked);
    asked.forEach(({ name, rules, holds, moment }, k) => {
      const alone = dataOf(log.map(it => ({ ...it, holds: holds(it) })), { rules, moment });
      assert.deepEqual(run(data, "data", k), { ...alone, question: name }, `${seed}: ${k}`);
      assert.deepEqual(run(data, FOUND, k), run({ ...alone, question: name }, FOUND), `${seed}: ${k}`);
    });
  }
});

test("one question after another is found as at first", () => {
  const log = randomLog(7, 40, 4), holds = it => it.holds;
  const data = several(log, [{ h0: "while", h1: "at" }, { h2: "while" }].map((rules, k) => (
    { name: `${k}`, rules, holds, moment: momentOf(log, rules) })));
  const after = asked => run(data, `(() => { ${asked.map(k => `ask(${k});`).join(" ")} return ${FOUND}; })()`);
  assert.deepEqual(after([1, 0, 1]), run(data, FOUND, 1));
  assert.deepEqual(after([0, 1, 0]), run(data, FOUND, 0));
});

// Events from further back in the log: of each moment its own.
const LOG = [{ ...event(2, "ada", {}), far: true }, { ...event(3, "ben", {}), far: true },
  { ...event(5, "ada", {}), far: true }, event(20, "ada", { ada: 9 }), event(21, "ben", { ben: 7, ada: 9 }),
  event(22, "cam", { cam: 1 })];
const FAR = several(LOG, [
  { name: "a", rules: { ada: "while", ben: "while" }, holds: it => it.line < 4, moment: [0, 1] },
  { name: "b", rules: { ada: "while", cam: "at" }, holds: it => [5, 22].includes(it.line), moment: [2, 5] },
  { name: "c", rules: { cam: "at" }, holds: () => false }], { left_out: { before: 12, after: 0, more: true } });
const lines = k => run(FAR, "[events.map(it => it.line), members.map(m => events[m].line), unseen]", k);

test("an event from further back is shown with its own moment alone", () => {
  assert.deepEqual(lines(0), [[2, 3, 20, 21, 22], [2, 3], 10]);
  assert.deepEqual(lines(1), [[5, 20, 21, 22], [5, 22], 11]);
  assert.deepEqual(lines(2), [[20, 21, 22], [], 12]);
  assert.deepEqual(run(FAR, "events.map(it => Boolean(it.holds))", 1), [true, false, false, true]);
  assert.deepEqual(run(FAR, "[leftOut.before, messages]", 1), [12, [{ from: 1, to: 2, unseen: true }]]);
});

test("the list says of each question what is answered, and where", () => {
  const words = data => run(data, "replies.map(it => briefWords(it).map(plain))");
  assert.deepEqual(words(FAR), [["found", "ada line 2, ben line 3"], ["found", "ada line 5, cam line 22"], ["none"]]);
  const log = [1, 2, 3, 4].map(n => event(n, `h${n}`, { [`h${n}`]: 1 })), moment = [0, 1, 2, 3];
  const told = ["definite", "possible", "undecided", "found"].map(answer => ({ name: answer, rules: {},
    holds: () => true, answer, moment: answer === "undecided" ? null : moment }));
  const places = "h1 line 1, h2 line 2, h3 line 3 …";
  assert.deepEqual(words(several(log, told)),
    [["definitely", places], ["possibly", places], ["undecided"], ["found", places]]);
});

test("the text of the answer names the question", () => {
  assert.deepEqual(run({ ...FAR, title: "a.log" }, "answerText()", 2).split("\n").slice(0, 3),
    ["None: cam never holds", "a.log: c", "cam: at holds"]);
});
