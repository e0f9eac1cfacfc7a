import assert from "node:assert/strict";
import { test } from "node:test";
import { dataOf, event, randomLog, run } from "./harness.mjs";
import { isBefore, momentOf, ofHost, runAround, runsOf } from "./oracle.mjs";

// Two who hold at once: ben learns of ada's first event alone.
const LEASE = [event(2, "ada", { ada: 1 }, "asks"), event(4, "ada", { ada: 2 }, "takes", true),
  event(6, "ben", { ben: 1, ada: 1 }, "hears"), event(8, "ben", { ben: 2, ada: 1 }, "takes", true),
  event(10, "ada", { ada: 3 }, "writes", true), event(12, "ada", { ada: 4 }, "gives"),
  event(14, "ben", { ben: 3, ada: 1 }, "gives")];
const BOTH = { ada: "while", ben: "while" };
const text = (log, more) => run(dataOf(log, more), "answerText()").split("\n");
const heading = (log, more) => run(dataOf(log, more), "plain(headingWords())");

test("the answer as a text", () => {
  assert.deepEqual(text(LEASE, { rules: BOTH, moment: [1, 3], title: "lease.log" }), [
    "ada (line 4) and ben (line 8) could hold at once", "lease.log", "ada and ben: while holds", "",
    "ada, line 4 “takes”", "  Holds from line 4 until line 12 “gives”.", "  Knew nothing of ben.",
    "ben, line 8 “takes”", "  Holds from line 8 until line 14 “gives”.", "  Knew ada up to line 2 “asks”.",
    "What is missing", "  No messages lead from ada’s end, line 12, to ben’s begin, line 8, nor from ben’s end, " +
      "line 14, to ada’s begin, line 4.",
    "  An order by other means, such as a lock that isn’t in the log, isn’t seen.", ""]);
});

test("a condition that lasts to the end of the log, or at least of what is shown", () => {
  const log = LEASE.slice(0, -1), words = more => text(log, { rules: BOTH, moment: [1, 3], ...more });
  assert.ok(words().includes("  Holds from line 8 on, and still at the end of the log."));
  assert.ok(words().includes("  No end of ben is shown."));
  assert.ok(words().includes("  No messages lead from ada’s end, line 12, to ben’s begin, line 8."));
  const more = words({ left_out: { before: 0, after: 0, more: true } });
  assert.ok(more.includes("  Holds from line 8 on, up to the last event shown at least."));
});

test("a condition that is asked for at an event alone", () => {
  const words = text(LEASE, { rules: { ada: "at", ben: "while" }, moment: [1, 3] });
  assert.ok(words.includes("  Holds at line 4 alone."));
  assert.ok(words.includes("  No messages lead from ada’s line 4, to ben’s begin, line 8, nor from ben’s end, " +
    "line 14, to ada’s line 4."));
});

test("a member from far back, whose clock and end aren't known", () => {
  const log = [{ ...LEASE[1], clock: {}, far: true }, ...LEASE.slice(2, 4)];
  const words = text(log, { rules: BOTH, moment: [0, 2], left_out: { before: 2, after: 0, more: true } });
  assert.ok(words.includes("  Holds from line 4 or before until an event that isn't shown, if there is one."), words);
  assert.ok(words.includes("  What it knew of the others isn't known."), words);
  assert.ok(words.includes("  Knew ada up to an event that isn't shown."), words);
});

test("the heading says who, for each answer", () => {
  const cam = event(16, "cam", { cam: 1 }, "takes", true), three = { ...BOTH, cam: "while" }, moment = [1, 3];
  const cases = [
    [LEASE, { rules: BOTH, moment }, "ada (line 4) and ben (line 8) could hold at once"],
    [LEASE, { rules: BOTH, moment: [3, 1] }, "ben (line 8) and ada (line 4) could hold at once"],
    [[...LEASE, cam], { rules: three, moment: [1, 3, 7] },
      "ada (line 4), ben (line 8) and cam (line 16) could hold at once"],
    [[...LEASE, cam], { rules: three, moment, asks: "two" },
      "Two could hold at once: ada (line 4) and ben (line 8)"],
    [LEASE, { rules: { ada: "while" }, moment: [1] }, "ada (line 4) could hold"],
    [LEASE, { rules: BOTH, moment, answer: "definite" },
      "ada (line 4) and ben (line 8) held at once, in every order of the events"],
    [LEASE, { rules: BOTH, moment, answer: "possible" },
      "ada (line 4) and ben (line 8) could hold at once, though not in every order of the events"],
    [LEASE, { rules: BOTH }, "None: ada and ben could not hold at once"],
    [LEASE, { rules: { ada: "while" } }, "None: ada never holds"],
    [LEASE, {}, "None: no moment was found"],
    [[...LEASE, cam], { rules: three, asks: "two" }, "None: no two of ada, ben and cam could hold at once"],
    [LEASE, { rules: BOTH, answer: "undecided" },
      "Undecided: no moment so far at which ada and ben could hold at once"],
    [LEASE, { answer: "undecided" }, "Undecided: no moment so far"],
  ];
  for (const [log, more, wanted] of cases) assert.equal(heading(log, more), wanted);
});

test("of many members the heading names five, and the title too", () => {
  const log = Array.from({ length: 9 }, (_, k) => event(k + 1, `h${k}`, { [`h${k}`]: 1 }, "", true));
  const data = dataOf(log, { rules: Object.fromEntries(log.map(it => [it.host, "while"])), moment: [...log.keys()] });
  assert.equal(run(data, "plain(headingWords())"), "h0 (line 1), h1 (line 2), h2 (line 3), h3 (line 4), h4 (line 5) " +
    "and 4 others could hold at once");
  assert.equal(run(data, "titleWords()"), "h0, h1, h2, h3, h4 and 4 others could hold at once");
});

test("a run's card says what its end knew", () => {
  const log = [event(1, "ada", { ada: 1 }, "takes", true), event(2, "ben", { ben: 1 }, "takes", true),
    event(3, "ada", { ada: 2, ben: 1 }, "gives"), event(4, "ben", { ben: 2, ada: 1 }, "gives")];
  const data = { rules: BOTH, moment: [0, 1], answer: "definite", over: [3, 4] };
  assert.deepEqual(text(log, data).slice(3, -1), ["ada, line 1 “takes”", "  Holds from line 1 until line 3 “gives”.",
    "  At its end, line 3, it knew ben’s begin, line 2.", "ben, line 2 “takes”",
    "  Holds from line 2 until line 4 “gives”.", "  At its end, line 4, it knew ada’s begin, line 1.",
    "Why in every order", "  Each end knew of the others’ begins: in whichever order the events came, none was over " +
      "before."]);
});

test("why there is none: by --explain, by a condition that never holds, and by the nearest miss", () => {
  const log = [event(1, "ada", { ada: 1 }, "takes", true), event(2, "ada", { ada: 2 }, "gives"),
    event(3, "cam", { cam: 1, ada: 2 }, "tells"), event(4, "ben", { ben: 1, ada: 2, cam: 1 }, "takes", true)];
  const miss = ["The nearest miss", "  ada holds from line 1 until line 2 “gives”.",
    "  ben holds from line 4 “takes”, after that: by 2 messages: ada line 2 → cam line 3; cam line 3 → ben line 4."];
  assert.deepEqual(text(log, { rules: BOTH }).slice(3, -1), miss);
  const words = "none\nada events 2 matched 1\nwhy: no state of ada is left\nada line 1 is over at line 4 of ben\n";
  assert.deepEqual(text(log, { rules: BOTH, words }).slice(3, -1), ["Why there is none", "  no state of ada is left",
    "  ada line 1 is over at line 4 of ben", ...miss]);
  assert.deepEqual(text(log, { rules: { ada: "while", cam: "while" } }).slice(3, -1), ["Why there is none",
    "  In what is shown cam holds at no event."]);
});

test("the nearest miss is of the last run that was over, and of the first that began behind it", () => {
  const log = [event(1, "ada", { ada: 1 }, "", true), event(2, "ada", { ada: 2 }), event(3, "ben", { ben: 1, ada: 2 }),
    event(4, "ada", { ada: 3 }, "", true), event(5, "ada", { ada: 4 }), event(6, "cam", { cam: 1, ada: 4 }),
    event(7, "ben", { ben: 2, ada: 4, cam: 1 }, "", true)];
  assert.deepEqual(text(log, { rules: BOTH }).slice(3, -1), ["The nearest miss",
    "  ada holds from line 4 until line 5.",
    "  ben holds from line 7, after that: by 2 messages: ada line 5 → cam line 6; cam line 6 → ben line 7."]);
  const third = [event(1, "ada", { ada: 1 }, "", true), event(2, "ben", { ben: 1, ada: 1 }, "", true),
    event(3, "ben", { ben: 2, ada: 1 }), event(4, "ada", { ada: 2 }), event(5, "ben", { ben: 3, ada: 2 }, "", true),
    event(6, "cam", { cam: 1 })];
  assert.deepEqual(text(third, { rules: { ...BOTH, cam: "at" } }).slice(4, -1), ["Why there is none",
    "  In what is shown cam holds at no event.", "The nearest miss", "  ada holds from line 1 until line 4.",
    "  ben holds from line 5, after that: by 1 message: ada line 4 → ben line 5."]);
});

// ---- Random logs: each sentence of a card is looked up in the clocks
const RULES = [{ h0: "while", h1: "while" }, { h0: "while", h1: "at", h2: "while" }, { h0: "at", h1: "at" }];
const ALL = { h0: "while", h1: "while", h2: "while", h3: "while" };
const lineOf = word => Number(/line (\d+)/.exec(word)[1]);
const byLine = (log, line) => log.find(it => it.line === line);

function checkMember(log, rules, m, said) {
  const rule = rules[m.host], [first, end] = runAround(log, m, rule);
  const span = rule === "at" ? `Holds at line ${m.line} alone.` : end
    ? `Holds from line ${first.line} until line ${end.line} “${end.text}”.`
    : `Holds from line ${first.line} on, and still at the end of the log.`;
  assert.ok(said.includes(span), `${span}: ${said}`);
  const none = [];
  for (const host of Object.keys(rules).filter(it => it !== m.host)) {
    const known = ofHost(log, host).filter(it => isBefore(it, m)).at(-1);
    if (!known) none.push(host);
    else assert.match(said, new RegExp(`Knew (.* and )?${host} up to line ${known.line} “${known.text}”( and .*)?\\.`));
  }
  assert.equal(said.includes("Knew nothing of"), none.length > 0, said);
  if (none.length) assert.ok(said.includes(`Knew nothing of ${none.join(" and ")}.`), said);
}
// For how many lines the conditions of two hold at once, where what has no end lasts to the end of the log.
function shared(log, rules, two) {
  const [a, b] = two.map(m => runAround(log, m, rules[m.host]));
  const ends = [a, b].map(([, end]) => (end ?? log.at(-1)).line);
  return Math.min(...ends) - Math.max(a[0].line, b[0].line);
}
// The pairs of members of which one at least has an end, those that hold longest at once first.
function pairsOf(log, rules, members) {
  const ended = new Set(members.filter(m => runAround(log, m, rules[m.host])[1]));
  const all = members.flatMap((b, k) => members.slice(0, k).map(a => [a, b])).filter(two => two.some(m => ended.has(m)));
  return all.sort((one, other) => shared(log, rules, other) - shared(log, rules, one));
}
function checkMissing(log, rules, members, said) {
  const found = [...said.matchAll(/No messages lead (.*?)\.$/gm)].map(([, words]) =>
    [...words.matchAll(/from (h\d)’s (?:end, )?line (\d+), to (h\d)’s (?:begin, )?line (\d+)/g)]);
  const wanted = pairsOf(log, rules, members), ended = m => runAround(log, m, rules[m.host])[1] ? 1 : 0;
  assert.deepEqual(found.map(ways => [...new Set(ways.flatMap(([, one, , other]) => [one, other]))].sort()),
    wanted.slice(0, 3).map(two => two.map(m => m.host).sort()), said);
  assert.deepEqual(found.map(ways => ways.length), wanted.slice(0, 3).map(([a, b]) => ended(a) + ended(b)), said);
  const more = wanted.length - 3, rest = `And ${more} more pair${more === 1 ? "" : "s"}: Why? goes through each two.`;
  assert.equal(said.includes("more pair"), more > 0, said);
  assert.ok(more <= 0 || said.includes(rest), said);
  for (const [, one, over, other, begin] of found.flat()) {
    const [a, b] = [over, begin].map(it => byLine(log, Number(it))), of = host => members.find(m => m.host === host);
    assert.equal(a, runAround(log, of(one), rules[one])[1], said);
    assert.equal(b, runAround(log, of(other), rules[other])[0], said);
    assert.ok(!isBefore(a, b), said);
  }
}
function checkMiss(log, rules, said) {
  const found = new RegExp("^  (h\\d) holds (?:at|from) line (\\d+).*\n" +
    "  (h\\d) holds (?:at|from) line (\\d+).*: by (\\d+) messages?: (.*)\\.$", "m");
  const [, one, first, other, then, count, hops] = found.exec(said), until = / until line (\d+)/.exec(said);
  const [begin, over] = runAround(log, byLine(log, Number(first)), rules[one]), to = byLine(log, Number(then));
  assert.deepEqual([begin.line, until ? over.line : null], [Number(first), until ? Number(until[1]) : null], said);
  assert.equal(runAround(log, to, rules[other])[0], to, said);
  assert.ok(isBefore(over, to), said);
  const ends = hops.split("; ").map(hop => hop.split(" → ").map(lineOf).map(it => byLine(log, it)));
  assert.equal(ends.length, Number(count), said);
  let at = over;
  for (const [from, into] of ends) {
    assert.ok((at === from || isBefore(at, from)) && at.host === from.host && isBefore(from, into), said);
    at = into;
  }
  assert.ok((at === to || isBefore(at, to)) && at.host === to.host, said);
  const between = runsOf(log, one, rules[one]).filter(([, end]) => end && isBefore(over, end) && isBefore(end, to));
  assert.deepEqual(between, [], `another run of ${one} ends between: ${said}`);
}

test("of three members and more the pairs that hold longest at once are named", () => {
  let moments = 0, more = 0;
  for (let seed = 1; seed <= 60; seed++) {
    const log = randomLog(seed, 30, 4), moment = momentOf(log, ALL);
    if (!moment) continue;
    moments++;
    const all = text(log, { rules: ALL, moment }).join("\n").split(/\n(?=\S)/);
    checkMissing(log, ALL, moment.map(i => log[i]), all.at(-1));
    if (all.at(-1).includes("more pair")) more++;
  }
  assert.ok(moments > 20 && more > 10, `${moments} moments, ${more} with more pairs`);
});

test("each sentence is true of random logs", () => {
  const seen = { found: 0, none: 0 };
  for (let seed = 1; seed <= 240; seed++) {
    const rules = RULES[seed % 3], log = randomLog(seed, 14 + seed % 20, 3 + seed % 2);
    if (seed % 5 < 3) log.forEach((it, k) => { it.holds &&= k % 7 === 0; }); // few states, and so often no moment
    const moment = momentOf(log, rules);
    const said = text(log, { rules, moment }).join("\n"), members = (moment ?? []).map(i => log[i]);
    if (moment) {
      seen.found++;
      const who = members.map(m => `${m.host} (line ${m.line})`);
      assert.ok(said.startsWith(`${who.slice(0, -1).join(", ")} and ${who.at(-1)} could hold at once\n`), said);
      const all = said.split("\n\n")[1].split(/\n(?=\S)/);
      members.forEach((m, k) => checkMember(log, rules, m, all[k]));
      checkMissing(log, rules, members, all.at(-1));
      assert.equal(all.length, members.length + 1, said);
    } else if (said.includes("nearest miss")) {
      seen.none++;
      checkMiss(log, rules, said);
    }
  }
  assert.ok(seen.found > 80 && seen.none > 15, JSON.stringify(seen));
});
