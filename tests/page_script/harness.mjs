// Runs the parts of the page's script that need no document, with the data of a page.
import { readFileSync } from "node:fs";
import vm from "node:vm";

const FILES = ["data", "order", "holds", "cones", "columns", "schedule", "ways", "words", "answer", "question"];
const folder = new URL("../../crates/draw_page/page/", import.meta.url);
const script = FILES.map(name => readFileSync(new URL(`${name}.js`, folder), "utf8")).join("\n");

// An event: its line, its host, its clock by names, its text, and whether the condition of its host holds.
export const event = (line, host, clock, text = "", holds = false) => ({ line, host, clock, text, holds });

// The data of a page of a log.
export function dataOf(log, { rules = {}, moment = null, answer = moment ? "found" : "none", ...more } = {}) {
  const names = [...new Set(log.map(it => it.host))], place = name => names.indexOf(name);
  const hosts = names.map(name => rules[name] ? { name, rule: rules[name], condition: "holds" } : { name });
  const events = log.map(it => ({ host: place(it.host), line: it.line, text: it.text,
    clock: Object.entries(it.clock).map(([name, value]) => [place(name), value]), ...(it.holds && { holds: true }),
    ...(it.far && { far: true }) }));
  return { program: "wcptrace", title: "", unit: "line", asks: "all", answer, words: `${answer}\n`, hosts, events,
    moment, over: [], left_out: { before: 0, after: 0, more: false }, ...more };
}

// What an expression of the script's names gives, where the question of this number is chosen.
export function run(data, expression, asked = 0) {
  const document = { getElementById: () => ({ textContent: JSON.stringify(data) }) };
  const value = vm.runInNewContext(`${script}\n;ask(${asked});(${expression})`, { document });
  return value === undefined ? value : JSON.parse(JSON.stringify(value));
}

// A log of events that send, receive and work by chance, from a number.
export function randomLog(seed, count, hosts) {
  let drawn = seed * 2654435761 % 4294967296;
  const chance = below => {
    drawn = (Math.imul(drawn ^ drawn >>> 15, 2246822519) + 3266489917) >>> 0;
    return ((drawn ^ drawn >>> 13) >>> 0) % below;
  };
  const names = Array.from({ length: hosts }, (_, h) => `h${h}`);
  const clocks = names.map(() => ({})), sent = names.map(() => []);
  return Array.from({ length: count }, (_, k) => {
    const h = chance(hosts), clock = clocks[h];
    clock[names[h]] = (clock[names[h]] ?? 0) + 1;
    if (sent[h].length && chance(3)) {
      const [news] = sent[h].splice(chance(sent[h].length), 1);
      for (const name in news) clock[name] = Math.max(clock[name] ?? 0, news[name]);
    } else if (chance(2)) sent[chance(hosts)].push({ ...clock });
    return event(k + 1, names[h], { ...clock }, `works ${k}`, chance(3) > 0);
  });
}
