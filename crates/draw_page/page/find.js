// Search: the events whose texts have the words, or those that `host:`, `line:` or `knew:` in front of them ask for.
const FRONT = /^\s*(host|line|knew):(\S+)\s*/;
// The tests that an event must pass, and the words behind them.
function asksOf(words) {
  const tests = [];
  for (let front = FRONT.exec(words); front; front = FRONT.exec(words)) {
    tests.push(testOf(front[1], front[2]));
    words = words.slice(front[0].length);
  }
  return [tests, words];
}
// `host:ben`, a part of a name; `line:9` and `line:9-20`; `knew:9`, the events behind that of a line.
function testOf(kind, word) {
  if (kind === "host") {
    const those = new Set([...hosts.keys()].filter(h => hosts[h].name.toLowerCase().includes(word.toLowerCase())));
    return i => those.has(hostOf[i]);
  }
  const [from, to = from] = word.split("-").map(Number);
  if (kind === "line") return i => events[i].line >= from && events[i].line <= to;
  const known = events.findIndex(it => it.line === from);
  return i => known >= 0 && i !== known && before(known, i);
}
function search() {
  let matching = null, fault = "";
  const [tests, rest] = state.regex ? [[], state.find] : asksOf(state.find);
  const words = state.regex ? rest : rest.replace(/[.*+?^${}()|[\]\\]/g, "\\$&");
  try { matching = state.find ? new RegExp(words, state.case ? "" : "i") : null; }
  catch (error) { fault = error.message; }
  const isFound = i => tests.every(test => test(i)) && matching.test(events[i].text);
  matches = matching ? [...events.keys()].filter(isFound) : [];
  $("find").setAttribute("aria-invalid", String(Boolean(fault)));
  $("matches").textContent = fault ? `Not a regular expression: ${fault}`
    : state.find ? `${plural(matches.length, "event")} found` : "";
  $("next").disabled = $("previous").disabled = !matches.length;
  redraw();
}
function toMatch(way) {
  endWalk();
  const shown = matches.filter(isShown).sort((a, b) => column[a] - column[b] || hostOf[a] - hostOf[b]);
  if (!shown.length) return;
  const at = shown.indexOf(current), c = columnAt(middle()) - 0.5, right = shown.filter(i => column[i] < c).length;
  const i = shown[((at >= 0 ? at + way : way > 0 ? right : right - 1) + shown.length) % shown.length];
  keep([i]);
  reveal(i);
  $("matches").textContent = `${shown.indexOf(i) + 1} of ${plural(shown.length, "event")} found`;
}
