// The answer in words: who and when as the heading, a card for each member, what is missing, and why there is none.
const namesOf = those => listing(those.map(hostName));
const placed = m => w`${nameOf(m)} (${line(m)})`;
function headingWords() {
  const all = listing(members.map(placed)), alone = members.length === 1;
  if (data.answer === "definite") return alone ? w`${all} held` : w`${all} held at once, in every order of the events`;
  if (members.length) {
    const said = data.asks === "two" ? w`Two could hold at once: ${all}`
      : w`${all} could hold${alone ? "" : " at once"}`;
    return data.answer === "possible" ? w`${said}, though not in every order of the events` : said;
  }
  if (data.answer === "none") return noneWords();
  return asked.length > 1 ? w`Undecided: no moment so far at which ${namesOf(asked)} could hold at once`
    : ["Undecided: no moment so far"];
}
function noneWords() {
  if (asked.length < 2) return asked.length ? w`None: ${namesOf(asked)} never holds` : ["None: no moment was found"];
  return data.asks === "two" ? w`None: no two of ${namesOf(asked)} could hold at once`
    : w`None: ${namesOf(asked)} could not hold at once`;
}
// The title of the document: who, without the lines.
function titleWords() {
  const who = listing(members.map(nameOf));
  if (!members.length) return plain(headingWords());
  return plain(w`${who} ${data.answer === "definite" ? "held" : "could hold"}${members.length > 1 ? " at once" : ""}`);
}
// ---- The cards
// From when until when the condition of a member holds.
function spanWords(m) {
  if (isAt(hostOf[m])) return w`Holds at ${line(m)} alone.`;
  const from = `${line(firstOf(m))}${mayBeginBefore(m) ? " or before" : ""}`, over = overAt(m);
  if (over >= 0) return w`Holds from ${from} until ${line(over)}${quoted(over)}.`;
  const run = runFrom(m);
  if (run?.line) return w`Holds from ${from} until ${data.unit} ${run.line}, which isn't shown.`;
  if (!run && isGapBehind(m)) return w`Holds from ${from} until an event that isn't shown, if there is one.`;
  return leftOut.more ? w`Holds from ${from} on, up to the last event shown at least.`
    : w`Holds from ${from} on, and still at the end of the log.`;
}
// What a member knew of the others: first of whom it knew, then of whom it knew nothing.
function knewWords(m) {
  const others = members.filter(it => it !== m), nothing = others.filter(e => !known(m, hostOf[e]));
  if (!hasClock(m)) return others.length ? [w`What it knew of the others isn't known.`] : [];
  const told = others.filter(e => !nothing.includes(e)).map(e => {
    const last = lastKnown(m, hostOf[e]), isSeen = last >= 0 && !isBehindFar(m, last);
    return w`${nameOf(e)} up to ${isSeen ? line(last) : "an event that isn't shown"}${
      isSeen && others.length < 3 ? quoted(last) : []}`;
  });
  return [...(told.length ? [w`Knew ${listing(told, 99)}.`] : []),
    ...(nothing.length ? [w`Knew nothing of ${listing(nothing.map(nameOf), 9)}.`] : [])];
}
// What the end of a run knew of the other beginnings.
function endKnewWords(m) {
  const over = overAt(m), others = members.filter(it => it !== m);
  return over < 0 || !others.length ? []
    : [w`At its end, ${line(over)}, it knew ${listing(others.map(e => w`${nameOf(e)}\u2019s begin, ${line(e)}`), 9)}.`];
}
const memberCard = m => ({ kind: "member", member: m, title: w`${nameOf(m)}, ${line(m)}${quoted(m)}`,
  lines: [spanWords(m), ...(isDefinite ? endKnewWords(m) : knewWords(m))] });
// "from ben's end, line 20, to dan's begin, line 9", or nothing where ben's condition has no end that is shown.
function wayWords(e, f) {
  const over = overAt(e), end = isAt(hostOf[e]) ? "" : "end, ", to = isAt(hostOf[f]) || mayBeginBefore(f);
  const begin = to ? "" : "begin, ";
  return over < 0 ? null
    : w`from ${nameOf(e)}\u2019s ${end}${line(over)}, to ${nameOf(f)}\u2019s ${begin}${line(firstOf(f))}`;
}
// Between which lines of two members no messages lead, in either direction; nothing where neither has an end.
function missingWords([e, f]) {
  const ways = [wayWords(e, f), wayWords(f, e)].filter(it => it);
  return ways.length ? w`No messages lead ${ways.flatMap((it, k) => k ? [", nor ", ...it] : it)}.` : [];
}
// For how many lines two conditions hold at once, as the lines stand; what has no end lasts to the last line.
function sharedLines(pair) {
  const ends = pair.map(m => overAt(m) < 0 ? lastLine : events[overAt(m)].line);
  return Math.min(...ends) - Math.max(...pair.map(m => events[firstOf(m)].line));
}
const MOST_PAIRS = 3;
function missingCard() {
  const lacking = pairs.filter(pair => missingWords(pair).length).map(pair => ({ pair, shared: sharedLines(pair) }));
  const first = lacking.sort((a, b) => b.shared - a.shared).slice(0, MOST_PAIRS), rest = lacking.length - first.length;
  const endless = members.filter(m => overAt(m) < 0), lines = first.map(({ pair }) => missingWords(pair));
  if (rest) lines.push([`And ${plural(rest, "more pair")}: Why? goes through each two.`]);
  if (endless.length) lines.push(w`No end of ${listing(endless.map(nameOf), 9)} is shown.`);
  lines.push(["An order by other means, such as a lock that isn\u2019t in the log, isn\u2019t seen."]);
  return { kind: "why", title: ["What is missing"], lines };
}
const certainCard = () => ({ kind: "why", title: ["Why in every order"],
  lines: [["Each end knew of the others\u2019 begins: in whichever order the events came, none was over before."],
    ...(members.some(m => overAt(m) < 0) ? [["Of one whose end isn\u2019t shown nothing is asked."]] : [])] });
// ---- Where there is no moment
// The sentences of --explain, where they stand behind the program's words.
function explainedLines() {
  const [, said] = data.words.split(/^why: ?/m);
  return said === undefined ? [] : said.trim().split("\n").filter(it => it);
}
const MOST_REASONS = 5;
function reasonCard() {
  const said = explainedLines(), never = asked.filter(h => !eventsOf[h].some(i => events[i].holds));
  const lines = said.slice(0, MOST_REASONS).map(it => [{ own: it }]);
  if (said.length > MOST_REASONS) lines.push([`${said.length - MOST_REASONS} more stand in the program\u2019s words.`]);
  if (!said.length && never.length)
    lines.push(w`In what is shown ${namesOf(never)} ${never.length === 1 ? "holds" : "hold"} at no event.`);
  return lines.length ? [{ kind: "why", title: ["Why there is none"], lines, isList: true }] : [];
}
function missCard() {
  const { of, from, to, chain } = miss, how = i => isAt(hostOf[i]) ? "at" : "from";
  const until = isAt(hostOf[from]) ? [] : w` until ${line(from)}${quoted(from)}`;
  return { kind: "member", member: to, title: ["The nearest miss"], lines: [
    w`${nameOf(of)} holds ${how(of)} ${line(of)}${isAt(hostOf[of]) ? quoted(of) : []}${until}.`,
    w`${nameOf(to)} holds ${how(to)} ${line(to)}${quoted(to)}, after that: by ${hopWords(chain)}.`] };
}
function cardsOfAnswer() {
  if (isDefinite) return [...members.map(memberCard), ...(members.length > 1 ? [certainCard()] : [])];
  if (members.length) return [...members.map(memberCard), ...(members.length > 1 ? [missingCard()] : [])];
  return data.answer === "none" ? [...reasonCard(), ...(miss ? [missCard()] : [])] : [];
}
// The answer as a text of its own.
function answerText() {
  const cards = cardsOfAnswer().flatMap(({ title, lines }) => [plain(title), ...lines.map(it => `  ${plain(it)}`)]);
  const source = [data.title, data.question].filter(it => it).join(": ");
  const front = [plain(headingWords()), ...(source ? [source] : []), ...conditionWords().map(plain)];
  return [...front, "", ...cards, ""].join("\n");
}
// A condition that lasts from an expression until another says so itself.
const ruleOf = ({ rule, condition }) => rule === "while" && /^from [^]* until /.test(condition) ? "" : `${rule} `;
// The conditions, each with the hosts that share it.
function conditionWords() {
  const those = new Map(), keyOf = h => `${hosts[h].rule} ${hosts[h].condition}`;
  for (const h of listed.filter(it => hosts[it].rule)) those.set(keyOf(h), [...those.get(keyOf(h)) ?? [], h]);
  return [...those.values()].map(all =>
    w`${listing(all.map(hostName), 9)}: ${ruleOf(hosts[all[0]])}${{ own: hosts[all[0]].condition }}`);
}
