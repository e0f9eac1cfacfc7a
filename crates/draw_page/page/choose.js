// Choosing events: `current` is the one pointed at, one or two are kept; and the walk through the pairs.
function say(strong, words) {
  const said = make("p", {}, $("info"));
  if (strong.length) write(make("strong", {}, said), strong);
  write(said, words);
}
// What is said while nothing is chosen.
function guideWords() {
  const point = "Point at an event, or tap it, to see what came before it in blue, and after it in orange.";
  if (runs.length) return `Blue is how the end of one run knows of the beginning of another. ${point}`;
  if (moment.length) return `Blue is what led to the moment, orange the conditions that could hold at once. ${point}`;
  return miss ? `The blue chain is that of the nearest miss. ${point}` : point;
}
function tell() {
  const [a, b] = state.kept, isOther = current >= 0 && !state.kept.includes(current);
  const told = !isOther ? state.kept : b === undefined ? [...state.kept, current] : [current];
  $("info").textContent = "";
  if (!told.length) return say([], [guideWords()]);
  if (play.isOn && told.length === 1) return tellPlayed(told[0]);
  for (const i of told) say(where(i), w`: ${{ own: events[i].text }}`);
  if (state.pair >= 0) return;
  if (told.length > 1 || b !== undefined) return say(...orderWords(...inOrder(...(b === undefined ? told : [a, b]))));
  if (!hasClock(told[0]))
    return say([], ["It stands so far back that its clock isn't known, nor all that came before or after it"]);
  tellOne(told[0]);
}
// The clock of an event, and how many events came before and after it.
function tellOne(i) {
  const past = cone.past.reduce((sum, n) => sum + n);
  const future = cone.future.reduce((sum, n, h) => sum + eventsOf[h].length - n, 0);
  const unclear = [...events.keys()].filter(j => !hasClock(j) && !partOf(cone, j)).length;
  say([], w`clock: ${events[i].clock.flatMap(([h, value], k) => w`${k ? ", " : ""}${hostName(h)} ${value}`)}`);
  say([], [`${plural(past, "event")} came before it, ${plural(future, "event")} after it, ` +
    `${plural(N - 1 - past - future - unclear, "event")} in no order with it` +
    (unclear ? `; of ${plural(unclear, "event")} the clock isn't known` : "")]);
}
function walkTo(k) {
  if (k >= 0) endPlay();
  state.pair = k;
  keep(pairs[k] ?? []);
  measureAndDraw();
  if (k >= 0) reveal(state.kept[0]);
}
// Ends the walk, or what is played.
function endWalk() {
  endPlay();
  if (state.pair >= 0) walkTo(-1);
}
function tellPair() {
  const [e, f] = state.kept, isWalk = state.pair >= 0;
  $("walk").hidden = !isWalk;
  $("why").setAttribute("aria-expanded", String(isWalk));
  fill("walk-words", isWalk ? w`Pair ${state.pair + 1} of ${pairs.length}. ${pairWords(e, f)}` : []);
}
// ---- Choosing events: `current` is the one pointed at, one or two are kept
function choose(i) {
  current = i;
  const [a, b] = state.kept, of = a === undefined ? i : b === undefined ? a : -1;
  cone = b !== undefined ? null : of < 0 ? momentCone : cone?.of[0] === of && cone !== momentCone ? cone : coneOf(of);
  const ways = b === undefined ? [] : state.pair < 0 ? [[...inOrder(a, b), "chain"]] : waysOfPair(a, b);
  lit = ways.map(([from, to, kind]) => [from < 0 || to < 0 ? null : chainOf(from, to), kind])
    .filter(([chain]) => chain);
  if (miss && i < 0 && a === undefined) lit = [[miss.chain, "chain"]];
  tell();
  tellPair();
  redraw();
}
function keep(list) {
  state.kept = list;
  showNote();
  choose(state.pair < 0 ? list.at(-1) ?? -1 : -1);
}
function click(i) {
  endWalk();
  const [a, b] = state.kept;
  keep(i < 0 || i === a && b === undefined ? [] : a === undefined || b !== undefined ? [i] : [a, i]);
}
// The field for the note beside the one event that is kept.
function showNote() {
  const [i] = state.kept;
  $("remark").hidden = state.kept.length !== 1;
  $("note").value = notes.get(i) ?? "";
}
// The event that a pointer means, or -1.
function under(event) {
  const [x, y] = placeOf(event), reach = event.pointerType === "touch" ? 22 : 12;
  const h = rows[Math.floor((y - TOP) / rowHeight)];
  if (h === undefined || Math.abs(y - rowY(h)) > reach + 4 || x < gutter) return -1;
  const c = columnAt(x), i = nearest(h, c);
  return i >= 0 && Math.abs(column[i] - c) * state.step <= reach ? i : -1;
}
// The rank of a host's first event that stands at a column or right of it.
const rankFrom = (h, c) => firstPlace(eventsOf[h], i => column[i] >= c);
// The event of a host that stands nearest to a column, or -1.
function nearest(h, c) {
  const k = rankFrom(h, c), left = eventsOf[h][k - 1] ?? -1, right = eventsOf[h][k] ?? -1;
  return left < 0 || right >= 0 && column[right] - c < c - column[left] ? right : left;
}
function reveal(i) {
  const x = xOf(i), y = rowY(hostOf[i]) - view.scrollTop;
  if (x < gutter + 20 || x > width - 20) view.scrollLeft += x - middle();
  if (y < TOP || y > tall - 20) view.scrollTop += y - tall / 2;
}
function stepTo(i) {
  endWalk();
  if (!isShown(i)) return;
  choose(i);
  reveal(i);
}
// From the current event to the nearest one of the next host up or down that has any.
function stepAcross(way) {
  for (let row = rowOf[hostOf[current]] + way; row >= 0 && row < rows.length; row += way)
    if (eventsOf[rows[row]].length) return stepTo(nearest(rows[row], column[current]));
}
