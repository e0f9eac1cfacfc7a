// The lines of the hosts with their bars and events, and the arrows between them.
// The line of a host, its bars, and its events from rank `from` to before rank `to`.
function drawHost(h, from, to) {
  const them = eventsOf[h], end = Math.min(width, round(sheetWidth() - scrolled));
  const [begin, broken, whole] = startsOf(h, end);
  const stop = Math.max(gutter, whole, leftOut.more ? Math.min(end, atColumn(columns - 1) + 20) : end);
  drawPiece("gaps", h, gutter, Math.min(begin, end));
  drawPiece("hosts", h, Math.max(gutter, begin), broken);
  drawPiece("gaps", h, broken, Math.min(whole, end));
  drawPiece("hosts", h, Math.max(gutter, whole), stop);
  drawPiece("gaps", h, stop, end);
  for (const [kind, isIn] of [["bars", isReached], ["faint-bars", i => !isReached(i)]])
    for (const piece of joined(barsOf(h, from, to, end, isIn), crowded ? 1.9 : 0.1)) drawPiece(kind, h, ...piece, 16);
  for (const [a, b] of cone ? pastPieces(cone, h) : []) drawPiece("past-piece", h, X(them[a]), X(them[b - 1]) + 0.1);
  if (cone?.future[h] < them.length && cone !== momentCone && !play.isOn)
    drawPiece("future-piece", h, X(them[cone.future[h]]), X(them.at(-1)) + 0.1);
  const crowds = { crowd: [], "faint-crowd": [] };
  for (const i of them.slice(from, to)) {
    const part = shownPart(i);
    if (!crowded) out[part ? `${part}-dots` : "dots"] += `M${X(i)} ${Y(i)}h0`;
    else crowds[part ? `${part}-crowd` : "crowd"]?.push([X(i), X(i) + 1]);
  }
  for (const kind in crowds) for (const piece of joined(crowds[kind], 2)) drawPiece(kind, h, ...piece);
}
// What came after the moment isn't lit.
function shownPart(i) {
  if (!isReached(i)) return "faint";
  const part = cone ? partOf(cone, i) : "";
  return part === "future" && cone === momentCone ? "" : part;
}
// Where a host's line begins, where it breaks off behind a far event, and where it goes on. What is left of the
// beginning, and what is between, is left out.
function startsOf(h, end) {
  const [first] = eventsOf[h], isWhole = !leftOut.before || first >= 0 && hasClock(first) && own(first) === 1;
  const begin = isWhole ? gutter : first >= 0 && events[first].far ? X(first) : atColumn(afterFar) - 14;
  if (!(first >= 0 && isGapBehind(first))) return [begin, begin, begin];
  return [begin, X(first), nextOf(first) < 0 ? end : X(nextOf(first))];
}
// From where to where a host's condition holds, at these events.
function barsOf(h, from, to, end, isIn) {
  const isLasting = hosts[h].rule !== "at", them = eventsOf[h].slice(Math.max(0, from - 1), to);
  return them.filter(i => events[i].holds && isIn(i))
    .map(i => isLasting ? [X(i), endOfBar(i, end)] : [X(i) - 6, X(i) + 6]);
}
// It holds until the host's next event. Where that may be left out, it holds up to the moment at least.
function endOfBar(i, end) {
  if (isGapBehind(i)) return Math.max(X(i) + 6, atColumn(momentColumn + 0.5));
  return nextOf(i) < 0 ? end : X(nextOf(i));
}
// A run lasts to the event at which it is over, or on to the end. Where that event isn't shown, it is in the gap.
const endOfRun = ({ over, line }) => over >= 0 ? X(over) : line === null ? width + 9 : atColumn(afterFar - 1);
// The ways of arrows, and the arrows as they are drawn, by their events. Ways are kept until columns or rows change,
// arrows until the view moves too.
const ways = new Map(), drawnArrows = new Map();
let grid = { step: 0, height: 0, columns: [] };
function keepWays() {
  const sizes = [state.step, rowHeight, rows, state.fold].join(" ");
  if (isNew("arrows", `${sizes} ${scrolled} ${gutter}`)) drawnArrows.clear();
  if (!isNew("ways", sizes)) return;
  ways.clear();
  grid = { step: state.step, height: rowHeight, columns: rows.map(h => eventsOf[h].map(i => column[i])) };
}
const keyOf = (from, to) => from * N + to;
// The way of the arrow between two events, in the drawing's places.
function wayBetween(from, to) {
  const key = keyOf(from, to), placeIn = i => [column[i] * state.step, rowOf[hostOf[i]] * rowHeight];
  if (!ways.has(key)) ways.set(key, wayOf(grid, placeIn(from), placeIn(to)));
  return ways.get(key).map(([x, y]) => [origin() - scrolled + x, TOP + rowHeight / 2 + y]);
}
function arrowBetween(from, to) {
  const key = keyOf(from, to);
  if (!drawnArrows.has(key)) drawnArrows.set(key, arrow(...wayBetween(from, to)));
  return drawnArrows.get(key);
}
// A line through places, rounded where it is bent.
function lineOf(way) {
  const at = ([x, y]) => `${round(x)} ${round(y)}`, near = (k, other) => at(onTheWay(way[k], way[other], 5));
  return way.map((place, k) => k === 0 ? `M${at(place)}` : k === way.length - 1 ? `L${at(place)}`
    : `L${near(k, k - 1)}Q${at(place)} ${near(k, k + 1)}`).join("");
}
function arrow(...way) {
  const line = lineOf(way), [[x0, y0], [x1, y1]] = way.slice(-2);
  if (state.step < 6) return line;
  const long = Math.hypot(x1 - x0, y1 - y0) || 1, ux = (x1 - x0) / long, uy = (y1 - y0) / long;
  const back = (by, side) => `${round(x1 - by * ux + side * uy)} ${round(y1 - by * uy - side * ux)}`;
  return `${line}M${back(12, 3.5)}L${back(5, 0)}L${back(12, -3.5)}`;
}
function drawArrow({ from, to, unseen }) {
  const [begins, ends] = [from, to].map(i => Boolean(cone?.of.includes(i)));
  if (!isShown(from) || !isShown(to) || crowded && !begins && !ends) return;
  const isOnRoad = !cone?.roads || cone.roads.some(it => isOn(it, from) && isOn(it, to));
  const kind = !isReached(to) ? "faint-arrows" : cone && (ends || isPast(cone, to) && isOnRoad) ? "past-arrows"
    : cone && cone !== momentCone && (begins || partOf(cone, from) === "future") ? "future-arrows"
    : unseen ? "unseen" : "arrows";
  out[kind] += arrowBetween(from, to);
}
// A message of which one end is unknown or not shown: a short piece toward the other host, with a cross at a lost end.
function drawHalf({ from, to, from_host: source, to_host: target }) {
  const i = from ?? to, other = rowOf[source ?? target ?? -1] ?? -1;
  if (!isShown(i)) return;
  const x = X(i) + (from === null ? -1 : 1) * Math.min(14, state.step * 0.6), high = Math.min(20, rowHeight / 2);
  const y = Y(i) + (other >= 0 && other < rowOf[hostOf[i]] ? -high : high);
  out.unseen += from === null ? arrow([x, y], [X(i), Y(i)]) : `M${X(i)} ${Y(i)}L${x} ${y}`;
  if (to === null) out.arrows += `M${x - 3} ${y - 3}l6 6m-6 0l6 -6`;
}
