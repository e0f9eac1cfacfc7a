// The drawing: a path for each kind of mark, from back to front, written anew for what is in view.
const KINDS = ("overlap hosts gaps faint-bars bars both past-piece future-piece faint-crowd crowd faint-arrows " +
  "arrows unseen past-arrows future-arrows chain chain-back faint-dots dots hearts past-dots future-dots moment reach " +
  "members match kept current").split(" ");
const paths = Object.fromEntries(KINDS.map(kind => [kind, make("path", { class: kind }, drawing)]));
const labels = make("g", {}, drawing), names = make("g", {}, drawing);
const round = x => Math.round(x * 10) / 10;
const circle = (x, y, r) => `M${round(x - r)} ${round(y)}a${r} ${r} 0 1 0 ${2 * r} 0a${r} ${r} 0 1 0 ${-2 * r} 0`;
const atColumn = c => round(origin() + c * state.step - scrolled);
const X = i => atColumn(column[i]), Y = i => round(rowY(hostOf[i]));
const isShown = i => rowOf[hostOf[i]] >= 0;
const out = {}, drawn = {};
let crowded = false, frame = 0, waiting = 0;
// Whether a part of the drawing is to be made anew, as it is made of something else than before.
const isNew = (part, content) => drawn[part] !== (drawn[part] = content);
const forgetDrawn = () => { for (const part in drawn) delete drawn[part]; };
const paper = matchMedia("print"); // on paper stands what was in view
function draw() {
  if (paper.matches) return;
  scrolled = view.scrollLeft;
  for (const kind of KINDS) out[kind] = "";
  drawing.classList.toggle("under-way", isUnderWay());
  keepWays();
  const first = columnAt(gutter) - 2, last = columnAt(width) + 2;
  const spans = rows.map(h => [h, rankFrom(h, first), rankFrom(h, last)]);
  const count = spans.reduce((sum, [, from, to]) => sum + to - from, 0);
  crowded = count > 4000 || count > width / 2 && state.step < 7; // dots would cover each other
  for (const span of spans) drawHost(...span);
  const near = firstPlace(arrows, it => it.left >= first - longest), end = firstPlace(arrows, it => it.left > last);
  for (const it of arrows.slice(near, end)) if (it.right >= first) drawArrow(it);
  if (!crowded) halves.forEach(drawHalf);
  drawOverlap();
  drawMarks(first, last);
  out.hearts = out.dots;
  for (const kind of KINDS) if (isNew(kind, out[kind])) paths[kind].setAttribute("d", out[kind]);
  const sizes = [width, height, gutter, rows].join(" ");
  if (isNew("names", sizes)) writeNames();
  const written = [sizes, scrolled, state.step, state.fold, noteCount, play.isOn, play.at].join(" ");
  if (isNew("labels", written)) writeLabels(spans, count);
  drawStrip();
  showChips();
}
function redraw() {
  frame ||= requestAnimationFrame(() => { frame = 0; draw(); });
  clearTimeout(waiting);
  waiting = setTimeout(remember, 200);
}
// The conditions that could hold at once: a bar for each, and a box about the piece that they share.
function drawOverlap() {
  const shown = members.filter(isShown), bars = shown.map(m => isAt(hostOf[m]) ? [X(m) - 6, X(m) + 6]
    : [X(firstOf(m)), overAt(m) >= 0 ? X(overAt(m)) : runFrom(m) ? endOfRun(runFrom(m)) : endOfBar(m, width + 9)]);
  shown.forEach((m, k) => drawPiece("both", hostOf[m], ...bars[k], 16));
  const left = Math.max(gutter, ...bars.map(it => it[0])), right = Math.min(width + 9, ...bars.map(it => it[1]));
  const places = shown.map(m => rowOf[hostOf[m]]), y = row => round(TOP + (row + 0.5) * rowHeight);
  if (shown.length > 1 && left < right) out.overlap = `M${round(left)} ${y(Math.min(...places)) - 14}H${round(right)}` +
    `V${y(Math.max(...places)) + 14}H${round(left)}z`;
}
// The chains, the moment, and the marks of single events.
function drawMarks(first, last) {
  const marks = (list, mark) => [...new Set(list.filter(isShown).map(mark))].join("");
  for (const [chain, kind] of lit) chain.forEach((i, k) => {
    if (isShown(i)) out[kind] += k && isShown(chain[k - 1]) ? linkOf(chain[k - 1], i) : `M${X(i)} ${Y(i)}`;
  });
  const line = atColumn(momentColumn);
  if (moment.length) out.moment = `M${line} ${TOP - 14}V${round(TOP + rows.length * rowHeight)}`;
  out.members = marks(members, i => circle(X(i), Y(i), 8));
  for (const run of runs.filter(it => isShown(it.first)))
    drawPiece("members", hostOf[run.first], X(run.first), endOfRun(run), 22);
  out.reach = marks(moment.filter(i => column[i] < momentColumn), i => `M${X(i) + 8} ${Y(i)}H${line}m0 -7v14`);
  const grid = crowded ? 3 : 0.1; // where it is crowded, one mark for each three pixels
  out.match = marks(matches.filter(i => column[i] >= first && column[i] <= last),
    i => `M${round(Math.round(X(i) / grid) * grid)} ${Y(i) - 7}l-5 -8h10z`);
  out.kept = marks(state.kept, i => circle(X(i), Y(i), 7));
  out.current = marks([current], i => circle(X(i), Y(i), state.kept.includes(i) ? 4.5 : 6));
}
// A piece of a chain: along a host, or the way of a message.
const linkOf = (from, to) => hostOf[from] === hostOf[to] ? `L${X(to)} ${Y(to)}` : lineOf(wayBetween(from, to));
// A piece of a host's line, or a box of this breadth about it, as far as it is in view.
function drawPiece(kind, h, left, right, breadth = 0) {
  const from = round(Math.max(left, gutter - 9)), to = round(Math.min(right, width + 9)), y = round(rowY(h));
  if (from < to) out[kind] += `M${from} ${round(y - breadth / 2)}H${to}${breadth ? `v${breadth}H${from}z` : ""}`;
}
// Pieces from left to right, those in one that are at most `gap` apart.
function joined(pieces, gap) {
  const runs = [];
  for (const [left, right] of pieces)
    if (runs.length && left - runs.at(-1)[1] <= gap) runs.at(-1)[1] = right; else runs.push([left, right]);
  return runs;
}
