// The ways of arrows: straight, or bent beside each event that a straight one would run through. A place is a pair of
// pixels, counted from the first column and the first row. A grid says how far apart columns are (`step`) and rows
// (`height`), and the columns of the events of each row, from left to right (`columns`).
const CLEAR = 7; // an arrow stays so far from each event that is neither of its ends
const BESIDE = 14; // where it is bent, it passes so far beside a column, where there is room
const LEAST_STEP = 2 * CLEAR; // columns that are nearer together leave no room for an arrow between two events

// The way from one place to another, as a list of places. Where it would meet an event of a row it is bent there.
function wayOf(grid, from, to) {
  const bent = new Set();
  if (grid.step < LEAST_STEP || to[0] - from[0] < LEAST_STEP) return [from, to];
  for (;;) {
    const way = bentWay(grid, from, to, bent), before = bent.size;
    for (let k = 1; k < way.length; k++) bendRowsMet(grid, way, k, bent);
    if (bent.size === before) return way;
  }
}
// The way that is bent at these rows: there it goes straight down or up, beside a column; at the rows of its ends it
// leaves or arrives steeply.
function bentWay({ step, height }, from, to, bent) {
  const [first, last] = [from, to].map(([, y]) => Math.round(y / height)), down = Math.sign(last - first);
  const beside = Math.min(BESIDE, step / 2), high = down * Math.min(BESIDE, height / 2), way = [from];
  for (let row = first; row !== last + down; row += down) {
    if (!bent.has(row)) continue;
    const y = row * height, straight = from[0] + (to[0] - from[0]) * (row - first) / (last - first);
    const x = Math.max(from[0] + beside, Math.min(to[0] - beside, besideColumn(straight, step, beside)));
    if (row !== first) way.push([x, y - high]);
    if (row !== last) way.push([x, y + high]);
  }
  return [...way, to];
}
// The nearest place across that is as far as `beside` from each column.
function besideColumn(x, step, beside) {
  const column = Math.round(x / step) * step, off = x - column;
  return Math.abs(off) >= beside ? x : off < 0 ? column - beside : column + beside;
}
// Adds the rows that have an event too near to the piece of a way that ends with its place k, and neither of its ends.
function bendRowsMet({ step, height, columns }, way, k, bent) {
  const [x0, y0] = way[k - 1], [x1, y1] = way[k], high = Math.min(y0, y1) - CLEAR, low = Math.max(y0, y1) + CLEAR;
  const last = Math.min(columns.length - 1, Math.floor(low / height));
  for (let row = Math.max(0, Math.ceil(high / height)); row <= last; row++) {
    if (bent.has(row)) continue;
    const y = row * height, [left, right] = reachAt(x0, y0, x1, y1, y), them = columns[row];
    for (let at = firstPlace(them, c => c * step >= left); them[at] * step <= right; at++)
      if (isNear(them[at] * step, y, x0, y0, x1, y1) && !isEnd(them[at] * step, y, way)) bent.add(row);
  }
}
const isEnd = (x, y, way) => [way[0], way.at(-1)].some(end => Math.abs(end[0] - x) + Math.abs(end[1] - y) < 1);
// From where to where across a piece of a way may be near to a row.
function reachAt(x0, y0, x1, y1, y) {
  const left = Math.min(x0, x1) - CLEAR, right = Math.max(x0, x1) + CLEAR;
  if (y0 === y1) return [left, right];
  const x = x0 + (x1 - x0) * (y - y0) / (y1 - y0), near = CLEAR * Math.hypot(x1 - x0, y1 - y0) / Math.abs(y1 - y0);
  return [Math.max(left, x - near), Math.min(right, x + near)];
}
// Whether a place is too near to a piece of a way.
function isNear(x, y, x0, y0, x1, y1) {
  const dx = x1 - x0, dy = y1 - y0, long = dx * dx + dy * dy || 1;
  const along = Math.max(0, Math.min(1, ((x - x0) * dx + (y - y0) * dy) / long));
  return Math.hypot(x - x0 - along * dx, y - y0 - along * dy) < CLEAR;
}
// The place so far from one on the way to another, and at most in the middle.
function onTheWay([x0, y0], [x1, y1], far) {
  const long = Math.hypot(x1 - x0, y1 - y0) || 1, part = Math.min(0.5, far / long);
  return [x0 + (x1 - x0) * part, y0 + (y1 - y0) * part];
}
