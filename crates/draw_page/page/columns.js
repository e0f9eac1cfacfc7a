// Columns: by longest path; all that is before the moment stands left of it. Where rows of silent events are folded,
// the events of such a row stand in one column.
// From the last events back; those whose clocks contradict each other stand at the front.
function topologicalOrder() {
  const all = [...events.keys()], wait = all.map(i => nextOf(i) < 0 ? 0 : 1);
  for (const { from } of messages) wait[from]++;
  const back = all.filter(i => !wait[i]);
  for (const i of back) // which grows meanwhile
    for (const j of rank[i] ? [...into[i], previousOf(i)] : into[i]) if (!--wait[j]) back.push(j);
  return [...all.filter(i => wait[i] > 0), ...back.reverse()];
}
let sorted, far, unseen, column, momentColumn, columns, arrows, longest;
let afterFar; // the first column right of the gap
// A member stands on the line, unless it came before another, or stands beyond the gap and nothing shown leads to it.
// Where it doesn't, its state lasts up to the line.
const onLine = m => !moment.some(other => before(m, other)) &&
  !(events[m].far && hosts[hostOf[m]].rule !== "at" && !into[m].length);
// How many events of each host are members of the moment or came before it.
const knownOf = (m, h) => h === hostOf[m] ? rank[m] + 1 : countUpTo(h, known(m, h));
let leftCount;
const isLeft = i => rank[i] < leftCount[hostOf[i]];
// ---- Rows of silent events: at least three of a host, of which none sends or receives or belongs to the moment, and
// at which its condition holds, or doesn't, alike. `foldOf` has the first event of each one's row.
const LEAST_FOLD = 3;
let foldOf, foldLength;
function findFolds() {
  [foldOf, foldLength] = [new Int32Array(N), new Int32Array(N)];
  const loud = new Uint8Array(N);
  for (const { from, to } of [...messages, ...halves]) for (const i of [from, to]) if (i !== null) loud[i] = 1;
  const isSilent = i => !loud[i] && !isMember.has(i) && !events[i].far;
  const alike = (i, j) => isSilent(i) && isSilent(j) && isLeft(i) === isLeft(j) &&
    !events[i].holds === !events[j].holds;
  for (const them of eventsOf) for (let k = 0, end = 0; k < them.length; k = end) {
    for (end = k + 1; end < them.length && alike(them[k], them[end]);) end++;
    const count = end - k >= LEAST_FOLD ? end - k : 1;
    for (let at = k; at < end; at++) {
      foldOf[them[at]] = count > 1 ? them[k] : them[at];
      foldLength[them[at]] = count;
    }
  }
}
function place(isFolded) {
  const standing = new Set(moment.filter(onLine));
  const step = i => isFolded && foldOf[i] === foldOf[previousOf(i)] ? 0 : 1;
  const put = (i, least) => column[i] = Math.max(least, rank[i] ? column[previousOf(i)] + step(i) : 0,
    ...into[i].map(from => column[from] + 1));
  let right = afterFar;
  for (const i of sorted) if (isLeft(i) && !standing.has(i))
    right = Math.max(right, put(i, events[i].far ? 0 : afterFar) + 1);
  momentColumn = moment.length ? right : -1;
  for (const m of standing) column[m] = momentColumn;
  for (const i of sorted) if (!isLeft(i)) put(i, moment.length ? momentColumn + 1 : events[i].far ? 0 : afterFar);
  columns = column.reduce((most, c) => Math.max(most, c), Math.max(momentColumn, 0)) + 1;
  arrows = messages.map(it => ({ ...it, left: Math.min(column[it.from], column[it.to]),
    right: Math.max(column[it.from], column[it.to]) })).sort((a, b) => a.left - b.left);
  longest = arrows.reduce((most, it) => Math.max(most, it.right - it.left), 0);
}
function findColumns() {
  sorted = topologicalOrder();
  far = events.filter(event => event.far).length;
  [unseen, afterFar] = [Math.max(0, leftOut.before - far), far ? far + 2 : 0];
  leftCount = hosts.map((_, h) => Math.max(0, ...moment.map(m => knownOf(m, h))));
  column = new Float64Array(N);
  findFolds();
  place(false);
}
// The column that the page opens at: that of the moment's line; or, in the runs, where the last one begins; or, where
// there is no moment, where the run begins that came too late for the other one.
const focus = () => moment.length ? momentColumn : Math.max(0, ...(miss ? [miss.to] : members).map(m => column[m]));
