// How long conditions hold: the runs of events from which they do, and, where there is no moment, the two runs that
// came nearest to one.
// The events between which the condition of member m's host holds: the first one of its run, and the one at which it
// has ceased, or -1 where there is none, or none that is known.
function runOf(m) {
  let first = m, end = isGapBehind(m) ? -1 : nextOf(m);
  while (rank[first] && events[previousOf(first)].holds && !isGapBehind(previousOf(first))) first = previousOf(first);
  while (end >= 0 && events[end].holds) end = nextOf(end);
  return [first, end];
}
// The runs: of each its first event, the one at which it is over, or -1 where none is shown, and its line, where the
// answer says it. Where it doesn't, the run may be over behind the event at which the answer became known.
let runs;
function findRuns() {
  runs = moment.length ? [] : members.map((first, k) => {
    const line = (data.over || [])[k] ?? null, over = eventsOf[hostOf[first]].find(i => events[i].line === line);
    return { first, over: over ?? runOf(first)[1], line };
  });
}
// ---- What a member's condition lasts from and until
const isAt = h => hosts[h].rule === "at";
// The event at which what holds at m is over, or -1. A condition that is asked for at an event is over with it.
const overAt = m => isAt(hostOf[m]) ? m : runs.find(it => it.first === m)?.over ?? runOf(m)[1];
const firstOf = m => isAt(hostOf[m]) ? m : runOf(m)[0];
// Whether the condition may have begun at an event that is left out.
const mayBeginBefore = m => leftOut.before > 0 && !rank[firstOf(m)] && own(firstOf(m)) > 1;
// ---- The nearest miss: the two runs of different hosts, one over where the other begins, between which there are the
// fewest messages, and then the fewest events
const MOST_TRIED = 40; // chains are costly where there are many events
// The runs of a host: of each the first event and the one at which it is over, or -1.
function runsOf(h) {
  const found = [];
  for (const i of eventsOf[h]) if (events[i].holds && (isAt(h) || !rank[i] || !events[previousOf(i)].holds))
    found.push({ first: i, over: isAt(h) ? i : runOf(i)[1] });
  return found;
}
// Of each run of one host the first of another's that begins behind its end, where no other end lies between them.
function closest(ends, begins) {
  const found = ends.filter(it => it.over >= 0).map(({ first, over }) => {
    const k = firstPlace(begins, it => before(over, it.first));
    return k < begins.length ? { of: first, from: over, to: begins[k].first } : null;
  });
  return found.filter((it, k) => it && it.to !== found[k + 1]?.to);
}
function nearestMiss() {
  const each = asked.map(runsOf), between = it => it.to - it.from;
  const pairs = each.flatMap(ends => each.flatMap(begins => ends === begins ? [] : closest(ends, begins)));
  const near = pairs.sort((a, b) => between(a) - between(b)).slice(0, MOST_TRIED);
  const tried = near.map(it => ({ ...it, chain: chainOf(it.from, it.to) })).filter(it => it.chain);
  const hops = ({ chain }) => chain.filter((i, k) => k && hostOf[i] !== hostOf[chain[k - 1]]).length;
  return tried.sort((a, b) => hops(a) - hops(b))[0] ?? null;
}
let miss;
const findMiss = () => { miss = data.answer === "none" ? nearestMiss() : null; };
