// What comes before an event, before the moment, or between the runs, and what comes after.
// The past of an event is a prefix of each host's events, given by its length; its future a suffix, by its start.
function coneOf(i) {
  const past = hosts.map((_, h) => h === hostOf[i] ? rank[i] : countUpTo(h, known(i, h)));
  return { of: [i], past, future: eventsOf.map(them => firstPlace(them, j => before(i, j))) };
}
// The same of the moment: what came before any of its events, and else after any.
function coneOfMoment() {
  const cones = moment.map(coneOf), each = (part, pick) => hosts.map((_, h) => pick(...cones.map(it => it[part][h])));
  return cones.length ? { of: moment, past: each("past", Math.max), future: each("future", Math.min) } : null;
}
// Of the runs it is what the end of one has between it and the beginning of another, which it knows: the events on the
// ways from the one to the other. Each way has a piece of each host, given by two ranks.
const isOn = ([a, b], i) => (i === a || before(a, i)) && (i === b || before(i, b));
function coneOfRuns() {
  const over = runs.filter(it => it.over >= 0);
  const roads = runs.flatMap(it => over.filter(other => other !== it).map(other => [it.first, other.over]));
  const pieceOf = ([a, b], them) => [firstPlace(them, j => j === a || before(a, j)),
    firstPlace(them, j => j !== b && !before(j, b))];
  const pieces = eventsOf.map(them => roads.map(it => pieceOf(it, them)).filter(([from, to]) => from < to));
  return { of: [], roads, pieces, future: eventsOf.map(them => them.length) };
}
const isPast = (cone, j) => cone.roads ? cone.roads.some(it => isOn(it, j)) : rank[j] < cone.past[hostOf[j]];
const partOf = (cone, j) => isPast(cone, j) ? "past" : rank[j] >= cone.future[hostOf[j]] ? "future" : "";
// The pieces of a host's line that came before, from a rank to before another.
const pastPieces = (cone, h) => cone.pieces?.[h] ?? (cone.past[h] ? [[0, cone.past[h]]] : []);
// What is lit while nothing is chosen.
let momentCone;
const findMomentCone = () => { momentCone = runs.length ? coneOfRuns() : coneOfMoment(); };
