// What came before what: the order of the events from their clocks, the messages, and the chains of messages. An
// event's rank is its place among its host's events.
let eventsOf, hostOf, rank, clocks;
function findOrder() {
  eventsOf = hosts.map(() => []);
  [hostOf, rank, clocks] = [new Int32Array(N), new Int32Array(N), new Uint32Array(N * H)];
  events.forEach((event, i) => {
    hostOf[i] = event.host;
    rank[i] = eventsOf[event.host].push(i) - 1;
    for (const [h, value] of event.clock) clocks[i * H + h] = value;
  });
  eventsOf.forEach(([i, next], h) => {
    if (i >= 0 && !hasClock(i)) clocks[i * H + h] = next >= 0 ? own(next) - 1 : 2 ** 32 - 1;
  });
}
const known = (i, h) => clocks[i * H + h]; // the number up to which event i knows host h
const own = i => known(i, hostOf[i]);
// A far event, its host's first one, may have no clock: its number is then taken to be the greatest that it can be.
const hasClock = i => events[i].clock.length > 0;
const before = (a, b) => hostOf[a] === hostOf[b] ? rank[a] < rank[b] : known(b, hostOf[a]) >= own(a);
const previousOf = i => eventsOf[hostOf[i]][rank[i] - 1] ?? -1;
const nextOf = i => eventsOf[hostOf[i]][rank[i] + 1] ?? -1;
// The place of a list's first item for which `test` holds, as it does for all behind it; or the list's length.
function firstPlace(list, test) {
  let low = 0, high = list.length;
  while (low < high) {
    const middle = (low + high) >> 1;
    if (test(list[middle])) high = middle; else low = middle + 1;
  }
  return low;
}
// Whether events may be left out between a far event, if this is one, and the host's next one here. By their numbers
// none is between two that follow each other; the number of one without a clock is only known where it is 1.
function isGapBehind(i) {
  const next = nextOf(i), isSure = hasClock(i) || next >= 0 && own(next) === 2;
  return Boolean(events[i].far) && !(next >= 0 && isSure && own(next) === own(i) + 1);
}
// How many events of host h have a number up to `value`, and the last one of them that event i knows, or -1.
const countUpTo = (h, value) => value ? firstPlace(eventsOf[h], j => own(j) > value) : 0;
const lastKnown = (i, h) => eventsOf[h][countUpTo(h, known(i, h)) - 1] ?? -1;
// ---- Messages: those of the data; else an event's news, the events it is the first of its host to know of, without
// those that another of its news knows
// Whether events of the host right before this one may be left out of the page.
const afterGap = i => leftOut.before > 0 && own(i) > 1 && (previousOf(i) < 0 || isGapBehind(previousOf(i)));
// Whether event i may know more of a host than its far event.
const isBehindFar = (i, from) => Boolean(events[from].far) && (!hasClock(from) || own(from) < known(i, hostOf[from]));
const derivedMessages = () => [...events.keys()].flatMap(i => {
  const isKnown = from => rank[i] > 0 && before(from, previousOf(i));
  const news = events[i].clock.map(([h]) => h === hostOf[i] ? -1 : lastKnown(i, h)).filter(j => j >= 0 && !isKnown(j));
  return news.filter(from => !news.some(other => other !== from && before(from, other))).map(from => (
    { from, to: i, unseen: afterGap(i) || isBehindFar(i, from) }));
});
const isWhole = message => message.from !== null && message.to !== null;
let messages, halves, into;
function findMessages() {
  messages = (data.messages || derivedMessages()).filter(isWhole);
  halves = (data.messages || []).filter(it => !isWhole(it));
  into = events.map(() => []);
  for (const { from, to } of messages) into[to].push(from);
}
// The events on a way from a to b of fewest messages, each the next of its host or what a message from the one before
// it reached; null where there is none. It goes back from b, by one message more in each round.
function chainOf(a, b) {
  const next = new Int32Array(N).fill(-1), seen = new Uint8Array(N), starts = [b]; // starts grows meanwhile
  for (const start of starts) for (let i = start, last = -1; i >= 0 && !seen[i]; last = i, i = previousOf(i)) {
    seen[i] = 1;
    if (last >= 0) next[i] = last;
    if (i === a) {
      const chain = [a];
      while (chain.at(-1) !== b) chain.push(next[chain.at(-1)]);
      return chain;
    }
    for (const from of into[i]) if (!seen[from] && (from === a || before(a, from))) {
      if (next[from] < 0) next[from] = i;
      starts.push(from);
    }
  }
  return null;
}
