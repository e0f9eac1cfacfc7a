// What is played: the events that led to some, and these themselves, in an order that fits. None stands before one that
// came before it. Of those that may come next it takes the one of the first line, but one of `those` only where all
// others wait for such.
function scheduleOf(those) {
  const counts = hosts.map((_, h) => Math.max(0, ...those.map(m => knownOf(m, h)))), isLate = new Set(those);
  const done = hosts.map(() => 0), waitsFor = hosts.map(() => 0), order = [];
  const next = h => eventsOf[h][done[h]];
  // Whether all that came before the next event of host h is done. A host that it doesn't wait for isn't asked again.
  function isReady(h) {
    const waits = g => g !== h && done[g] < knownOf(next(h), g);
    while (waitsFor[h] < H && !waits(waitsFor[h])) waitsFor[h]++;
    return waitsFor[h] === H;
  }
  const isFirst = (a, b) => isLate.has(a) === isLate.has(b) ? events[a].line < events[b].line : isLate.has(b);
  for (let left = [...hosts.keys()]; (left = left.filter(h => done[h] < counts[h])).length;) {
    const ready = left.filter(isReady), heads = ready.length ? ready : left; // clocks may contradict each other
    const h = heads.reduce((best, it) => isFirst(next(it), next(best)) ? it : best);
    order.push(next(h));
    done[h]++;
    waitsFor[h] = 0;
  }
  return order;
}
// What is said where events that led to these may be left out of the page.
function playedFromWords(those, order) {
  const lacks = m => hosts.some((_, h) => known(m, h) > 0 && !knownOf(m, h));
  if (!leftOut.before || !order.some(afterGap) && !those.some(lacks)) return [];
  const first = order.find(i => !events[i].far);
  return first === undefined ? ["earlier events are left out"] : w`from ${line(first)} on; earlier events are left out`;
}
