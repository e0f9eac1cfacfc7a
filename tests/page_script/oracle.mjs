// What clocks say of a log, worked out from the events alone.
export const isBefore = (a, b) => a.host === b.host ? a.clock[a.host] < b.clock[a.host]
  : (b.clock[a.host] ?? 0) >= a.clock[a.host];
export const ofHost = (log, host) => log.filter(it => it.host === host);

// The events between which the condition of an event's host holds around it: the first one, and the one that ends it.
export function runAround(log, event, rule) {
  const own = ofHost(log, event.host), at = own.indexOf(event);
  if (rule === "at") return [event, event];
  let first = at, end = at;
  while (first > 0 && own[first - 1].holds) first--;
  while (end < own.length && own[end].holds) end++;
  return [own[first], own[end] ?? null];
}

// All runs of a host, or all events at which its condition holds.
export function runsOf(log, host, rule) {
  const own = ofHost(log, host).filter(it => it.holds);
  const runs = own.map(it => runAround(log, it, rule));
  return runs.filter(([first], k) => k === 0 || runs[k - 1][0] !== first);
}

// The earliest choice of a state of each host such that none is over where another begins, as places in the log.
export function momentOf(log, rules) {
  const left = Object.entries(rules).map(([host, rule]) => {
    const own = ofHost(log, host);
    return own.map((it, k) => ({ it, end: rule === "at" ? it : own[k + 1] ?? null })).filter(({ it }) => it.holds);
  });
  for (;;) {
    if (left.some(states => !states.length)) return null;
    const firsts = left.map(states => states[0]);
    const over = firsts.findIndex(one => firsts.some(other => one !== other && one.end && (one.end === other.it ||
      isBefore(one.end, other.it))));
    if (over < 0) return firsts.map(({ it }) => log.indexOf(it));
    left[over].shift();
  }
}
