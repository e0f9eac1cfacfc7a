"use strict";
// What the page shows of the question that is chosen. An event is named by its place in the data, a host likewise.
let data, events, hosts, leftOut, N, H;
// The members of the moment; or, where the conditions must have held at once, the first events of the runs; each two of
// them.
let members, isDefinite, moment, isMember, pairs;
// The hosts as they are listed: those of the answer, in its order, then those that are asked about, then all others.
let asked, listed;
let lastLine; // of the events
function take(those) {
  data = those;
  ({ events, hosts, left_out: leftOut } = data);
  [N, H] = [events.length, hosts.length];
  members = data.moment || [];
  isDefinite = data.answer === "definite";
  moment = isDefinite ? [] : members;
  isMember = new Set(members);
  pairs = members.flatMap((f, j) => members.slice(0, j).map(e => [e, f]));
  asked = [...hosts.keys()].filter(h => hosts[h].rule);
  listed = [...new Set([...members.map(m => events[m].host), ...asked, ...hosts.keys()])];
  lastLine = events.reduce((most, it) => Math.max(most, it.line), 0);
}
