// The questions: each in the form of a page that has this question alone, and in a few words.
const { events: allEvents, hosts: allHosts, others = [], ...page } =
  JSON.parse(document.getElementById("data").textContent);
const replies = [{ ...page, watches: allHosts.map(({ name, ...watch }) => watch),
  holds: [...allEvents.keys()].filter(i => allEvents[i].holds) }, ...others];
let question = -1; // the place of the one that is chosen
// The places of a question's events: of those from further back that are in a moment it has those of its own alone.
function placesOf(reply) {
  const own = new Set(reply.moment), all = new Set(replies.flatMap(it => it.moment ?? []));
  return [...allEvents.keys()].filter(i => !allEvents[i].far || own.has(i) || !all.has(i));
}
// Messages are those of a workload, which is asked one question.
function dataOf({ watches, holds, ...reply }) {
  const places = placesOf(reply), placeIn = new Map(places.map((i, k) => [i, k])), holding = new Set(holds);
  const eventOf = ({ holds: _, ...event }, isHeld) => isHeld ? { ...event, holds: true } : event;
  return { ...page, ...reply, moment: reply.moment && reply.moment.map(i => placeIn.get(i)),
    hosts: allHosts.map(({ name }, h) => ({ name, ...watches[h] })),
    events: places.map(i => eventOf(allEvents[i], holding.has(i))) };
}
// Chooses question k, and finds all that doesn't depend on how the page is seen.
function ask(k) {
  question = k;
  take(dataOf(replies[k]));
  findOrder();
  findMessages();
  findRuns();
  findMiss();
  findMomentCone();
  findColumns();
}
// The answer to a question, and where its moment is, in a few words.
const ANSWERS = { found: "found", none: "none", undecided: "undecided", definite: "definitely", possible: "possibly" };
const MOST_PLACES = 3;
function briefWords({ answer, moment }) {
  const places = (moment ?? []).map(i => allEvents[i]);
  const told = places.slice(0, MOST_PLACES).map(it => w`${{ own: allHosts[it.host].name }} ${page.unit} ${it.line}`);
  const rest = places.length > told.length ? [" \u2026"] : [];
  return [[ANSWERS[answer]], ...(told.length ? [[...told.flatMap((it, k) => k ? [", ", ...it] : it), ...rest]] : [])];
}
