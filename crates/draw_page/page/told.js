// The answer on the page, and the events as a list of words.
function showAnswer() {
  document.title = [data.title, data.question, titleWords()].filter(it => it).join(": ");
  fill("heading", headingWords());
  fill("conditions", conditionWords().flatMap((it, k) => k ? ["  \u00b7  ", ...it] : it));
  const cards = cardsOfAnswer();
  $("cards").replaceChildren();
  cards.forEach(showCard);
  $("cards").classList.toggle("many", cards.length > 4);
  $("words").textContent = data.words.replace(/\n$/, "");
  $("words").classList.toggle("long", data.words.split("\n").length > 6);
  $("said").open = !cards.length;
}
function showCard({ kind, member, title, lines, isList }) {
  const card = make("section", { class: `card ${kind}`, role: "listitem" }, $("cards"));
  const head = write(make("h2", {}, card), title);
  if (member !== undefined) {
    const link = make("a", { href: `#lines=${events[member].line}`, class: "to" }, head, "show");
    link.addEventListener("click", event => {
      event.preventDefault();
      stepTo(member);
    });
  }
  const pieces = isList ? lines : [lines.flatMap((it, k) => k ? [" ", ...it] : it)];
  for (const piece of pieces) write(make("p", {}, card), piece);
}
// ---- The list: each event with those that it follows at once, for who doesn't see the drawing
// Many take a while, so they are listed piece by piece, and what is listed stays.
const LISTING_TIME = 15; // milliseconds that a piece takes
let listedCount = 0, listTimer = 0;
function followsWords(i) {
  const before = [...(rank[i] ? [previousOf(i)] : []), ...into[i]];
  return before.length ? w`, after ${listing(before.map(where), 9)}` : [];
}
function listEvent(i) {
  const is = isMember.has(i) ? isDefinite ? " (begins a run)" : " (in the moment)" : "";
  write(make("li", {}, $("event-list")), w`${where(i)}${is}: ${{ own: events[i].text }}${followsWords(i)}`);
}
function listEvents() {
  const until = performance.now() + LISTING_TIME;
  while (listedCount < N && performance.now() < until) listEvent(listedCount++);
  clearTimeout(listTimer);
  if (listedCount < N && $("list").open) listTimer = setTimeout(listEvents, 0);
}
$("list").addEventListener("toggle", listEvents);
function listAnew() {
  listedCount = 0;
  $("event-list").replaceChildren();
  if ($("list").open) listEvents();
}
