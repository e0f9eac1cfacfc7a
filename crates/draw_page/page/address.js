// ---- The address: what differs from how the page opens
const FIELDS = { find: "value", regex: "checked", case: "checked" };
// Events are named by their lines, which stay the same where more or less of the log is shown. Where two events share a
// line they are named by their places. A link by places is read too.
let placeOfLine, isNumbered;
function findLines() {
  placeOfLine = new Map(events.map((it, i) => [it.line, i]));
  isNumbered = placeOfLine.size === N;
}
const keptWords = () => state.kept.map(i => isNumbered ? events[i].line : i).join(".");
// What stands in the middle of the view: a column, told by how far it is from that of the event nearest to it.
function middleWords() {
  const c = columnAt(middle());
  if (!isNumbered || !N) return c.toFixed(3);
  const near = column.reduce((best, at, i) => Math.abs(at - c) < Math.abs(column[best] - c) ? i : best, 0);
  return `${events[near].line}_${(c - column[near]).toFixed(3)}`;
}
function columnOf(word) {
  const [, line, off] = /^(\d+)_(-?[\d.]+)$/.exec(word) ?? [], i = placeOfLine.get(Number(line));
  return i === undefined ? Number(word) : column[i] + Number(off);
}
const addressOf = parts => String(new URLSearchParams(Object.entries(parts).filter(([, value]) => value)));
const searchWords = () => ({ find: state.find, regex: Number(state.regex), case: Number(state.case) });
function address() {
  return addressOf({
    question: question !== openingQuestion && question + 1,
    pair: state.pair + 1, [isNumbered ? "lines" : "events"]: state.pair < 0 && keptWords(),
    ...searchWords(),
    hide: [...state.hidden].sort((a, b) => a - b).join("."), fold: Number(state.fold),
    rows: isMovedRow() && state.order.join("."),
    zoom: state.step !== opening.step && Number(state.step.toPrecision(6)),
    at: isMoved() && middleWords(),
    down: Math.abs(view.scrollTop - opening.top) > 2 && view.scrollTop.toFixed(),
  });
}
function remember() {
  try { history.replaceState(null, "", `#${address()}`); } catch { /* where the page has no address of its own */ }
}
function readAddress(hash = location.hash) {
  endPlay();
  const words = Object.fromEntries(new URLSearchParams(hash.slice(1)));
  const asks = replies[words.question - 1] ? words.question - 1 : openingQuestion;
  if (asks !== question) build(asks);
  const numbers = key => [...new Set((words[key] || "").split(".").filter(it => /^\d+$/.test(it)).map(Number))];
  const places = (key, below) => numbers(key).filter(it => it < below), order = places("rows", H);
  const kept = [...numbers("lines").map(it => placeOfLine.get(it)).filter(i => i >= 0), ...places("events", N)];
  const pair = pairs[words.pair - 1] ? words.pair - 1 : -1;
  Object.assign(state, { hidden: new Set(places("hide", H)), find: words.find || "", regex: words.regex === "1",
    case: words.case === "1", pair, order: order.length === H ? order : listed });
  for (const id in FIELDS) $(id)[FIELDS[id]] = state[id];
  boxes.forEach((box, h) => { box.checked = !state.hidden.has(h); });
  if (state.fold !== (words.fold === "1")) fold(words.fold === "1");
  openAtMoment(); // scroll bars may appear, and the words above the view take room from it
  keep(pairs[pair] ?? kept.slice(0, 2));
  openAtMoment();
  if (words.zoom > 0) zoomTo(Number(words.zoom));
  if (words.at && Number.isFinite(columnOf(words.at))) centre(columnOf(words.at));
  if (words.down >= 0) view.scrollTop = words.down;
  search();
  draw();
}
