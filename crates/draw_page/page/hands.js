// ---- Hands: pointer, keys, buttons
const placeOf = ({ clientX, clientY }, box = view.getBoundingClientRect()) =>
  [clientX - box.left - view.clientLeft, clientY - box.top - view.clientTop + view.scrollTop];
let grip = null;
view.addEventListener("pointermove", event => {
  if (event.pointerType === "touch") return;
  if (grip) {
    const [dx, dy] = [event.clientX - grip.x, event.clientY - grip.y];
    grip.moved ||= Math.abs(dx) + Math.abs(dy) > 4;
    if (grip.moved) [view.scrollLeft, view.scrollTop] = [grip.left - dx, grip.top - dy];
  } else {
    const i = under(event);
    if (i >= 0 && i !== current) choose(i);
  }
});
view.addEventListener("pointerleave", () => { if (state.kept.length) keep(state.kept); });
sheet.addEventListener("pointerdown", event => { // not on a scroll bar
  if (!event.button) grip = { x: event.clientX, y: event.clientY, left: view.scrollLeft, top: view.scrollTop };
});
for (const kind of ["pointerup", "pointercancel"]) addEventListener(kind, event => {
  if (kind === "pointerup" && grip && !grip.moved && view.contains(event.target)) click(under(event));
  grip = null;
});
view.addEventListener("wheel", event => {
  if (!event.ctrlKey && !event.metaKey) return;
  event.preventDefault();
  zoomTo(state.step * Math.exp(-event.deltaY / 300), placeOf(event)[0]);
}, { passive: false });
view.addEventListener("scroll", redraw, { passive: true });
const ACTS = {
  "to-moment": openAtMoment, why: () => { if (pairs.length) walkTo(state.pair < 0 ? 0 : -1); },
  "walk-on": () => walkTo((state.pair + 1) % pairs.length), "walk-end": endWalk,
  "walk-back": () => walkTo((state.pair + pairs.length - 1) % pairs.length),
  "zoom-in": () => zoomTo(state.step * 1.4), "zoom-out": () => zoomTo(state.step / 1.4),
  "zoom-all": () => zoomTo(leastStep()), fold: () => fold(!state.fold),
  next: () => toMatch(1), previous: () => toMatch(-1), play: playOrPause,
};
for (const id in ACTS) $(id).addEventListener("click", () => ACTS[id]());
for (const id in FIELDS) $(id).addEventListener("input", () => { state[id] = $(id)[FIELDS[id]]; search(); });
// Without a current event each of these goes to the moment.
const KEYS_OF_VIEW = {
  ArrowRight: () => stepTo(nextOf(current)), ArrowLeft: () => stepTo(previousOf(current)),
  ArrowUp: () => stepAcross(-1), ArrowDown: () => stepAcross(1),
  Home: () => stepTo(eventsOf[hostOf[current]][0]), End: () => stepTo(eventsOf[hostOf[current]].at(-1)),
  Enter: () => click(current), " ": () => click(current),
};
const begin = () => stepTo([...members, ...events.keys()].find(isShown) ?? -1);
const KEYS = {
  "/": () => $("find").focus(), "+": ACTS["zoom-in"], "=": ACTS["zoom-in"], "-": ACTS["zoom-out"], 0: ACTS["zoom-all"],
  "<": () => moveCurrent(-1), ">": () => moveCurrent(1), m: openAtMoment, w: ACTS.why, f: ACTS.fold,
  p: playOrPause, ".": () => playStep(1), ",": () => playStep(-1),
  n: ACTS.next, N: ACTS.previous, Escape: () => { endWalk(); keep([]); },
  q: () => stepQuestion(1), Q: () => stepQuestion(-1),
};
const KEYS_OF_FIND = { Enter: event => toMatch(event.shiftKey ? -1 : 1), Escape: () => view.focus() };
addEventListener("keydown", event => {
  if (event.target === $("note")) return;
  const inFind = event.target === $("find"), step = view.contains(event.target) && KEYS_OF_VIEW[event.key];
  const act = inFind ? KEYS_OF_FIND[event.key] : step && current < 0 ? begin : step || KEYS[event.key];
  if (!act || event.ctrlKey || event.altKey || event.metaKey) return;
  if (!inFind) event.preventDefault();
  act(event);
});
$("note").addEventListener("input", () => { if (state.kept.length === 1) note(state.kept[0], $("note").value); });
// The address itself may be the page's own again: `remember` may have written it since.
addEventListener("hashchange", event => readAddress(new URL(event.newURL).hash));
