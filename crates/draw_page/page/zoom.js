// Zoom and place: how the page opens, and what moves it.
function zoomTo(step, x = middle()) {
  const c = columnAt(x);
  state.step = Math.max(Math.min(leastStep(), 4), Math.min(190, step));
  stretch();
  view.scrollLeft = origin() + c * state.step - x;
  redraw();
}
// The page opens on the neighbourhood of the moment: as wide as words beside the events want it, and narrower where the
// conditions last so long that their bars would run out of the view.
function openingStep() {
  const near = miss ? [miss.of, miss.from, miss.to] : members.filter(m => !events[m].far)
    .flatMap(m => [firstOf(m), m, overAt(m)]).filter(i => i >= 0);
  const ends = near.map(i => column[i]), span = near.length ? Math.max(...ends) - Math.min(...ends) + 4 : 1;
  const room = width - origin() - 20, words = width < 600 ? 48 : 72;
  return Math.max(20, Math.min(words, room / span));
}
// Folds the rows of silent events, or unfolds them.
function fold(isFolded) {
  const wasOpen = !isMoved();
  state.fold = isFolded;
  $("fold").setAttribute("aria-pressed", String(isFolded));
  place(isFolded);
  if (wasOpen) openAtMoment();
  else {
    stretch();
    centre(current >= 0 ? column[current] : focus());
    redraw();
  }
}
let opening = { step: 0, left: 0, top: 0 };
function openAtMoment() {
  measure();
  state.step = Math.max(openingStep(), Math.min(leastStep(), 190));
  stretch();
  centre(focus());
  view.scrollTop = 0;
  members.filter(m => isShown(m) && column[m] === focus()).slice(0, 1).forEach(m => reveal(m));
  opening = { step: state.step, left: view.scrollLeft, top: view.scrollTop };
  redraw();
}
function measureAndDraw() {
  const c = columnAt(middle());
  measure();
  centre(c);
  redraw();
}
const isMoved = () => Math.abs(view.scrollLeft - opening.left) > 2 || state.step !== opening.step;
new ResizeObserver(() => {
  if (paper.matches || view.clientWidth === width && view.clientHeight === tall) return;
  if (isMoved() || state.pair >= 0) measureAndDraw(); else openAtMoment();
}).observe(view);
