// The overview of the whole log above the view, with a window that shows what of it is in view; and the chips that lead
// to members out of sight.
const STRIP_HIGH = 22;
const strip = $("strip"), stripPaths = Object.fromEntries(["events", "both", "moment", "window"]
  .map(kind => [kind, make("path", { class: `strip-${kind}` }, strip)]));
let stripWide = 0;
const stripX = c => round(2 + (c + 0.5) / columns * (stripWide - 4));
function drawStrip() {
  if (isNew("strip", [width, columns, momentColumn].join(" "))) drawWhole();
  const [left, right] = [stripX(Math.max(-0.5, columnAt(gutter))), stripX(Math.min(columns - 0.5, columnAt(width)))];
  stripPaths.window.setAttribute("d", `M${left} 1H${Math.max(left + 3, right)}V${STRIP_HIGH - 1}H${left}z`);
  const most = Math.max(1, sheetWidth() - width);
  strip.setAttribute("aria-valuenow", Math.round(100 * Math.min(1, scrolled / most)));
}
// How many events each place has, in steps of a pixel, the conditions that overlap, and the moment's line.
function drawWhole() {
  stripWide = width;
  strip.setAttribute("viewBox", `0 0 ${stripWide} ${STRIP_HIGH}`);
  const counts = new Float64Array(stripWide + 1);
  for (const c of column) counts[Math.round(stripX(c))]++;
  const most = counts.reduce((a, b) => Math.max(a, b), 1), base = STRIP_HIGH - 2;
  let path = "";
  const high = n => round(2 + (base - 6) * Math.log1p(n) / Math.log1p(most));
  counts.forEach((n, x) => { if (n) path += `M${x} ${base}v${-high(n)}`; });
  stripPaths.events.setAttribute("d", path);
  stripPaths.both.setAttribute("d", members.map(m => `M${stripX(column[firstOf(m)])} 3H` +
    `${overAt(m) >= 0 ? Math.max(stripX(column[overAt(m)]), stripX(column[m]) + 2) : stripX(columns - 0.5)}`).join(""));
  stripPaths.moment.setAttribute("d", moment.length ? `M${stripX(momentColumn)} 0V${STRIP_HIGH}` : "");
}
function moveByStrip(event) {
  const box = strip.getBoundingClientRect();
  centre((event.clientX - box.left - 2) / (box.width - 4) * columns - 0.5);
}
strip.addEventListener("pointerdown", event => {
  if (event.button) return;
  strip.setPointerCapture(event.pointerId);
  moveByStrip(event);
});
strip.addEventListener("pointermove", event => { if (strip.hasPointerCapture(event.pointerId)) moveByStrip(event); });
strip.addEventListener("keydown", event => {
  const way = { ArrowLeft: -1, ArrowRight: 1 }[event.key];
  if (!way || event.ctrlKey || event.altKey || event.metaKey) return;
  event.preventDefault();
  view.scrollLeft += way * (width - gutter) / 2;
});
// ---- Chips
// Where a member stands that is out of sight: an arrow, or nothing where it is in sight.
function directionOf(m) {
  const x = X(m), y = Y(m) - view.scrollTop, across = x < gutter ? "\u2190" : x > width ? "\u2192" : "";
  return !isShown(m) ? "" : across || (y < TOP ? "\u2191" : y > tall ? "\u2193" : "");
}
const MOST_CHIPS = 6;
function showChips() {
  const out = members.map(m => [m, directionOf(m)]).filter(([, arrow]) => arrow).slice(0, MOST_CHIPS);
  if (!isNew("chips", out.join(" "))) return;
  $("chips").replaceChildren();
  $("chips").style.left = `${gutter + 8}px`;
  for (const [m, arrow] of out) {
    const chip = document.createElement("button");
    chip.type = "button";
    write(chip, w`${arrow} ${where(m)}`);
    chip.addEventListener("click", () => { stepTo(m); view.focus(); });
    $("chips").append(chip);
  }
}
