// The hosts: which are shown, and in which order their rows stand.
const boxes = allHosts.map(host => {
  const label = make("label", {}, $("host-list")), box = make("input", { type: "checkbox" }, label);
  make("bdi", {}, label, host.name);
  return box;
});
function show(isWanted) {
  boxes.forEach((box, h) => { box.checked = isWanted(h); });
  readBoxes();
}
function readBoxes() {
  state.hidden = new Set([...hosts.keys()].filter(h => !boxes[h].checked));
  measureAndDraw();
}
$("host-list").addEventListener("change", readBoxes);
$("hosts-asked").addEventListener("click", () => show(h => Boolean(hosts[h].rule)));
$("hosts-all").addEventListener("click", () => show(() => true));
$("hosts-none").addEventListener("click", () => show(() => false));
// Moves a host's row to where another one's stands.
function moveRow(h, row) {
  const to = rows[Math.max(0, Math.min(rows.length - 1, row))];
  if (to === undefined || to === h) return;
  const rest = state.order.filter(it => it !== h), isDown = rowOf[to] > rowOf[h];
  rest.splice(rest.indexOf(to) + (isDown ? 1 : 0), 0, h);
  state.order = rest;
  measureAndDraw();
}
const isMovedRow = () => state.order.some((h, k) => h !== listed[k]);
let draggedRow = -1;
names.addEventListener("pointerdown", event => {
  const name = event.target.closest("[data-host]");
  if (!name || event.button) return;
  event.stopPropagation();
  names.setPointerCapture(event.pointerId); // the names are written anew meanwhile
  draggedRow = Number(name.dataset.host);
});
addEventListener("pointermove", event => {
  if (draggedRow >= 0) moveRow(draggedRow, Math.floor((placeOf(event)[1] - TOP) / rowHeight));
});
for (const kind of ["pointerup", "pointercancel"]) addEventListener(kind, () => { draggedRow = -1; });
// The row of the current event, one up or down.
const moveCurrent = way => { if (isShown(current)) moveRow(hostOf[current], rowOf[hostOf[current]] + way); };
