// Sizes and places, in pixels: where columns and rows stand in the view.
const TOP = 34, FOOT = 16, PAD = 26;
let gutter = 80, rowHeight = 40, rows = [], rowOf = [], height = 0, width = 0, tall = 0, scrolled = 0;
const origin = () => gutter + PAD, spare = () => width < 600 ? 40 : 100; // spare: what stands right of the last column
const sheetWidth = () => origin() + (columns - 1) * state.step + spare();
const leastStep = () => Math.max(0.01, (width - origin() - spare()) / Math.max(1, columns - 1));
const rowY = h => TOP + (rowOf[h] + 0.5) * rowHeight;
const middle = () => (gutter + width) / 2;
const columnAt = x => (x + view.scrollLeft - origin()) / state.step;
const xOf = i => origin() + column[i] * state.step - view.scrollLeft;
const centre = c => { view.scrollLeft = origin() + c * state.step - middle(); };
const stretch = () => { sheet.style.width = `${Math.max(sheetWidth(), width)}px`; };
// How many milliseconds pass from one event that is played to the next.
const playEvery = () => Number(document.documentElement.dataset.playEvery) || 600;
const weightOf = host => host.rule ? 700 : 400; // names of hosts that are asked about are bold
function measure() {
  [width, tall] = [view.clientWidth, view.clientHeight];
  rows = state.order.filter(h => !state.hidden.has(h));
  $("host-count").textContent = state.hidden.size ? `Hosts (${state.hidden.size} hidden)` : "Hosts";
  rowOf = hosts.map((_, h) => rows.indexOf(h));
  rowHeight = Math.max(22, Math.min(110, (tall - TOP - FOOT) / Math.max(1, rows.length)));
  height = Math.max(TOP + rows.length * rowHeight + FOOT, tall - 2);
  const widest = hosts.reduce((most, it) => Math.max(most, textWidth(it.name.slice(0, 99), 13, weightOf(it))), 20);
  gutter = Math.ceil(Math.min(widest + 18, Math.max(60, Math.min(200, width * 0.27))));
  stretch();
  sheet.style.height = `${height}px`;
  for (const [name, value] of Object.entries({ width, height, viewBox: `0 0 ${width} ${height}` }))
    drawing.setAttribute(name, value);
}
