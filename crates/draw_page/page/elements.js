// Elements of the page and texts in them.
const $ = id => document.getElementById(id);
const view = $("view"), sheet = $("sheet"), drawing = $("drawing");
// What is shown: one or two events are `kept`, `pair` is that of the walk, `step` the width of a column, `order` that
// of the rows, and `fold` says whether rows of silent events are folded.
const state = { hidden: new Set(), kept: [], find: "", regex: false, case: false, pair: -1, step: 16, fold: false,
  order: [] };
for (const it of document.querySelectorAll("[data-made]")) it.replaceChildren(); // of a page that was saved as it stood
const untouched = document.documentElement.cloneNode(true); // the page as it came
let current = -1, cone = null, lit = [], matches = []; // the event pointed at; what is lit; what is found
function make(name, attributes, parent, text = "") {
  const made = document.createElementNS(parent.namespaceURI, name);
  for (const key in attributes) made.setAttribute(key, attributes[key]);
  made.textContent = text;
  return parent.appendChild(made);
}
const pen = document.createElement("canvas").getContext("2d");
function textWidth(text, size, weight = 400) {
  pen.font = `${weight} ${size}px "DejaVu Sans", "Segoe UI", system-ui, sans-serif`;
  return pen.measureText(text).width;
}
// As much of a text as there is room for, with dots for the rest.
function shortened(text, room, size, weight = 400) {
  const signs = [...text.slice(0, 400).replace(/[\p{Cc}\u2028\u2029]+/gu, " ")], all = signs.length;
  const cut = n => signs.slice(0, n).join("") + (n < all || text.length > 400 ? "\u2026" : "");
  const fits = n => textWidth(cut(n), size, weight) <= room;
  return cut(fits(all) ? all : Math.max(0, firstPlace([...signs.keys()], n => !fits(n)) - 1));
}
// Writes words into an element; what others wrote stands in elements of its own.
function write(parent, words) {
  for (const it of words)
    if (it.own === undefined) parent.append(it); else make("bdi", {}, parent, it.own);
  return parent;
}
const fill = (id, words) => { $(id).replaceChildren(); return write($(id), words); };
