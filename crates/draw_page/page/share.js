// What leaves the page: the answer as a text, a link, the drawing, and the page itself with the reader's notes.
const told = text => { $("told").textContent = text; };
async function copy(text, what) {
  try { await navigator.clipboard.writeText(text); }
  catch { if (!copyBySelection(text)) return told(`The browser doesn\u2019t let the page copy ${what}.`); }
  told(`Copied ${what}.`);
}
// Where a page may not write to the clipboard, as one of a mail: by a field that is selected.
function copyBySelection(text) {
  const field = document.createElement("textarea");
  field.value = text;
  document.body.append(field);
  field.select();
  const isDone = document.execCommand("copy");
  field.remove();
  return isDone;
}
function save(text, name, type) {
  const link = document.createElement("a"), address = URL.createObjectURL(new Blob([text], { type }));
  Object.assign(link, { href: address, download: name });
  link.click();
  setTimeout(() => URL.revokeObjectURL(address), 10000);
  told(`Saved ${name}.`);
}
const fileName = (ending, of = "") =>
  `${`${data.title || data.program} ${of}`.trim().replace(/[^\w.-]+/g, "_").replace(/^\.+/, "")}.${ending}`;
// The text of the answer, and the notes behind it.
function sharedText() {
  const noted = [...notes].map(([i, text]) => `${plain(where(i))}: ${text}`);
  return answerText() + (noted.length ? ["Notes", ...noted.map(it => `  ${it}`), ""].join("\n") : "");
}
// The drawing as a file of its own: what is in view, with the colours of the page.
function drawingText() {
  const copied = drawing.cloneNode(true), style = document.querySelector("style").textContent;
  for (const path of copied.querySelectorAll("path:not([d]), path[d='']")) path.remove();
  copied.removeAttribute("style");
  make("rect", { width: "100%", height: "100%", fill: "var(--ground)" }, copied);
  copied.prepend(copied.lastChild);
  make("style", {}, copied, style.slice(style.indexOf(":root"), style.indexOf("* {")) +
    style.slice(style.indexOf("/* The drawing. */")));
  copied.prepend(copied.lastChild);
  make("title", {}, copied, plain(headingWords()));
  copied.prepend(copied.lastChild);
  return new XMLSerializer().serializeToString(copied);
}
// ---- Notes, each beside an event
// All of them by host and line, whether or not the question shows their events; and those of the events shown.
const allNotes = new Map(), notes = new Map();
let noteCount = 0; // how often they have changed
const noteKey = i => JSON.stringify([hosts[hostOf[i]].name, events[i].line]);
function readNotes() {
  let kept = [];
  try { kept = JSON.parse($("notes").textContent || "[]"); } catch { /* what stands there is no note of this page */ }
  for (const [name, number, text] of kept) allNotes.set(JSON.stringify([name, number]), String(text));
}
function placeNotes() {
  notes.clear();
  events.forEach((_, i) => {
    const text = allNotes.get(noteKey(i));
    if (text) notes.set(i, text);
  });
}
function note(i, text) {
  const said = text.trim(), put = (map, key) => said ? map.set(key, said) : map.delete(key);
  put(notes, i);
  put(allNotes, noteKey(i));
  noteCount++;
  $("notes").textContent = JSON.stringify([...allNotes].map(([key, told]) => [...JSON.parse(key), told]));
  redraw();
}
// The page as it came, but for the notes and for the question on which it opens.
function pageText() {
  const copied = untouched.cloneNode(true);
  copied.querySelector("#notes").textContent = $("notes").textContent;
  if (links.length) copied.dataset.question = question + 1;
  return `<!DOCTYPE html>\n${copied.outerHTML}`;
}
const SHARES = {
  "copy-text": () => copy(sharedText(), "the answer"),
  "copy-link": () => { remember(); copy(location.href, "the link"); },
  "save-svg": () => save(drawingText(), fileName("svg", data.question), "image/svg+xml"),
  "save-page": () => save(pageText(), fileName("html"), "text/html"),
  print: () => window.print(),
};
for (const id in SHARES) $(id).addEventListener("click", () => SHARES[id]());
