// The texts of the drawing: what is left out, the events' own texts where there is room, and the hosts' names.
function writeLabels(spans, count) {
  labels.textContent = "";
  writeNotes();
  const isTight = crowded || count > 200 || rowHeight < 38 || state.step < 40;
  const taken = members.filter(m => isShown(m) && X(m) > gutter - 9 && X(m) < width).map(writeMember);
  if (!isTight) for (const [h, from, to] of spans) eventsOf[h].slice(from, to).forEach(i => writeEvent(i, taken));
  if (state.fold && !crowded) for (const [h, from, to] of spans) for (const i of eventsOf[h].slice(from, to))
    if (foldOf[i] === i && foldLength[i] > 1)
      writeText(X(i), Y(i) - 9, "middle", "label", `\u00d7${foldLength[i].toLocaleString("en")}`);
  for (const [i, text] of notes) if (isShown(i) && X(i) > gutter - 9 && X(i) < width)
    writeText(X(i) + 4, Y(i) - 12, "start", "label remark", `\u270e ${shortened(text, 240, 12)}`);
}
function writeText(x, y, anchor, kind, text) {
  return make("text", { x: round(x), y: round(y), "text-anchor": anchor, class: kind }, labels, text);
}
const faintness = i => isReached(i) ? "" : " faint";
// The moment's name, and what is left out before and behind.
function writeNotes() {
  const line = atColumn(momentColumn), half = textWidth("the moment", 13) / 2 + 4;
  if (moment.length && line > gutter && line < width)
    writeText(Math.max(gutter + half, Math.min(width - half, line)), TOP - 19, "middle", "", "the moment");
  if (leftOut.before)
    writeText(atColumn(far && 1) - 12, 12, "start", "note", `\u22ef ${plural(unseen, "event")} before`);
  if (leftOut.more) writeText(atColumn(columns - 1) + 30, 12, "end", "note", "more may follow \u22ef");
}
// The text of a member, whatever room there is. It says which piece of which row it takes.
function writeMember(m) {
  const text = shortened(events[m].text, 230, 12, 700), long = textWidth(text, 12, 700);
  const left = Math.max(gutter + 4, Math.min(X(m) - 3, width - long - 6));
  writeText(left, rowHeight < 38 ? Y(m) - 9 : Y(m) + 22, "start", `label member${faintness(m)}`, text);
  return { h: hostOf[m], left, right: left + long + 6 };
}
// The text of another event, in the room up to the next one, or up to the text of a member.
function writeEvent(i, taken) {
  if (isMember.has(i) || X(i) >= width || state.fold && foldOf[i] !== i) return;
  const left = X(i) - 3, beside = taken.filter(it => it.h === hostOf[i] && it.right > left), [near] = beside;
  if (near && near.left <= left + 30) return;
  const next = eventsOf[hostOf[i]][rank[i] + (state.fold ? foldLength[i] : 1)] ?? -1;
  const room = Math.min(next < 0 ? 174 : X(next) - X(i) - 6, 260, near ? near.left - left - 6 : 260);
  if (room > 30) writeText(left, Y(i) + 21, "start", `label${faintness(i)}`, shortened(events[i].text, room, 11));
}
const MOST_HANDLE = 32; // pixels of a row's height that are for dragging it
function writeNames() {
  names.textContent = "";
  make("rect", { class: "gutter", x: 0, y: 0, width: gutter, height }, names);
  make("line", { class: "rule", x1: gutter - 0.5, x2: gutter - 0.5, y1: 0, y2: height }, names);
  const high = Math.min(rowHeight, MOST_HANDLE);
  for (const h of rows) {
    make("rect", { class: "handle", x: 0, y: round(rowY(h) - high / 2), width: gutter - 1, height: high,
      "data-host": h }, names);
    const place = { x: 8, y: round(rowY(h) + 4.5), "data-host": h, class: hosts[h].rule ? "watched" : "other" };
    const text = make("text", place, names,
      shortened(hosts[h].name, gutter - 16, 13, weightOf(hosts[h])));
    make("title", {}, text, `${hosts[h].name} (drag it to move the row)`);
  }
}
