// The start: what is built of a question, and what the address asks for.
function showExtent() {
  const lines = events.filter(it => !it.far).map(it => it.line);
  $("extent").textContent = `Shown: ${plural(N, "event")} of ${plural(H, "host")}` +
    (lines.length && (leftOut.before || leftOut.more) ? `, ${data.unit}s ${lines[0]} to ${lines.at(-1)}` : "") +
    (leftOut.before ? `. Left out: ${plural(unseen, "event")} before them` : "") +
    (far ? `; left of the gap: ${plural(far, "event")} of the ${runs.length ? "runs" : "moment"} from further back`
      : "") + (leftOut.more ? ". More may follow behind what is shown." : ".");
}
function showTools() {
  [$("to-moment").hidden, $("play").hidden, $("why").hidden] = [!members.length, !members.length, !pairs.length];
  [$("to-moment").textContent, $("why").title, $("overlap-key").textContent] = runs.length
    ? ["Runs", "Why the runs overlap. Key: w", "held at once"]
    : ["Moment", "Why nothing orders its events. Key: w", "could hold at once"];
  $("fold").disabled = !foldLength.some(n => n > 1);
  $("hosts-asked").disabled = !asked.length;
  const isDrawn = { moment: moment.length, runs: runs.length, bar: events.some(it => it.holds),
    overlap: members.length };
  for (const key of document.querySelectorAll("#legend [data-of]")) key.hidden = !isDrawn[key.dataset.of];
  drawing.setAttribute("aria-label",
    `Space-time diagram: ${plural(H, "host")}, ${plural(N, "event")}, ${plural(messages.length, "message")}`);
}
// Nothing is chosen, drawn or played of this question yet.
function forget() {
  [current, cone, lit, matches] = [-1, null, [], []];
  Object.assign(state, { kept: [], pair: -1, fold: false });
  $("fold").setAttribute("aria-pressed", "false");
  forgetDrawn();
  forgetPlay();
}
function build(k) {
  ask(k);
  forget();
  findLines();
  placeNotes();
  markQuestion();
  showAnswer();
  showExtent();
  showTools();
  listAnew();
}
for (const id of ["questions", "question-keys"]) $(id).hidden = !links.length;
readNotes();
readAddress();
