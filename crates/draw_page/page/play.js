// Playing: the events that led to the moment are chosen one after another, each as a click chooses it, and those that
// aren't reached yet are faint. `turn` has the place of each event in the order, or N.
const play = { isOn: false, at: -1, order: null, turn: null, timer: 0 };
const isReached = i => !play.isOn || play.turn[i] <= play.at;
function prepare() {
  if (play.order) return;
  play.order = scheduleOf(members);
  play.turn = new Int32Array(N).fill(N);
  play.order.forEach((i, k) => { play.turn[i] = k; });
}
// The next place in the order, forward or back, whose event is shown, or -1.
function nextPlace(way, from = play.at) {
  let k = from + way;
  while (k >= 0 && k < play.order.length && !isShown(play.order[k])) k += way;
  return k >= 0 && k < play.order.length ? k : -1;
}
const isOver = () => nextPlace(1) < 0;
const isUnderWay = () => play.isOn && !isOver();
function playTo(k) {
  if (state.pair >= 0) walkTo(-1);
  [play.isOn, play.at] = [true, k];
  keep([play.order[k]]);
  reveal(play.order[k]);
}
function pause() {
  clearTimeout(play.timer);
  play.timer = 0;
  $("play").textContent = "Play";
}
function forgetPlay() {
  pause();
  Object.assign(play, { isOn: false, at: -1, order: null, turn: null });
}
function endPlay() {
  pause();
  if (!play.isOn) return;
  play.isOn = false;
  keep(state.kept);
}
function playOn() {
  const k = nextPlace(1);
  if (k >= 0) playTo(k);
  if (isOver()) pause(); else play.timer = setTimeout(playOn, playEvery());
}
// The place of the one event that is kept, if it led to the moment.
const placeOfKept = () => state.kept.length === 1 && play.turn[state.kept[0]] < N ? play.turn[state.kept[0]] : -1;
// Plays on, or from the event that is kept, or from the first one; or pauses.
function playOrPause() {
  if (!members.length) return;
  if (play.timer) return pause();
  prepare();
  if (!play.isOn) play.at = placeOfKept() - 1;
  if (isOver() || play.at < -1) play.at = -1;
  $("play").textContent = "Pause";
  playOn();
}
// One event forward or back; the first step back is to the moment.
function playStep(way) {
  if (!members.length) return;
  pause();
  prepare();
  const from = play.isOn ? play.at : placeOfKept(), k = nextPlace(way, from < 0 && way < 0 ? play.order.length : from);
  if (k >= 0) playTo(k);
}
// ---- What is said of it
function endWords() {
  if (isDefinite) return members.length > 1 ? "All the runs have begun" : "The run has begun";
  return members.length === 1 ? "The moment: the condition holds"
    : `The moment: ${data.asks === "two" ? "two of the" : "all"} conditions hold`;
}
function tellPlayed(i) {
  const from = playedFromWords(members, play.order);
  if (isOver()) say([endWords()], ["."]);
  say(where(i), w`: ${{ own: events[i].text }}`);
  say([], w`Event ${play.at + 1} of the ${play.order.length} that led to ${runs.length ? "the runs" : "the moment"}${
    from.length ? w`, ${from}` : []}.`);
}
