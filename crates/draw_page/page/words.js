// Words about events: lists of the page's own texts and of those that others wrote, `{ own }`. These may run from right
// to left, and so stand apart from the words around them.
const w = (texts, ...values) =>
  texts.flatMap((text, k) => [text, ...[values[k] ?? []].flat()]).filter(it => it !== "")
    .map(it => it.own === undefined ? String(it) : it);
const plain = words => words.map(it => it.own ?? it).join("");
const plural = (n, word) => `${n.toLocaleString("en")} ${word}${n === 1 ? "" : "s"}`;
const hostName = h => ({ own: hosts[h].name });
const nameOf = i => hostName(hostOf[i]);
const line = i => `${data.unit} ${events[i].line}`;
const where = i => w`${nameOf(i)} ${line(i)}`;
const quoted = i => events[i].text ? w` \u201c${{ own: events[i].text }}\u201d` : [];
// A list of words in words: "a, b and c"; of more than `most` the first ones, and how many others there are.
function listing(list, most = 6) {
  const shown = list.length > most ? list.slice(0, most - 1) : list, rest = list.length - shown.length;
  const all = rest ? [...shown, [`${rest} others`]] : shown;
  return all.flatMap((it, k) => [...(k === 0 ? [] : [k === all.length - 1 ? " and " : ", "]), ...[it].flat()]);
}
// ---- Two events
const inOrder = (a, b) => before(b, a) ? [b, a] : [a, b];
const isHop = (chain, k) => k > 0 && hostOf[chain[k]] !== hostOf[chain[k - 1]];
function hopWords(chain) {
  const hops = chain.flatMap((i, k) => isHop(chain, k) ? [w`${where(chain[k - 1])} \u2192 ${where(i)}`] : []);
  return w`${plural(hops.length, "message")}: ${hops.flatMap((hop, k) => k ? ["; ", ...hop] : hop)}`;
}
// Which of two came first, and how that is known.
function orderWords(a, b) {
  const unclear = [a, b].find(i => !hasClock(i));
  if (!before(a, b) && unclear !== undefined)
    return [w`It isn't known what orders ${where(a)} and ${where(b)}`, w`: ${where(unclear)} stands too far back`];
  if (!before(a, b))
    return [w`Nothing orders ${where(a)} and ${where(b)}`, [": no messages lead from one to the other"]];
  const chain = chainOf(a, b), said = w`${where(a)} came before ${where(b)}`;
  if (hostOf[a] === hostOf[b]) return [said, [", on the same host"]];
  if (!chain) return [said, [", as the clocks say; the messages between them aren't shown"]];
  return [said, w`, by ${hopWords(chain)}`];
}
// ---- Why the members of the moment go together, or the runs: pair by pair, in each direction
// What event f knows of the host of e.
function knowledge(e, f) {
  const g = nameOf(e), last = lastKnown(f, hostOf[e]), number = known(f, hostOf[e]);
  if (!hasClock(f)) return w`What ${where(f)} knows of ${g} isn't known`;
  if (!number) return w`${where(f)} knows nothing of ${g}`;
  if (last >= 0 && !isBehindFar(f, last)) return w`${where(f)} knows ${g} up to ${line(last)}`;
  return leftOut.before ? w`${where(f)} knows ${g} up to its number ${number}, which is left out`
    : w`${where(f)} knows no ${data.unit} of ${g}`;
}
function reason(e, f) {
  if (isAt(hostOf[e])) return w`${knowledge(e, f)}, and so not of ${line(e)}.`;
  const [, end] = runOf(e), from = `${line(firstOf(e))}${mayBeginBefore(e) ? " or before" : ""}`;
  const over = end >= 0 ? `until ${line(end)}` : isGapBehind(e) ? "until an event that isn't shown, if there is one"
    : "on";
  return w`${knowledge(e, f)}; the condition of ${nameOf(e)} holds from ${from} ${over}.`;
}
const runFrom = first => runs.find(it => it.first === first);
// Why the run that begins with f wasn't over when that which begins with e began.
function overlap(e, f) {
  const { over, line: number } = runFrom(f), host = nameOf(f);
  if (over >= 0)
    return w`${where(over)}, at which its run is over, knows ${where(e)}, with which the other one begins.`;
  return number === null ? w`The run of ${host} isn't over in what is shown, so nothing is asked of it.`
    : w`The run of ${host} is over at ${data.unit} ${number}, which isn't shown.`;
}
function pairWords(e, f) {
  if (!runs.length)
    return w`${reason(e, f)} ${reason(f, e)} So neither was over when the other began: both could hold at once.`;
  return w`${overlap(e, f)} ${overlap(f, e)} So each began before the other was over, ${"in every order of the events: "
    }both held at once.`;
}
// The two ways by which the members of a pair know of each other, from an event to another.
function waysOfPair(a, b) {
  if (!runs.length) return [[lastKnown(b, hostOf[a]), b, "chain"], [lastKnown(a, hostOf[b]), a, "chain-back"]];
  return [[a, runFrom(b).over, "chain"], [b, runFrom(a).over, "chain-back"]];
}
