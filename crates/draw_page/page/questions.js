// The list of the questions, where there are several, and what leads from one to another.
const links = replies.length < 2 ? [] : replies.map(listQuestion);
function listQuestion(reply, k) {
  const link = make("a", { href: `#question=${k + 1}` }, make("li", {}, $("question-list")));
  write(make("b", {}, link), [{ own: reply.question }]);
  for (const words of briefWords(reply)) {
    link.append(" ");
    write(make("span", {}, link), words);
  }
  link.title = `${link.textContent} (keys: q and Q)`;
  link.addEventListener("click", event => {
    if (event.ctrlKey || event.metaKey || event.shiftKey) return; // which open it elsewhere
    event.preventDefault();
    toQuestion(k);
  });
  return link;
}
// The question that the page opens on: that on which it was saved, or else the first that has a moment.
function questionAtFirst() {
  const chosen = Number(document.documentElement.dataset.question) - 1;
  return replies[chosen] ? chosen : Math.max(0, replies.findIndex(it => it.moment));
}
const openingQuestion = questionAtFirst();
// Goes to a question, which the address then says. What is searched and folded stays so.
function toQuestion(k) {
  if (k === question) return openAtMoment();
  remember();
  const hash = `#${addressOf({ question: k + 1, ...searchWords(), fold: Number(state.fold) })}`;
  try { history.pushState(null, "", hash); } catch { /* where the page has no address of its own */ }
  readAddress(hash);
}
const stepQuestion = way => { if (links.length) toQuestion((question + way + links.length) % links.length); };
// Marks the question that is chosen, and brings it into sight in the list.
function markQuestion() {
  links.forEach((link, k) => link.setAttribute("aria-current", String(k === question)));
  const chosen = links[question];
  if (chosen) $("question-list").scrollTo(chosen.offsetLeft - 24, chosen.offsetTop - 4);
}
