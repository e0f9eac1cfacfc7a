"""Arrows: each leads from one event to another, and runs through no third one; so do chains. And what the page lights
where nothing is chosen."""
from page_browser import Browser
from page_cases import LEASE, events_of, page, same
from page_helper import Options, is_before, page_of, random_log

SIZES = [(1440, 900), (390, 844)]
# How near an arrow may come to an event that is neither of its ends, in pixels.
NEAREST = 6

# Of each line that is drawn as an arrow its two events, or -1, and how near it comes to the nearest other one.
MEASURE = """
    const measured = document.createElementNS("http://www.w3.org/2000/svg", "path");
    const view = document.getElementById("view"), box = view.getBoundingClientRect();
    const places = wullaphi.data.events.map((_, i) => wullaphi.place(i)).map(([x, y]) =>
      [x - box.left - view.clientLeft, y - box.top - view.clientTop + view.scrollTop]);
    const far = (p, [x, y]) => Math.hypot(p.x - x, p.y - y);
    const at = p => places.findIndex(place => far(p, place) < 1.5);
    // Each line is followed by its head.
    const lines = kind => (document.querySelector("#drawing ." + kind).getAttribute("d") || "").split(/(?=M)/)
      .filter((piece, k) => piece && k % 2 === 0);
    const measure = line => {
      measured.setAttribute("d", line);
      const long = measured.getTotalLength(), points = [];
      for (let along = 0; along <= long; along += 1) points.push(measured.getPointAtLength(along));
      const from = at(points[0]), to = at(measured.getPointAtLength(long));
      let nearest = Infinity;
      for (const p of points) for (let i = 0; i < places.length; i++)
        if (i !== from && i !== to) nearest = Math.min(nearest, far(p, places[i]));
      return [from, to, nearest];
    };
    return ["arrows", "unseen", "past-arrows", "future-arrows"].flatMap(lines).map(measure);"""


def test_arrows_run_through_no_third_event(browser: Browser) -> None:
    passed = 0
    for seed in range(200, 212):
        hosts = 3 + seed % 5
        log = random_log(seed, 40 if seed % 2 else 90, hosts)
        browser.open(page_of(log, Options({f"host{number}": ("while", "work .*holds") for number in range(2)})),
                     size=SIZES[seed % 2])
        for zooms in range(2):
            messages = {(it["from"], it["to"]) for it in browser.run("return wullaphi.messages")}
            for begin, end, nearest in browser.run(MEASURE):
                where = f"log {seed}, zoom {zooms}: from {begin} to {end}"
                assert (begin, end) in messages, f"{where}: no message"
                assert nearest >= NEAREST, f"{where}: {nearest:.1f} pixels from another event"
                passed += 1
            browser.press("zoom-in")
            browser.settle()
    assert passed > 300, f"only {passed} arrows"


def test_the_moment_is_lit_where_nothing_is_chosen(browser: Browser) -> None:
    """What came before any event of the moment is blue, what came after any and before none is orange."""
    for log, options in (LEASE, *((random_log(seed, 60, 4), Options({f"host{number}": ("while", "work .*holds")
                                                                     for number in (0, 1)})) for seed in (1, 5, 8))):
        browser.open(page_of(log, options))
        events, moment = events_of(browser.data), browser.data["moment"]
        if moment is None:
            same(browser.run("return wullaphi.lit()"), None, "no moment")
            continue
        past = [it for it in range(len(events)) if any(is_before(events[it], events[m]) for m in moment)]
        future = [it for it in range(len(events)) if it not in past
                  and any(is_before(events[m], events[it]) for m in moment)]
        wanted = {"of": "moment", "past": past, "future": future}
        same(browser.run("return wullaphi.lit()"), wanted, "what is lit at first")
        browser.click(0)
        same(browser.run("return wullaphi.lit().of"), 0, "an event that is chosen")
        browser.keys("\ue00c")
        same(browser.run("return wullaphi.lit()"), wanted, "when it is let go")


def test_the_cause_of_the_fault_is_lit(browser: Browser) -> None:
    """In the page of the README's picture all that led to the moment is lit, what led to Ben's lease too."""
    browser.open(page("lease"))
    lit = [browser.data["events"][it]["text"] for it in browser.run("return wullaphi.lit().past")]
    assert "ten seconds are over, lends it to ben" in lit, lit
