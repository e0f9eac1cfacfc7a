"""How a page opens: where the moment stands, the columns, the arrows, the bars, what is left out."""
import random
import re

from page_browser import Browser
from page_cases import ALL, SIZES, events_of, page, same, small
from page_helper import Event, Log, Options, data_in, differences, is_before, page_of, page_with, random_log

# The places of two events, and the two ends of a bar.
Pairs = list[tuple[int, int]]
Piece = tuple[float, float]


def test_opens_at_the_moment(browser: Browser) -> None:
    early = page_of([Event(1, "ada", {"ada": 1}, "holds"), Event(2, "ben", {"ben": 1}, "holds"),
                     *(Event(2 + n, "ada", {"ada": 1 + n}, "works") for n in range(1, 200))],
                    Options({name: ("while", "holds") for name in ("ada", "ben")}))
    for name in [*ALL, "early"]:
        for size in SIZES:
            browser.open(early if name == "early" else page(name), size=size)
            data = browser.data
            same(browser.text("words"), data["words"].rstrip("\n"), "the words")
            seen = browser.run("""
                const view = document.getElementById("view"), box = view.getBoundingClientRect();
                const gutter = document.querySelector(".gutter").width.baseVal.value;
                const line = document.querySelector("#drawing .moment").getAttribute("d").match(/^M(-?[\\d.]+)/);
                const most = view.scrollWidth - view.clientWidth;
                const rows = (wullaphi.data.moment || []).map(m => wullaphi.place(m)[1] - box.top);
                const texts = [...document.querySelectorAll("#drawing text")];
                const label = texts.find(it => it.textContent === "the moment")?.getBoundingClientRect();
                return { line: line ? Number(line[1]) : null, label: label && [label.left, label.right], gutter, rows,
                  width: view.clientWidth, left: view.scrollLeft, most, height: view.clientHeight };""")
            if data["moment"] is None:
                same(seen["line"], None, f"{name}: a line without a moment")
                continue
            where = f"{name} at {size}: {seen}"
            assert seen["gutter"] < seen["line"] < seen["width"], where
            assert seen["gutter"] < seen["label"][0] and seen["label"][1] < seen["width"], where
            centred = abs(seen["line"] - (seen["gutter"] + seen["width"]) / 2) < 3
            at_end = seen["left"] < 1 or seen["left"] > seen["most"] - 2
            assert centred or at_end, where
            # At an end the line can't come nearer to the middle.
            if not centred:
                right = seen["line"] > (seen["gutter"] + seen["width"]) / 2
                assert seen["left"] > seen["most"] - 2 if right else seen["left"] < 1, where
            assert any(0 < row < seen["height"] for row in seen["rows"]), where


def test_columns_keep_the_order(browser: Browser) -> None:
    for name in ("lease", "leaders", "window", "far", "none"):
        browser.open(page(name))
        column, messages, line = browser.run("return [[...wullaphi.column], wullaphi.messages, wullaphi.momentColumn]")
        data, log = browser.data, events_of(browser.data)
        last: dict[str, int] = {}
        for place, event in enumerate(log):
            if event.host in last:
                assert column[last[event.host]] < column[place], (name, place)
            last[event.host] = place
        for message in messages:
            assert column[message["from"]] < column[message["to"]], (name, message)
        moment = data["moment"] or []
        for place, event in enumerate(log):
            known = any(place == it or is_before(event, log[it]) for it in moment)
            if moment:
                assert column[place] <= line if known else column[place] > line, (name, place)
        for it in moment:
            ordered = any(is_before(log[it], log[other]) for other in moment if other != it)
            assert column[it] == line or ordered or data["events"][it].get("far"), (name, it)


def test_arrows_are_the_order(browser: Browser) -> None:
    """The host's lines and the arrows say the order of the clocks, and none of the arrows is needless."""
    for seed in range(8):
        browser.open(page_of(*small(seed)))
        log = events_of(browser.data)
        edges = [(it["from"], it["to"]) for it in browser.run("return wullaphi.messages")]
        last: dict[str, int] = {}
        lines = []
        for place, event in enumerate(log):
            if event.host in last:
                lines.append((last[event.host], place))
            last[event.host] = place

        def reach(pairs: Pairs) -> list[set[int]]:
            past: list[set[int]] = [set() for _ in log]
            for place in range(len(log)):
                for one, other in pairs:
                    if other == place:
                        past[place] |= past[one] | {one}
            return past
        wanted = [{one for one in range(len(log)) if one != place and is_before(log[one], log[place])}
                  for place in range(len(log))]
        same(reach(lines + edges), wanted, f"log {seed}")
        for edge in edges:
            assert reach(lines + [it for it in edges if it != edge]) != wanted, f"log {seed}: {edge} is needless"


def joined(pieces: list[Piece]) -> list[list[float]]:
    """Pieces from left to right, those in one that touch."""
    runs: list[list[float]] = []
    for left, right in sorted(pieces):
        if runs and left - runs[-1][1] <= 1:
            runs[-1][1] = right
        else:
            runs.append([left, right])
    return runs


def test_bars_are_the_states(browser: Browser) -> None:
    """A bar from each event at which a condition holds to the host's next event, or about the event alone."""
    for seed in range(40, 52):
        rule = ("while", "at")[seed % 2]
        log = random_log(seed, 16, 2 + seed % 3, hold=0.5)
        browser.open(page_of(log, Options({f"host{number}": (rule, "holds") for number in range(2)})))
        places, width, path = browser.run("""
            const view = document.getElementById("view"), box = view.getBoundingClientRect();
            return [wullaphi.data.events.map((_, i) => wullaphi.place(i)).map(([x, y]) =>
              [x - box.left - view.clientLeft, y - box.top - view.clientTop]), view.clientWidth,
              document.querySelector("#drawing .bars").getAttribute("d") || ""]""")
        wanted: dict[int, list[Piece]] = {}
        for place, event in enumerate(browser.data["events"]):
            them = browser.data["events"]
            own = [other for other in range(place + 1, len(them)) if them[other]["host"] == event["host"]]
            x, y = places[place]
            end = places[own[0]][0] if own else width
            if event.get("holds"):
                wanted.setdefault(round(y), []).append((x - 6, x + 6) if rule == "at" else (x, end))
        drawn: dict[int, list[Piece]] = {}
        for left, top, right, breadth in re.findall(r"M(-?[\d.]+) (-?[\d.]+)H(-?[\d.]+)v([\d.]+)H", path):
            drawn.setdefault(round(float(top) + float(breadth) / 2), []).append((float(left), float(right)))
        same(sorted(drawn), sorted(wanted), f"log {seed}: the rows with bars")
        for y, pieces in wanted.items():
            pairs = list(zip(joined(drawn[y]), joined(pieces)))
            same(len(joined(drawn[y])), len(joined(pieces)), f"log {seed}: bars")
            assert all(abs(one - other) < 2 for got, said in pairs for one, other in zip(got, said)), (seed, y, pairs)


def shuffled(log: Log, chance: random.Random) -> Log:
    """The same events in another order that keeps each host's: one host after the other, or by chance."""
    names = list(dict.fromkeys(event.host for event in log))
    own = {name: [event for event in log if event.host == name] for name in names}
    turns = [event.host for event in log]
    if chance.random() < 0.5:
        turns.sort()
    else:
        chance.shuffle(turns)
    mixed = [own[name].pop(0) for name in turns]
    return [Event(line + 1, event.host, event.clock, event.text) for line, event in enumerate(mixed)]


def test_any_log_opens(browser: Browser) -> None:
    """Logs in any order of their hosts, with events that aren't logged, and parts of logs: the columns keep the order,
    and each event that came before another has a chain to it where all is shown."""
    for seed in range(60, 90):
        chance = random.Random(seed)
        log = random_log(seed, 60, 2 + seed % 5, hold=0.5)
        if seed % 3:
            log = shuffled(log, chance)
        if seed % 4 == 0:
            left = [event for event in log if chance.random() < 0.7]
            log = [Event(line, event.host, event.clock, event.text) for line, event in enumerate(left, 1)]
        rule = chance.choice(["while", "at"])
        options = Options({f"host{number}": (rule, "holds") for number in range(2)},
                          shown=chance.choice([None, 5, 20]))
        text = page_of(log, options)
        same(differences(text, log), [], seed)
        browser.open(text)
        shown = events_of(browser.data)
        column, messages, line, place = browser.run("""return [[...wullaphi.column], wullaphi.messages,
            wullaphi.momentColumn, wullaphi.data.events.map((_, i) => wullaphi.place(i))]""")
        assert all(isinstance(n, (int, float)) for at in place for n in at), f"log {seed}"
        for one, first in enumerate(shown):
            known = any(one == it or is_before(first, shown[it]) for it in browser.data["moment"] or [])
            if browser.data["moment"]:
                assert column[one] <= line if known else column[one] > line, f"log {seed}, event {one}"
            for other, then in enumerate(shown):
                if is_before(first, then):
                    assert column[one] < column[other], f"log {seed}: {one} and {other}"
        for message in messages:
            assert is_before(shown[message["from"]], shown[message["to"]]), f"log {seed}: {message}"
        pairs = [(one, other) for one in range(len(shown)) for other in range(len(shown))
                 if is_before(shown[one], shown[other])]
        chains = browser.run("return arguments[0].map(([a, b]) => wullaphi.chainOf(a, b) !== null)", pairs)
        assert all(chains), f"log {seed}: no chain from {pairs[chains.index(False)]}"


def test_small_and_broken_logs_open(browser: Browser) -> None:
    one = [Event(1, "ada", {"ada": 1}, "works")]
    browser.open(page_of(one, Options({"ada": ("while", "works")})))
    same(browser.run("return wullaphi.momentColumn"), 0, "one event")
    browser.keys("w", "m", "0", "+")
    data = data_in(page_of(one, Options()))
    data.update(hosts=[], events=[], moment=None)
    browser.open(page_with(data))
    browser.keys("\ue014", "m", "0", "+", "n")
    same(browser.text("extent"), "Shown: 0 events of 0 hosts.", "no event")
    # Clocks that contradict each other: each knows of the other.
    clock = {"ada": 1, "ben": 1}
    browser.open(page_of([Event(1, "ada", clock, "works"), Event(2, "ben", clock, "works")], Options()))
    browser.click(0)
    browser.click(1)
    assert "came before" in browser.text("info"), browser.text("info")


def test_says_what_is_left_out(browser: Browser) -> None:
    browser.open(page("window"))
    left = browser.data["left_out"]["before"]
    assert f"{left:,} events before them" in browser.text("extent"), browser.text("extent")
    assert f"{left:,} events before" in browser.text("drawing"), browser.text("drawing")[:200]
    assert "More may follow" in browser.text("extent") and "more may follow" in browser.text("drawing")
    browser.open(page("far"))
    left = browser.data["left_out"]["before"] - 1
    assert f"{left} events before them; left of the gap: 1 event" in browser.text("extent"), browser.text("extent")
    column, line = browser.run("return [[...wullaphi.column], wullaphi.momentColumn]")
    same(column[0], 0, "the far event's column")
    assert min(column[1:]) >= 3 and line > 3, "the gap"
    assert browser.run("return document.querySelector('#drawing .reach').getAttribute('d')"), "it lasts up to the line"
    browser.open(page("lease"))
    same(browser.text("extent"), "Shown: 16 events of 4 hosts.", "nothing is left out")
