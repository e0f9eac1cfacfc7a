"""What is lit where an event is pointed at, and what the walk through the pairs of the moment says."""
import random
import re

from page_browser import Browser
from page_cases import FAR, LARGE, events_of, page, same, small
from page_helper import Data, Event, Log, Options, data_in, data_of, is_before, page_of, page_with


def test_lights_past_and_future(browser: Browser) -> None:
    """20 random logs by 20 events: exactly what the clocks say is lit, and drawn."""
    for seed in range(20):
        chance = random.Random(seed)
        browser.open(page_of(*small(seed)))
        log = events_of(browser.data)
        for event in chance.sample(range(len(log)), 20):
            browser.hover(event)
            browser.settle()
            past = [it for it in range(len(log)) if is_before(log[it], log[event])]
            future = [it for it in range(len(log)) if is_before(log[event], log[it])]
            where = f"log {seed}, event {event}"
            same(browser.run("return wullaphi.lit()"), {"of": event, "past": past, "future": future}, where)
            shown = browser.run("""
                const view = document.getElementById("view"), box = view.getBoundingClientRect();
                return wullaphi.data.events.map((_, i) => wullaphi.place(i))
                  .map(([x, y]) => [x - box.left, y - box.top - 1, view.clientWidth])""")
            inside = {it for it, (x, _, width) in enumerate(shown) if -20 < x < width + 20}
            for kind, members in (("past-dots", past), ("future-dots", future)):
                drawn = [(x, y) for x, y in browser.dots(kind) if -20 < x < shown[0][2] + 20]
                wanted = [shown[it][:2] for it in set(members) & inside]
                for some, others in ((drawn, wanted), (wanted, drawn)):
                    for x, y in some:
                        assert any(abs(x - a) <= 2 and abs(y - b) <= 2 for a, b in others), (where, kind, x, y)
            info = browser.text("info")
            assert browser.where(event) in info and log[event].text in info, info
            for name, value in log[event].clock.items():
                assert f"{name} {value}" in info, info
            assert f"{len(past)} event" in info and f"{len(future)} event" in info, info


def test_pieces_of_the_lines_are_lit(browser: Browser) -> None:
    """Past and future are lit along the hosts' lines too, also where none of a host's events is in view."""
    for name, size in (("ring", (390, 844)), ("ring", (1280, 720)), ("window", (390, 844))):
        log = events_of(data_in(page(name)))
        for event in (8, len(log) // 2, len(log) - 5):
            for at in (0, 90, 10 ** 7):
                browser.open(page(name), f"#events={event}&at={at}", size)
                seen = browser.run("""
                    const view = document.getElementById("view"), left = view.getBoundingClientRect().left;
                    return { x: wullaphi.data.events.map((_, i) => wullaphi.place(i)[0] - left),
                      gutter: document.querySelector(".gutter").width.baseVal.value, width: view.clientWidth,
                      past: document.querySelector("#drawing .past-piece").getAttribute("d"),
                      future: document.querySelector("#drawing .future-piece").getAttribute("d"),
                      lit: wullaphi.lit() };""")
                for kind in ("past", "future"):
                    ends: dict[str, list[float]] = {}
                    for it in seen["lit"][kind]:
                        ends.setdefault(log[it].host, []).append(seen["x"][it])
                    least, most = (sum(min(xs) < seen["width"] + rim and max(xs) > seen["gutter"] - rim
                                       for xs in ends.values()) for rim in (0, 10))
                    drawn = (seen[kind] or "").count("M")
                    assert least <= drawn <= most, (name, size, event, at, kind, least, drawn, most)


def held_words(data: Data, log: Log, member: int) -> str:
    """From which line on, and until which, the condition of a member's host holds, as far as the page knows."""
    own = [place for place, event in enumerate(log) if event.host == log[member].host]
    shown, host = data["events"], log[member].host
    at = own.index(member)
    holds = [bool(shown[place].get("holds")) for place in own]
    begun = at
    while begun and holds[begun - 1] and not shown[own[begun - 1]].get("far"):
        begun -= 1
    line = f"line {log[own[begun]].line}"
    may_begin_before = begun == 0 and data["left_out"]["before"] and log[own[0]].clock[host] > 1
    number, later = log[member].clock[host], own[at + 1:]
    is_sure = not shown[member].get("far") or later and log[later[0]].clock[host] == number + 1 \
        and (shown[member]["clock"] or number == 1)
    ends = [place for place in later if not shown[place].get("holds")]
    over = "until an event that isn't shown, if there is one" if not is_sure \
        else f"until line {log[ends[0]].line}" if ends else "on"
    return f"from {line}{' or before' if may_begin_before else ''} {over}"


def test_why_nothing_orders_them(browser: Browser) -> None:
    browser.open(page("lease"))
    browser.press("why")
    words = browser.text("walk-words")
    for part in ("Pair 1 of 1.",
                 "ben line 18 knows ada up to line 4; the condition of ada holds from line 8 until line 26.",
                 "ada line 8 knows nothing of ben; the condition of ben holds from line 18 until line 28.",
                 "both could hold at once"):
        assert part in words, words
    browser.press("walk-end")
    assert browser.run("return document.getElementById('walk').hidden"), "closed"
    races = LARGE[0], Options({host: ("at", expression) for host, (_, expression) in LARGE[1].conditions.items()})
    early = FAR[0], Options(FAR[1].conditions, shown=40)
    browser.open(page("large"))
    browser.press("why")
    browser.press("walk-back")
    assert "Pair 28 of 28." in browser.text("walk-words"), browser.text("walk-words")
    browser.press("walk-back")
    assert "Pair 27 of 28." in browser.text("walk-words"), browser.text("walk-words")
    for text in (page("large"), page("leaders"), page("far"), page("window"), page_of(*races), page_of(*early)):
        browser.open(text)
        log, moment = events_of(browser.data), browser.data["moment"]
        rules = {host["name"]: host.get("rule") for host in browser.data["hosts"]}
        browser.press("why")
        pairs = [(e, f) for j, f in enumerate(moment) for e in moment[:j]]
        for number, (e, f) in enumerate(pairs):
            words = browser.text("walk-words")
            assert f"Pair {number + 1} of {len(pairs)}." in words, words
            for one, other in ((e, f), (f, e)):
                host = log[one].host
                known = [it for it in range(len(log)) if log[it].host == host and is_before(log[it], log[other])]
                number = log[other].clock.get(host, 0)
                last = browser.data["events"][known[-1]] if known else {}
                unseen = not known or last.get("far") and (not last["clock"] or log[known[-1]].clock[host] < number)
                said = f"{browser.where(other)} knows " + (
                    f"nothing of {host}" if not number else f"{host} up to its number {number}, which is left out"
                    if unseen else f"{host} up to line {log[known[-1]].line}")
                if not browser.data["events"][other]["clock"]:
                    said = f"What {browser.where(other)} knows of {host} isn't known"
                if rules[host] == "at":
                    assert f"{said}, and so not of line {log[one].line}." in words, (said, words)
                    continue
                held = f"{said}; the condition of {host} holds {held_words(browser.data, log, one)}."
                assert held in words, (held, words)
            browser.press("walk-on")
        assert "Pair 1 of" in browser.text("walk-words"), "it goes round"
    browser.open(page("none"))
    assert browser.run("return document.getElementById('why').hidden"), "no moment, no pairs"


def without_a_clock() -> Data:
    """The data of a log of which the first member of the moment is shown without its clock, which is `{"ada": 2}`. Its
    host's next event is number 5, so that it may be any from 1 to 4."""
    log = [Event(1, "ada", {"ada": 1}, "works"), Event(2, "ada", {"ada": 2}, "takes")]
    log += [Event(3, "ben", {"ben": 1}, "works"), Event(4, "ben", {"ben": 2, "ada": 1}, "hears of the first")]
    log += [Event(5, "cam", {"cam": 1, "ada": 4}, "hears of the fourth")]
    log += [Event(6, "ben", {"ben": 3, "ada": 1}, "takes"), Event(7, "ada", {"ada": 5}, "works")]
    data = data_of(log, Options({name: ("while", "takes") for name in ("ada", "ben")}, shown=5))
    assert data["events"][0]["far"] and len(data["events"]) == 6, data
    data["events"][0]["clock"] = []
    return data


def test_an_unknown_clock_is_said_to_be_unknown(browser: Browser) -> None:
    browser.open(page_with(without_a_clock()))
    far, heard_first, heard_fourth, later = 0, 2, 3, 5
    browser.hover(far)
    info = browser.text("info")
    assert "clock isn't known" in info and "came before it," not in info, info
    browser.hover(heard_first)
    same(browser.run("return wullaphi.lit().past"), [1], "the far event isn't known to come before")
    said = "1 event came before it, 1 event after it, 2 events in no order with it; of 1 event the clock isn't known"
    assert said in browser.text("info"), browser.text("info")
    browser.hover(heard_fourth)
    same(browser.run("return wullaphi.lit().past"), [far], "the far event is known")
    assert "1 event came before it" in browser.text("info"), browser.text("info")
    assert "isn't known" not in browser.text("info"), browser.text("info")
    same([[it["from"], it["to"], it["unseen"]] for it in browser.run("return wullaphi.messages")],
         [[far, heard_fourth, True]], "arrows")
    for other, said in ((heard_first, "It isn't known what orders ada line 2 and ben line 4"),
                        (heard_fourth, "ada line 2 came before cam line 5"),
                        (later, "ada line 2 came before ada line 7")):
        browser.keys("\ue00c")
        browser.click(far)
        browser.click(other)
        assert said in browser.text("info"), (said, browser.text("info"))
    browser.press("why")
    assert "knows ada up to its number 1, which is left out" in browser.text("walk-words"), browser.text("walk-words")
    data = without_a_clock()
    data["events"][4]["clock"] = [[1, 3], [0, 4]]
    browser.open(page_with(data))
    browser.press("why")
    assert "knows ada up to its number 4, which is left out" in browser.text("walk-words"), browser.text("walk-words")


def far_holder(gives: bool) -> Data:
    """The data of a log of which h0 takes a lock in the first line, h1 much later; and h0 may give it back then. The
    clock of the first event isn't known."""
    log = [Event(1, "h0", {"h0": 1}, "takes")]
    log += [Event(line, "h1", {"h1": line - 1}, "works") for line in range(2, 22)]
    log += [Event(22, "h1", {"h1": 21}, "takes")]
    log += [Event(23, "h0", {"h0": 2}, "gives")] if gives else []
    log += [Event(len(log) + more, "h1", {"h1": 21 + more}, "works") for more in (1, 2, 3)]
    data = data_of(log, Options({name: ("while", "takes") for name in ("h0", "h1")}, shown=10))
    assert data["events"][0]["far"], data
    data["events"][0]["clock"] = []
    return data


def test_a_member_from_far_back_holds_until_its_next_event(browser: Browser) -> None:
    for gives, over, is_broken in ((True, "until line 23.", False),
                                   (False, "or before until an event that isn't shown, if there is one.", True)):
        browser.open(page_with(far_holder(gives)))
        browser.press("why")
        words = browser.text("walk-words")
        assert f"the condition of h0 holds from line 1 {over}" in words, words
        assert "its next event, which is left out" not in words, words
        far, end, bars, gaps = browser.run("""
            const place = i => wullaphi.place(i)[0] - document.getElementById("view").getBoundingClientRect().left;
            const of = kind => document.querySelector("#drawing ." + kind).getAttribute("d") || "";
            const given = wullaphi.data.events.findIndex(it => it.text === "gives");
            return [place(0), given < 0 ? null : place(given), of("bars"), of("gaps")];""")
        y = browser.run("return wullaphi.place(0)[1] - document.getElementById('view').getBoundingClientRect().top")
        own = [(float(left), float(right)) for left, top, right, breadth
               in re.findall(r"M(-?[\d.]+) (-?[\d.]+)H(-?[\d.]+)v([\d.]+)H", bars)
               if abs(float(top) + float(breadth) / 2 - y) < 3]
        same(len(own), 1, f"the bars of h0: {bars}")
        if gives:
            assert abs(own[0][1] - end) < 3, f"the bar ends at {own[0][1]}, the condition at {end}"
        behind = [left for left, top, right in re.findall(r"M(-?[\d.]+) (-?[\d.]+)H(-?[\d.]+)", gaps)
                  if abs(float(top) - y) < 3 and float(left) < far + 5 < float(right)]
        same(bool(behind), is_broken, f"the line of h0 behind its event is dotted: {gaps}")
