"""Search, hidden hosts, keys, zoom."""
import random
import re

from page_browser import Browser
from page_cases import events_of, in_rows, page, same, shown_names
from page_helper import Event, Log, Options, page_of, random_log


def matching(log: Log, words: str, flags: int = 0) -> list[int]:
    return [place for place, event in enumerate(log) if re.search(words, event.text, flags)]


def test_search_finds(browser: Browser) -> None:
    log = random_log(31, 200, 5)
    extra = ["Work a.b", "work axb", "WORK (a)", "costs $5", "a\\b"]
    log += [Event(200 + n, "host0", {"host0": 900 + n}, text) for n, text in enumerate(extra, 1)]
    browser.open(page_of(log, Options()))

    def found() -> list[int]:
        places: list[int] = browser.run("return wullaphi.matches()")
        return places

    browser.find("work")
    same(found(), matching(log, "work", re.I), "either case")
    assert browser.text("matches") == f"{len(found())} events found", browser.text("matches")
    browser.press("case")
    same(found(), matching(log, "work"), "match case")
    browser.press("case")
    for words in ("a.b", "(a)", "$5", "a\\b", "to host1, h"):
        browser.find(words)
        same(found(), matching(log, re.escape(words), re.I), words)
    browser.press("regex")
    for words in ("work .*holds$", "^(sends|receives).*[13]$", "a.b"):
        browser.find(words)
        same(found(), matching(log, words, re.I), words)
    browser.find("work (")
    same(found(), [], "a bad expression")
    assert "Not a regular expression" in browser.text("matches"), browser.text("matches")
    browser.find("^work")
    shown = browser.run("""return wullaphi.matches().sort((a, b) => wullaphi.column[a] - wullaphi.column[b]
        || wullaphi.data.events[a].host - wullaphi.data.events[b].host)""")
    seen = []
    for _ in range(len(shown)):
        browser.press("next")
        seen.append(browser.run("return wullaphi.current()"))
    same(sorted(seen), sorted(shown), "each match is visited")
    start = shown.index(seen[0])
    same(seen, shown[start:] + shown[:start], "from left to right")
    browser.press("previous")
    same(browser.run("return wullaphi.current()"), seen[-2], "back")
    browser.keys("\ue00c")
    for left, key in ((10 ** 7, "N"), (0, "N"), (0, "n"), (10 ** 7, "n")):
        middle = browser.run("""
            const view = document.getElementById("view");
            view.focus();
            view.scrollLeft = arguments[0];
            return (document.querySelector(".gutter").width.baseVal.value + view.clientWidth) / 2;""", left)
        places = browser.run("return arguments[0].map(i => wullaphi.place(i)[0])", shown)
        at = sum(x < middle - browser.run("return wullaphi.state.step") / 2 for x in places)
        browser.keys("\ue00c", key)
        wanted = shown[(at if key == "n" else at - 1) % len(shown)]
        same(browser.run("return wullaphi.current()"), wanted, f"{key} from the middle of the view")
    x, _ = browser.run("return wullaphi.place(wullaphi.current())")
    assert 0 < x < 1280, "the match is in view"


def drawn(browser: Browser, kind: str) -> str:
    """The path of the marks of a kind."""
    return browser.run("return document.querySelector('#drawing .' + arguments[0]).getAttribute('d') || ''", kind) or ""


def marks_of_shown(browser: Browser, hidden: list[int]) -> None:
    """Sees that the arrows and the rings of the moment are those of hosts that aren't hidden, each where it belongs."""
    shown = [event["host"] not in hidden for event in browser.data["events"]]
    messages, places, moment = browser.run("""
        const view = document.getElementById("view"), box = view.getBoundingClientRect();
        return [wullaphi.messages.map(it => [it.from, it.to]), wullaphi.data.events.map((_, i) => wullaphi.place(i))
          .map(([x, y]) => [x - box.left - view.clientLeft, y - box.top - view.clientTop]), wullaphi.data.moment]""")
    wanted = sorted([*map(round, places[one]), *map(round, places[other])] for one, other in messages
                    if shown[one] and shown[other])
    lines = "".join(drawn(browser, kind) for kind in ("arrows", "unseen", "past-arrows", "future-arrows"))
    arrows = re.findall(r"M(-?[\d.]+) (-?[\d.]+)L(-?[\d.]+) (-?[\d.]+)(?!L|[\d.])", lines)
    same(sorted([round(float(it)) for it in arrow] for arrow in arrows), wanted, f"the arrows without {hidden}")
    rings = re.findall(r"M(-?[\d.]+) (-?[\d.]+)a8 8 0 1 0 16 0", drawn(browser, "members"))
    around = sorted((round(places[it][0]), round(places[it][1])) for it in moment if shown[it])
    same(sorted((round(float(x) + 8), round(float(y))) for x, y in rings), around, f"the rings without {hidden}")


def test_hides_hosts(browser: Browser) -> None:
    browser.open(page("lease"))
    names = [host["name"] for host in browser.data["hosts"]]
    same(shown_names(browser), in_rows(browser.data), "all")
    marks_of_shown(browser, [])
    browser.driver.find_element("css selector", "#hosts summary").click()
    boxes = browser.driver.find_elements("css selector", "#host-list input")
    boxes[names.index("ada")].click()
    browser.settle()
    same(shown_names(browser), [it for it in in_rows(browser.data) if it != "ada"], "without ada")
    same(browser.text("host-count"), "Hosts (1 hidden)", "the count")
    dots = sum(len(browser.dots(kind)) for kind in ("dots", "past-dots", "future-dots"))
    marks_of_shown(browser, [names.index("ada")])
    same(dots, sum(names[it["host"]] != "ada" for it in browser.data["events"]), "the events drawn")
    boxes[names.index("ada")].click()
    browser.settle()
    same(shown_names(browser), in_rows(browser.data), "all again")


def test_keys_step(browser: Browser) -> None:
    right, left, up, down, enter, escape = "\ue014", "\ue012", "\ue013", "\ue015", "\ue007", "\ue00c"
    browser.open(page("window"))
    log, column = events_of(browser.data), browser.run("return [...wullaphi.column]")
    names = in_rows(browser.data)
    own = {name: [it for it in range(len(log)) if log[it].host == name] for name in names}
    browser.run("document.getElementById('view').focus()")

    def current() -> int:
        return int(browser.run("return wullaphi.current()"))

    browser.keys(right)
    at = browser.data["moment"][0]
    same(current(), at, "the first step is to the moment")
    chance = random.Random(1)
    for number in range(60):
        key = chance.choice([right, right, left, up, down])
        mine, row = own[log[at].host], names.index(log[at].host)
        if key in (right, left):
            place = mine.index(at) + (1 if key == right else -1)
            if 0 <= place < len(mine):
                at = mine[place]
        else:
            row += 1 if key == down else -1
            if 0 <= row < len(names):
                least = min(abs(column[it] - column[at]) for it in own[names[row]])
                near = [it for it in own[names[row]] if abs(column[it] - column[at]) == least]
                at = near[0]
        browser.keys(key)
        same(current(), at, f"step {number}")
        assert browser.where(at) in browser.text("info"), browser.text("info")
    x, _ = browser.run("return wullaphi.place(wullaphi.current())")
    assert 50 < x < 1280, "the event is in view"
    browser.keys(enter)
    same(browser.run("return wullaphi.state.kept"), [at], "Enter keeps")
    browser.keys(escape, right, "\ue011", enter, "\ue010", enter)
    ends = [own[log[browser.data["moment"][0]].host][it] for it in (0, -1)]
    same(browser.run("return wullaphi.state.kept"), ends, "Home, Enter, End, Enter")
    assert f"{browser.where(ends[0])} came before {browser.where(ends[1])}" in browser.text("info")
    browser.keys(escape)
    same(browser.run("return [wullaphi.state.kept, wullaphi.current()]"), [[], -1], "Escape lets go")
    step = browser.run("return wullaphi.state.step")
    browser.keys("+")
    assert browser.run("return wullaphi.state.step") > step, "+"
    browser.keys("-")
    assert abs(browser.run("return wullaphi.state.step") - step) < 1e-6, "-"
    browser.keys("/")
    same(browser.run("return document.activeElement.id"), "find", "/")
    browser.keys("m+0")
    same(browser.run("return [wullaphi.state.find, wullaphi.state.step]"), ["m+0", step], "keys in the field are text")


def test_zooms_and_drags(browser: Browser) -> None:
    browser.open(page("large"))
    start = browser.run("return [wullaphi.state.step, document.getElementById('view').scrollLeft]")
    # The pointer stays on the event that the drag begins at.
    x, y = browser.run("""return wullaphi.place(wullaphi.data.moment.find(m =>
        wullaphi.column[m] === wullaphi.momentColumn))""")
    browser.mouse("mouseMoved", x, y)
    browser.mouse("mousePressed", x, y, button="left", clickCount=1)
    for by in (10, 60, 150):
        browser.mouse("mouseMoved", x - by, y, button="left", buttons=1)
    browser.mouse("mouseReleased", x - 150, y, button="left", clickCount=1)
    same(browser.run("return document.getElementById('view').scrollLeft"), start[1] + 150, "dragged")
    same(browser.run("return wullaphi.state.kept"), [], "a drag isn't a click")
    event = browser.data["moment"][0]
    x, y = browser.place(event)
    browser.mouse("mouseWheel", x, y, deltaX=0, deltaY=-120)
    browser.settle()
    same(browser.run("return wullaphi.state.step"), start[0], "the wheel alone doesn't zoom")
    browser.mouse("mouseWheel", x, y, deltaX=0, deltaY=-120, modifiers=2)
    browser.settle()
    assert browser.run("return wullaphi.state.step") > start[0] * 1.2, "the wheel zooms"
    assert abs(browser.run("return wullaphi.place(arguments[0])", event)[0] - x) < 3, "about the pointer"
    browser.press("zoom-all")
    browser.settle()
    ends = browser.run("""const c = [...wullaphi.column]; return [c.indexOf(Math.min(...c)), c.indexOf(Math.max(...c))]
        .map(i => wullaphi.place(i)[0])""")
    assert 50 < ends[0] < 130 and 1150 < ends[1] < 1280, f"all in view: {ends}"
    browser.press("to-moment")
    browser.settle()
    again = browser.run("return [wullaphi.state.step, document.getElementById('view').scrollLeft]")
    same(again, start, "as it opened")
