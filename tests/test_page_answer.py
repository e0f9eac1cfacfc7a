"""How a page opens with the answer: the heading, the cards, what is orange, the overview, the chips, and the policy."""
import base64
import hashlib
import re

from page_browser import Browser
from page_cases import FAR, LEASE, page, same
from page_helper import Event, Options, data_in, page_of, page_with

# The texts of elements, by a selector.
TEXTS = "return [...document.querySelectorAll(arguments[0])].map(it => it.textContent)"

# The ends of the bars of a kind, by rows, and those of the overlap: left, top, right, bottom.
BOXES = r"M(-?[\d.]+) (-?[\d.]+)H(-?[\d.]+)[vV](-?[\d.]+)"

PLACES = """const view = document.getElementById("view"), box = view.getBoundingClientRect();
    return arguments[0].map(i => wullaphi.place(i)).map(([x, y]) => [x - box.left, y - box.top - 1])"""


def path(browser: Browser, kind: str) -> list[tuple[float, ...]]:
    drawn = browser.run("return document.querySelector('#drawing .' + arguments[0]).getAttribute('d') || ''", kind)
    return [tuple(map(float, it)) for it in re.findall(BOXES, drawn)]


def test_cards_say_what_each_held_and_knew(browser: Browser) -> None:
    browser.open(page("lease"))
    same(browser.run(TEXTS, ".card h2"), ["ada, line 8 \u201cholds the lease\u201dshow", "ben, line 18 \u201cholds the "
         "lease\u201dshow", "What is missing"], "the titles")
    same(browser.run(TEXTS, ".card p"), [
        "Holds from line 8 until line 26 \u201cgives the lease back\u201d. Knew nothing of ben.",
        "Holds from line 18 until line 28 \u201cgives the lease back\u201d. Knew ada up to line 4 \u201casks for the "
        "lease\u201d.",
        "No messages lead from ada\u2019s end, line 26, to ben\u2019s begin, line 18, nor from ben\u2019s end, line "
        "28, to ada\u2019s begin, line 8. An order by other means, such as a lock that isn\u2019t in the log, "
        "isn\u2019t seen."], "the cards")
    ada, ben = browser.data["moment"]
    for number, member in enumerate((ada, ben)):
        browser.run("document.querySelectorAll('.card .to')[arguments[0]].click()", number)
        same(browser.run("return wullaphi.current()"), member, "a card leads to its event")


def test_the_answer_is_seen_without_scrolling(browser: Browser) -> None:
    for name in ("lease", "far", "ring", "none", "large"):
        for size in ((1440, 900), (1024, 700)):
            browser.open(page(name), size=size)
            bottom = browser.run("""return [...document.querySelectorAll("h1, .card")]
                .map(it => it.getBoundingClientRect().bottom)""")
            assert bottom and max(bottom) < size[1] / 3, f"{name} at {size}: {bottom}"


def test_on_a_phone_and_at_twice_the_size_the_head_takes_a_quarter(browser: Browser) -> None:
    for name in ("lease", "far", "ring", "none", "large"):
        for size in ((390, 844), (720, 450)):
            browser.open(page(name), size=size)
            top, wide = browser.run("""return [document.getElementById("stage").getBoundingClientRect().top,
                document.documentElement.scrollWidth]""")
            assert top <= size[1] / 4 + 1, f"{name} at {size}: {top}"
            assert wide <= size[0], f"{name} at {size} is too wide: {wide}"


def test_what_could_hold_at_once_is_orange(browser: Browser) -> None:
    """A bar of each member's condition, and a box about what the bars share."""
    browser.open(page("lease"))
    by_line = {event["line"]: place for place, event in enumerate(browser.data["events"])}
    (ada, high), (over, _), (ben, low), (end, _) = browser.run(PLACES, [by_line[it] for it in (8, 26, 18, 28)])
    got = sorted(path(browser, "both"), key=lambda it: it[1])
    wanted = [(ada, high - 8, over, 16), (ben, low - 8, end, 16)]
    assert all(abs(a - b) < 1 for one, other in zip(got, wanted) for a, b in zip(one, other)), (got, wanted)
    [box] = path(browser, "overlap")
    wanted = [(max(ada, ben), high - 14, min(over, end), low + 14)]
    assert all(abs(a - b) < 1 for a, b in zip(box, wanted[0])), (box, wanted)
    same(browser.dots("future-dots"), [], "nothing else is orange")
    browser.hover(by_line[8])
    browser.settle()
    assert browser.dots("future-dots"), "what comes after an event is orange"
    browser.open(page("none"))
    same([path(browser, kind) for kind in ("both", "overlap")], [[], []], "orange without a moment")


def test_the_box_is_about_what_the_conditions_share(browser: Browser) -> None:
    """One begins earlier, the other one ends later; a third host has its row below both."""
    texts = [("cam", "works"), ("ada", "works"), ("ada", "holds"), ("ada", "holds"), ("ada", "tells"), ("ben", "hears"),
             ("ben", "holds"), ("ada", "works"), ("ada", "gives"), ("ben", "works"), ("ben", "works"), ("ben", "gives")]
    clocks: dict[str, int] = {}
    log = []
    for line, (host, text) in enumerate(texts, 1):
        clocks[host] = clocks.get(host, 0) + 1
        known = {"ada": 4} if host == "ben" else {}
        log.append(Event(line, host, {**known, host: clocks[host]}, text))
    browser.open(page_of(log, Options({name: ("while", "holds|works|tells|hears") for name in ("ada", "ben")})))
    places = browser.run(PLACES, list(range(len(log))))
    moment = browser.data["moment"]
    ends = [places[8][0], places[11][0]]
    assert ends[0] < ends[1], ends
    [box] = path(browser, "overlap")
    first = max(places[1][0], places[5][0])
    rows = sorted(places[it][1] for it in moment)
    wanted = (first, rows[0] - 14, min(ends), rows[1] + 14)
    assert all(abs(a - b) < 1 for a, b in zip(box, wanted)), (box, wanted, moment)


def test_members_always_have_their_texts(browser: Browser) -> None:
    for name in ("lease", "ring", "window", "large"):
        for size in ((1280, 720), (390, 844)):
            browser.open(page(name), size=size)
            shown = browser.run("""return wullaphi.data.moment.filter(m => {
                const [x] = wullaphi.place(m), box = document.getElementById("view").getBoundingClientRect();
                return x > box.left + 80 && x < box.right - 30; }).map(m => wullaphi.data.events[m].text)""")
            written = browser.run(TEXTS, "#drawing text.member")
            for text in shown:
                assert any(it.rstrip("\u2026") and text.startswith(it.rstrip("\u2026")) for it in written), (name, text)


def test_watched_hosts_are_bold(browser: Browser) -> None:
    browser.open(page("leaders"))
    same(sorted(browser.run(TEXTS, "#drawing text.watched > title")),
         [f"{name} (drag it to move the row)" for name in ("n1", "n2")], "bold")
    weights = browser.run("""return [...document.querySelectorAll("#drawing text[data-host]")]
        .map(it => getComputedStyle(it).fontWeight)""")
    same(weights, ["700", "700"] + ["400"] * (len(browser.data["hosts"]) - 2), "the weights")


def test_a_member_out_of_sight_has_a_chip(browser: Browser) -> None:
    browser.open(page("far"))
    same(browser.run(TEXTS, "#chips button"), ["\u2190 ada line 1"], "the chip")
    browser.driver.find_element("css selector", "#chips button").click()
    browser.settle()
    same(browser.run("return wullaphi.current()"), browser.data["moment"][0], "where it leads")
    x, _ = browser.run("return wullaphi.place(wullaphi.current())")
    assert 40 < x < 1280, x
    same(browser.run(TEXTS, "#chips button"), ["\u2192 ben line 402"], "the other one is out of sight now")
    browser.open(page("lease"))
    same(browser.run(TEXTS, "#chips button"), [], "all are in sight")
    assert FAR[1].shown == 100


def test_the_overview_shows_and_moves_the_window(browser: Browser) -> None:
    browser.open(page("large"))
    box = browser.run("""const it = document.getElementById("strip").getBoundingClientRect();
        return [it.left, it.top, it.width, it.height]""")
    state = """return [document.querySelector(".strip-window").getAttribute("d").match(/M([\\d.]+)/)[1],
        document.getElementById("view").scrollLeft, document.getElementById("strip").getAttribute("aria-valuenow")]"""
    before = browser.run(state)
    browser.click_at(box[0] + box[2] * 0.8, box[1] + box[3] / 2)
    browser.settle()
    left, scrolled, now = browser.run(state)
    assert scrolled > before[1] and abs(int(now) - 80) < 3, (before, left, scrolled, now)
    assert abs(float(left) / box[2] - 0.8) < 0.03, (left, box)
    x, y = box[0] + box[2] * 0.8, box[1] + box[3] / 2
    browser.mouse("mousePressed", x, y, button="left", clickCount=1)
    browser.mouse("mouseMoved", box[0] + box[2] * 0.3, y, button="left", buttons=1)
    browser.mouse("mouseReleased", box[0] + box[2] * 0.3, y, button="left", clickCount=1)
    browser.settle()
    assert abs(int(browser.run(state)[2]) - 30) < 3, browser.run(state)
    browser.run("document.getElementById('strip').focus()")
    browser.keys("\ue014")
    browser.settle()
    assert browser.run(state)[1] > 0 and int(browser.run(state)[2]) >= 30


def test_the_view_opens_on_the_nearest_miss(browser: Browser) -> None:
    log = [Event(1, "ada", {"ada": 1}, "holds"), Event(2, "ada", {"ada": 2}, "gives"),
           *(Event(line, "cam", {"cam": line - 2, "ada": 2}, "works") for line in range(3, 90)),
           Event(90, "ben", {"ben": 1, "ada": 2, "cam": 87}, "holds")]
    browser.open(page_of(log, Options({name: ("while", "holds") for name in ("ada", "ben")})))
    same(browser.text("heading"), "None: ada and ben could not hold at once", "the heading")
    chain = browser.run("return wullaphi.chains()[0]")
    same((chain[0], chain[-1]), (1, 89), "the chain of the miss is lit")
    x, _ = browser.run("return wullaphi.place(89)")
    assert 50 < x < 1280, x


def test_names_stand_apart_from_the_words_around_them(browser: Browser) -> None:
    names = ["\u05e9\u05e8\u05ea", "red"]
    log = [Event(line, name, {name: 1}, "\u05d0\u05d7\u05d6 1") for line, name in enumerate(names, 1)]
    browser.open(page_of(log, Options({name: ("while", ".") for name in names})))
    browser.click(0)
    for place in ("heading", "cards", "conditions", "info"):
        bare = browser.run("""const it = document.getElementById(arguments[0]).cloneNode(true);
            for (const name of it.querySelectorAll("bdi")) name.remove();
            return it.textContent""", place)
        assert not any(name in bare for name in names), (place, bare)
    browser.press("why")
    assert names[0] in browser.text("walk-words")


def test_the_policy_names_the_script_by_its_hash(browser: Browser) -> None:
    text = page("lease")
    script = text.rpartition("<script>")[2].partition("</script>")[0]
    wanted = base64.b64encode(hashlib.sha256(script.encode()).digest()).decode()
    policies = re.findall(r'content="default-src [^"]*"', text)
    same(policies, [f"content=\"default-src 'none'; style-src 'unsafe-inline'; script-src 'sha256-{wanted}'; "
                    "base-uri 'none'\""], "the policy")
    browser.open(text)
    browser.run("""const it = document.createElement("script");
        it.textContent = "window.ran = true";
        document.body.append(it);""")
    same(browser.run("return typeof window.ran"), "undefined", "a script of someone else")
    refused = browser.driver.get_log("browser")
    assert len(refused) == 1 and "Content Security Policy" in refused[0]["message"], refused
    same(data_in(page_with(data_in(text))), data_in(text), "the data")
    assert LEASE[1].title in browser.run("return document.title")
