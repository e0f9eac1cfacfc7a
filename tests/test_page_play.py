"""What led to the moment, played event by event: what is faint meanwhile, what is said, and what ends it."""
import pytest
from page_browser import Browser
from page_cases import events_of, page, same
from page_helper import TOP, data_in, is_before, page_with

# Plays so fast: an event in so many milliseconds.
SPEED = "document.documentElement.dataset.playEvery = arguments[0]"


def lease() -> str:
    """The lease's page as docs/ has it, with the script of now."""
    return page_with(data_in((TOP / "docs" / "pages" / "lease.html").read_text(encoding="utf-8")))


def led_to_moment(browser: Browser) -> list[int]:
    """The places of what led to the moment, by lines, with its events last: here nothing of it comes after these."""
    log, moment = events_of(browser.data), browser.data["moment"]
    before = [place for place, it in enumerate(log) if any(is_before(it, log[m]) for m in moment)]
    assert not set(before) & set(moment)
    return before + sorted(moment)


def faint(browser: Browser) -> list[int]:
    """The events that are faint, by the places of their dots; all others are drawn as usual."""
    browser.settle()
    places = browser.run("""const view = document.getElementById("view"), box = view.getBoundingClientRect();
        return wullaphi.data.events.map((_, i) => wullaphi.place(i))
          .map(([x, y]) => [x - box.left - view.clientLeft, y - box.top - view.clientTop + view.scrollTop])""")
    by_place = {(round(x), round(y)): event for event, (x, y) in enumerate(places)}
    dots = {kind: [by_place[it] for it in browser.dots(kind)] for kind in
            ("faint-dots", "dots", "past-dots", "future-dots")}
    drawn = [event for those in dots.values() for event in those]
    same(sorted(drawn), sorted(by_place.values()), "each event has one dot")
    return sorted(dots["faint-dots"])


def is_under_way(browser: Browser) -> bool:
    return bool(browser.run("return document.getElementById('drawing').classList.contains('under-way')"))


def test_plays_what_led_to_the_moment(browser: Browser) -> None:
    browser.open(lease())
    led, everything = led_to_moment(browser), range(len(browser.data["events"]))
    assert len(led) > 5 and len(led) < len(everything)
    same(faint(browser), [], "before it plays")
    browser.run(SPEED, 10 ** 6)
    browser.press("play")
    same((browser.text("play"), browser.run("return wullaphi.state.kept")), ("Pause", led[:1]), "the first event")
    same(faint(browser), [it for it in everything if it != led[0]], "at the beginning")
    assert f"Event 1 of the {len(led)} that led to the moment." in browser.text("info"), browser.text("info")
    browser.keys("..,..")
    same((browser.text("play"), browser.run("return wullaphi.state.kept")), ("Play", [led[3]]), "a step stops it")
    same(faint(browser), [it for it in everything if it not in led[:4]], "in the middle")
    assert is_under_way(browser) and "all conditions hold" not in browser.text("info")
    browser.run(SPEED, 5)
    browser.keys("p")
    browser.wait_for("return document.getElementById('info').textContent.startsWith("
                     "'The moment: all conditions hold.')")
    same(faint(browser), [it for it in everything if it not in led], "at the end")
    same((browser.text("play"), is_under_way(browser)), ("Play", False), "it stops at the moment")
    assert browser.run("return wullaphi.state.kept")[0] in browser.data["moment"]
    browser.keys("\ue00c")
    same((faint(browser), browser.run("return wullaphi.state.kept")), ([], []), "Escape ends it")


def test_steps_from_the_event_that_is_kept_or_back_from_the_moment(browser: Browser) -> None:
    browser.open(lease())
    led = led_to_moment(browser)
    browser.run("document.getElementById('view').focus()")
    browser.keys(",")
    assert browser.text("info").startswith("The moment: all conditions hold."), browser.text("info")
    browser.keys("\ue00c")
    browser.click(led[2])
    browser.keys(".")
    same(browser.run("return wullaphi.state.kept"), [led[3]], "the one behind that which was kept")
    browser.click(led[3])
    same(faint(browser), [], "a click ends it")
    browser.click(led[2])
    browser.run(SPEED, 10 ** 6)
    browser.keys("p")
    same(browser.run("return wullaphi.state.kept"), [led[2]], "it plays from the event that is kept")


def test_a_hidden_host_is_left_out(browser: Browser) -> None:
    browser.open(lease(), "#hide=0")
    shown = [it for it in led_to_moment(browser) if browser.data["events"][it]["host"] != 0]
    browser.run("document.getElementById('view').focus()")
    seen = []
    for _ in shown:
        browser.keys(".")
        seen += browser.run("return wullaphi.state.kept")
    same(seen, shown, "what is played")
    assert "all conditions hold" in browser.text("info"), browser.text("info")


def test_where_all_the_runs_have_begun_it_stops(browser: Browser) -> None:
    browser.open(page_with(data_in((TOP / "docs" / "pages" / "lease_told.html").read_text(encoding="utf-8"))))
    browser.run(SPEED, 1)
    browser.press("play")
    browser.wait_for("return document.getElementById('info').textContent.startsWith('All the runs have begun.')")
    assert browser.run("return wullaphi.state.kept")[0] in browser.data["moment"]


def test_what_is_left_out_is_said(browser: Browser) -> None:
    for name in ("window", "far"):
        browser.open(page(name))
        log, moment = events_of(browser.data), browser.data["moment"]
        led = [place for place, it in enumerate(log) if any(is_before(it, log[m]) for m in moment)]
        first = log[next(it for it in led if it not in moment and not browser.data["events"][it].get("far"))].line
        browser.run("document.getElementById('view').focus()")
        browser.keys(".")
        assert "earlier events are left out." in browser.text("info"), browser.text("info")
        assert f", from line {first} on;" in browser.text("info"), browser.text("info")


@pytest.mark.parametrize("name, hidden", [("lease", False), ("none", True)])
def test_without_a_moment_there_is_nothing_to_play(browser: Browser, name: str, hidden: bool) -> None:
    browser.open(page(name))
    same(browser.run("return document.getElementById('play').hidden"), hidden, name)
    browser.run("document.getElementById('view').focus()")
    browser.keys(".")
    same(browser.run("return wullaphi.state.kept.length"), 0 if hidden else 1, name)
