"""The address of a page, and texts that would do harm."""
import re
import time
from typing import Callable

from page_browser import Browser
from page_cases import page, same, shown_names
from page_helper import Data, Event, Options, data_in, differences, page_of

# Whether the address says what the page shows. It is written a while behind what changes it.
IS_WRITTEN = "return location.hash.slice(1) === wullaphi.address().replace(/^#/, '')"

SHOWN = """
    const $ = name => document.getElementById(name);
    return { state: { ...wullaphi.state, hidden: [...wullaphi.state.hidden] }, matches: wullaphi.matches(),
      address: wullaphi.address(), left: Math.round($("view").scrollLeft), info: $("info").textContent,
      walk: $("walk-words").textContent, find: $("find").value }"""


def alike(one: Data, other: Data) -> bool:
    """Whether two pages show the same, but for a rounded place."""
    def rest(it: Data) -> Data:
        return {**it, "left": 0, "state": {**it["state"], "step": 0},
                "address": re.sub("at=[0-9._-]+", "", it["address"])}
    is_near = abs(one["left"] - other["left"]) <= 2 and abs(one["state"]["step"] - other["state"]["step"]) < 0.001
    return bool(is_near) and rest(one) == rest(other)


def test_the_address_says_it_all(browser: Browser) -> None:
    text = page("window")
    browser.open(text)
    time.sleep(0.4)
    same(browser.run("return [wullaphi.address(), location.hash]"), ["", ""], "as it opens")

    def two() -> None:
        browser.click(250)
        browser.click(260)

    def seek() -> None:
        browser.press("regex")
        browser.press("case")
        browser.find("work [1-9]+, & #%\u00e9")
        browser.find("work .*[05]")

    def hide() -> None:
        browser.driver.find_element("css selector", "#hosts summary").click()
        for box in browser.driver.find_elements("css selector", "#host-list input")[2:4]:
            box.click()
        browser.driver.find_element("css selector", "#hosts summary").click()

    def scroll() -> None:
        browser.run("document.getElementById('view').scrollLeft += 333")

    def zoom() -> None:
        browser.press("zoom-in")

    acts: list[Callable[[], None]] = [two, seek, hide, zoom, zoom, scroll, lambda: browser.press("why")]
    for number, act in enumerate(acts):
        act()
        browser.settle()
        browser.wait_for(IS_WRITTEN)
        wanted, fragment = browser.run(SHOWN), browser.run("return location.hash")
        assert len(fragment) > 1, "the address"
        browser.open(text, fragment)
        again = browser.run(SHOWN)
        assert alike(wanted, again), f"act {number}, {fragment}: {wanted} and {again}"
    final, fragment = browser.run(SHOWN), browser.run("return location.hash")
    browser.open(text)
    browser.run("location.hash = arguments[0]", fragment)
    browser.wait_for("return wullaphi.state.kept.length === 2")
    assert alike(final, browser.run(SHOWN)), "the address is read when it changes"
    browser.run("location.hash = ''")
    browser.wait_for("return wullaphi.address() === ''")


def test_a_new_address_is_read_where_the_page_has_written_its_own_since(browser: Browser) -> None:
    browser.open(page("window"))
    browser.run("location.hash = 'find=work'; history.replaceState(null, '', '#')")
    browser.wait_for("return wullaphi.state.find === 'work'")
    browser.wait_for(IS_WRITTEN)


def test_a_strange_address_does_no_harm(browser: Browser) -> None:
    for fragment in ("#events=99999999.-1.x&zoom=-3&at=NaN&hide=77&pair=500", "#zoom=0.0000001&at=-99999",
                     "#find=%E0%A4%A&zoom=1e999&at=1e999&down=-5", "#&&==&events",
                     "#find=%3Cimg%20src%3Dx%20onerror%3D%22hurt%3D1%22%3E"):
        browser.open(page("window"), fragment)
        same(browser.run("return wullaphi.state.kept"), [], fragment)
        same(browser.run("return typeof hurt"), "undefined", fragment)
        assert browser.run("return Number.isFinite(wullaphi.state.step) && wullaphi.state.step > 0"), fragment


def test_hostile_texts_run_nothing(browser: Browser) -> None:
    hurt = ["</script><script>window.hurt=1</script>", "<!-- <script>", "<img src=x onerror=\"window.hurt=1\">",
            "a\u2028b\u2029c", "\"quotes\" 'and' `ticks` ${window.hurt=1}", "nul \0 and \x01 and \x7f", "]]>&lt;&amp;",
            "\u202eright to left", "</style><svg onload=window.hurt=1>", "\\u003cscript>\\", "\U0001f600 \u00e9\u4e2d",
            "javascript:window.hurt=1", "@DATA@ @SCRIPT@ @STYLE@ $& $1", "__proto__"]
    log = [Event(place * 2 + half + 1, text, {text: 1 + half}, other) for place, text in enumerate(hurt)
           for half, other in enumerate((text, "works"))]
    options = Options({hurt[1]: ("while", "."), hurt[6]: ("while", "lt"), hurt[3]: ("at", "works")}, title=hurt[2])
    text = page_of(log, options)
    same(differences(text, log), [], "the data")
    same(text.lower().count("<script"), 2, "the scripts of the file")
    browser.open(text)
    same(browser.run("return wullaphi.data"), data_in(text), "the data in the browser")
    same(browser.text("words"), browser.data["words"].rstrip("\n"), "the answer")
    for host, (rule, expression) in options.conditions.items():
        assert f"{host}: {rule} {expression}" in browser.text("conditions"), browser.text("conditions")
    for event in range(0, len(log), 2):
        browser.hover(event)
        shown = browser.text("info")
        assert f"{log[event].host} line {log[event].line}: {log[event].text}" in shown, shown
    browser.click(0)
    browser.click(6)
    browser.press("why")
    browser.find("<img src=x onerror")
    browser.driver.find_element("css selector", "#hosts summary").click()
    time.sleep(0.3)
    same(browser.run("return typeof window.hurt"), "undefined", "what a text would set")
    counts = browser.run("""return [document.scripts.length, document.images.length,
        document.querySelectorAll("[onload], [onerror]").length]""")
    same(counts, [2, 0, 0], "scripts, images and elements that would run something")
    same(browser.run("return performance.getEntriesByType('resource').length"), 0, "what was fetched")
    one, two, three = (log[place].host for place in browser.data["moment"])
    same(browser.run("return document.title"), f"{hurt[2]}: {one}, {two} and {three} could hold at once", "the title")
    same(sorted(shown_names(browser)), sorted(hurt), "the names")
