"""What leaves a page, and what stays in it: copies, links, files, notes; and folded, moved and listed events."""
import re
import xml.etree.ElementTree as ET

from page_browser import Browser
from page_cases import LEASE, WINDOW, in_rows, page, same, shown_names
from page_helper import Event, Options, data_in, is_before, page_of, page_with

SAVED = """window.saved = [];
    URL.createObjectURL = it => { window.saved.push(it); return "#"; };
    HTMLAnchorElement.prototype.click = function () { window.savedAs = this.download; };"""
COPIED = """window.copied = [];
    Object.defineProperty(navigator, "clipboard", { value: { writeText: async it => { copied.push(it); } } });"""


def saved(browser: Browser, button: str) -> tuple[str, str]:
    """The name and the text of the file that a button saves."""
    browser.run(SAVED)
    browser.run("document.getElementById(arguments[0]).click()", button)
    text = browser.driver.execute_async_script("saved[0].text().then(arguments[0])")
    return browser.run("return savedAs"), text


def test_the_answer_is_copied_as_text(browser: Browser) -> None:
    browser.open(page("lease"))
    browser.run(COPIED)
    browser.run("document.getElementById('copy-text').click()")
    browser.wait_for("return copied.length === 1")
    same(browser.run("return copied[0]"), """\
ada (line 8) and ben (line 18) could hold at once
lease.log
ada and ben: while holds|writes

ada, line 8 \u201cholds the lease\u201d
  Holds from line 8 until line 26 \u201cgives the lease back\u201d.
  Knew nothing of ben.
ben, line 18 \u201cholds the lease\u201d
  Holds from line 18 until line 28 \u201cgives the lease back\u201d.
  Knew ada up to line 4 \u201casks for the lease\u201d.
What is missing
  No messages lead from ada\u2019s end, line 26, to ben\u2019s begin, line 18, nor from ben\u2019s end, line 28, to \
ada\u2019s begin, line 8.
  An order by other means, such as a lock that isn\u2019t in the log, isn\u2019t seen.
""", "the text")
    browser.wait_for("return document.getElementById('told').textContent === 'Copied the answer.'")


def test_a_browser_without_a_clipboard_copies_by_a_selection(browser: Browser) -> None:
    browser.open(page("lease"))
    browser.run("""Object.defineProperty(navigator, "clipboard", { value: undefined });
        document.execCommand = what => { window.ran = [what, document.activeElement.value]; return true; };
        document.getElementById("copy-text").click()""")
    browser.wait_for("return Boolean(window.ran)")
    what, text = browser.run("return ran")
    same(what, "copy", "what is asked for")
    assert text.startswith("ada (line 8) and ben"), text
    same(browser.run("return document.querySelectorAll('textarea').length"), 0, "no field is left behind")


def test_a_link_names_events_by_lines(browser: Browser) -> None:
    """It leads to the same events where more or less of the log is shown. A link by places is read as ever."""
    log, options = LEASE
    browser.open(page("lease"))
    browser.click(3)
    browser.run(COPIED)
    browser.run("document.getElementById('copy-link').click()")
    browser.wait_for("return copied.length === 1")
    line = browser.data["events"][3]["line"]
    fragment = "#" + browser.run("return copied[0]").partition("#")[2]
    assert f"lines={line}" in fragment, fragment
    browser.open(page_of(log[2:], options), fragment)
    same([browser.data["events"][it]["line"] for it in browser.run("return wullaphi.state.kept")], [line], "by line")
    browser.open(page("lease"), "#events=3.5")
    same(browser.run("return wullaphi.state.kept"), [3, 5], "by places")
    browser.open(page("lease"), "#lines=99999.x.8")
    kept = [browser.data["events"][it]["line"] for it in browser.run("return wullaphi.state.kept")]
    same(kept, [8], "the lines that there are")


def test_a_link_leads_to_the_same_place_where_less_is_shown(browser: Browser) -> None:
    log, options = WINDOW
    browser.open(page("window"))
    browser.run("document.getElementById('view').scrollLeft -= 300")
    browser.settle()
    fragment = "#" + browser.run("return wullaphi.address()")
    assert re.search(r"at=\d+_-?[\d.]+", fragment), fragment
    middle = browser.run("return innerWidth / 2")
    places = browser.run("return wullaphi.data.events.map((_, i) => wullaphi.place(i)[0])")
    near = min(range(100, 300), key=lambda it: abs(float(places[it]) - float(middle)))
    x = places[near]
    line = browser.data["events"][near]["line"]
    browser.open(page_of(log, Options(options.conditions, shown=250, title=options.title)), fragment)
    again = next(it for it, event in enumerate(browser.data["events"]) if event["line"] == line)
    assert again != near, "the events have other places"
    same(abs(browser.run("return wullaphi.place(arguments[0])[0]", again) - x) < 3, True, "where it stands")


def test_events_that_share_a_line_are_named_by_places(browser: Browser) -> None:
    data = data_in(page("lease"))
    data["events"][1]["line"] = data["events"][0]["line"]
    browser.open(page_with(data), "#events=1")
    same(browser.run("return [wullaphi.state.kept, wullaphi.address()]"), [[1], "events=1"], "the address")


def test_the_drawing_is_saved_by_itself(browser: Browser) -> None:
    browser.open(page("lease"))
    name, text = saved(browser, "save-svg")
    same(name, "lease.log.svg", "the name")
    root = ET.fromstring(text)
    svg = "{http://www.w3.org/2000/svg}"
    same(root.tag, f"{svg}svg", "the element")
    said = "ada (line 8) and ben (line 18) could hold at once"
    same([it.text for it in root.findall(f"{svg}title")], [said], "the title")
    texts = {it.text for it in root.iter(f"{svg}text")}
    assert {"ada", "ben", "keeper", "store", "the moment"} <= texts, texts
    assert "--future" in "".join(root.itertext()), "the colours"
    assert any(it.get("class") == "both" and it.get("d") for it in root.iter(f"{svg}path")), "the bars"


def test_a_note_stays_in_the_saved_page(browser: Browser) -> None:
    browser.open(page("lease"))
    browser.click(3)
    browser.driver.find_element("id", "note").send_keys("<b>here & \u05d0</b> mw/0")
    same(browser.run("return wullaphi.state.kept"), [3], "keys in the field are text")
    browser.settle()
    shown = "return [...document.querySelectorAll('#drawing text.remark')].map(it => it.textContent)"
    same(browser.run(shown), ["\u270e <b>here & \u05d0</b> mw/0"], "the note beside its event")
    name, text = saved(browser, "save-page")
    same(name, "lease.log.html", "the name")
    same(data_in(text), data_in(page("lease")), "the data")
    browser.open(text)
    same(browser.run(shown), ["\u270e <b>here & \u05d0</b> mw/0"], "the note in the saved page")
    same(browser.run("return [document.querySelectorAll('.card').length, document.querySelectorAll('b').length]"),
         [3, 0], "cards, and elements of a note")
    browser.run(COPIED)
    browser.run("document.getElementById('copy-text').click()")
    browser.wait_for("return copied.length === 1")
    line = browser.where(3)
    noted = f"Notes\n  {line}: <b>here & \u05d0</b> mw/0\n"
    assert browser.run("return copied[0]").endswith(noted), "the notes in the text"
    browser.click(3)
    browser.run("""const field = document.getElementById("note");
        field.value = " ";
        field.dispatchEvent(new Event("input"));""")
    browser.settle()
    same(browser.run(shown), [], "a note is taken back")


def test_a_saved_page_is_the_page_that_came(browser: Browser) -> None:
    """Whatever was done to it."""
    text = page("lease")
    browser.open(text)
    browser.press("zoom-in")
    browser.keys("w")
    _, once = saved(browser, "save-page")
    browser.open(once)
    _, twice = saved(browser, "save-page")
    same(once == twice, True, "saved once and twice")
    same(browser.run("return wullaphi.data"), data_in(text), "the data")


def test_rows_of_silent_events_fold(browser: Browser) -> None:
    log = [Event(line, "ada", {"ada": line}, "works") for line in range(1, 60)]
    log += [Event(60, "ada", {"ada": 60}, "holds"), Event(61, "ben", {"ben": 1}, "holds")]
    browser.open(page_of(log, Options({name: ("while", "holds") for name in ("ada", "ben")})))
    wide = "return [Math.max(...wullaphi.column), document.getElementById('sheet').offsetWidth]"
    before = browser.run(wide)
    browser.press("fold")
    browser.settle()
    same(browser.run(wide)[0], 1, "the columns")
    assert before[0] == 59 and browser.run(wide)[1] < before[1], before
    assert "\u00d759" in browser.run("return [...document.querySelectorAll('#drawing text')].map(it => it.textContent)")
    browser.keys("f")
    browser.settle()
    same(browser.run(wide), before, "unfolded")


def test_rows_are_moved(browser: Browser) -> None:
    browser.open(page("lease"))
    names, rows = [host["name"] for host in browser.data["hosts"]], in_rows(browser.data)
    places = browser.run("""return [...document.querySelectorAll("#drawing text[data-host]")].map(it => {
        const box = it.getBoundingClientRect(); return [box.left + 3, (box.top + box.bottom) / 2]; })""")
    (x, y), (_, low) = places[0], places[2]
    browser.mouse("mouseMoved", x, y)
    browser.mouse("mousePressed", x, y, button="left", clickCount=1)
    browser.mouse("mouseMoved", x, low, button="left", buttons=1)
    browser.mouse("mouseReleased", x, low, button="left", clickCount=1)
    browser.settle()
    wanted = [rows[1], rows[2], rows[0], *rows[3:]]
    same(shown_names(browser), wanted, "dragged")
    same(browser.run("return wullaphi.state.kept"), [], "no event is kept by that")
    fragment = "#" + browser.run("return wullaphi.address()")
    browser.open(page("lease"), fragment)
    same(shown_names(browser), wanted, "by the address")
    browser.click(next(it for it, event in enumerate(browser.data["events"]) if names[event["host"]] == rows[0]))
    browser.run("document.getElementById('view').focus()")
    browser.keys("<")
    browser.settle()
    same(shown_names(browser), [rows[1], rows[0], *rows[2:]], "by a key")


def test_rows_are_moved_by_touch(browser: Browser) -> None:
    browser.open(page("lease"), size=(390, 844))
    rows = in_rows(browser.data)
    places = browser.run("""
        window.seen = [];
        for (const kind of ["pointerdown", "pointermove", "pointerup", "pointercancel"])
          addEventListener(kind, event => seen.push(`${kind} of ${event.pointerType}`), true);
        return [...document.querySelectorAll("#drawing text[data-host]")].map(it => {
          const box = it.getBoundingClientRect(); return [box.left + 3, (box.top + box.bottom) / 2]; })""")
    (x, y), (_, low) = places[0], places[2]
    top = browser.run("return document.getElementById('view').scrollTop")
    browser.command("Input.dispatchTouchEvent", type="touchStart", touchPoints=[{"x": x, "y": y}])
    for part in (0.2, 0.4, 0.6, 0.8, 1):
        browser.command("Input.dispatchTouchEvent", type="touchMove",
                        touchPoints=[{"x": x, "y": y + (low - y) * part}])
    browser.command("Input.dispatchTouchEvent", type="touchEnd", touchPoints=[])
    browser.settle()
    same(shown_names(browser), [rows[1], rows[2], rows[0], *rows[3:]], "dragged")
    same(set(browser.run("return seen")), {f"pointer{kind} of touch" for kind in ("down", "move", "up")},
         "the browser takes no part of the drag")
    same(browser.run("return [wullaphi.state.kept, document.getElementById('view').scrollTop]"), [[], top],
         "nothing else is done")


def test_hosts_of_the_question_alone(browser: Browser) -> None:
    browser.open(page("lease"))
    rows = in_rows(browser.data)
    browser.driver.find_element("css selector", "#hosts summary").click()
    for button, wanted in (("hosts-asked", ["ada", "ben"]), ("hosts-none", []), ("hosts-all", rows)):
        browser.press(button)
        browser.settle()
        same(shown_names(browser), wanted, button)


def test_search_by_host_by_line_and_by_what_is_known(browser: Browser) -> None:
    browser.open(page("window"))
    events = browser.data["events"]
    names = [host["name"] for host in browser.data["hosts"]]
    log = [Event(it["line"], names[it["host"]], {names[h]: n for h, n in it["clock"]}, it["text"]) for it in events]
    known = log[40]
    cases = {
        "host:HOST1": [it.host == "host1" for it in log],
        f"line:{known.line}": [it is known for it in log],
        f"line:{known.line}-{known.line + 20}": [known.line <= it.line <= known.line + 20 for it in log],
        f"knew:{known.line}": [is_before(known, it) for it in log],
        f"host:host1 knew:{known.line} sends": [is_before(known, it) and it.host == "host1" and "sends" in it.text
                                                for it in log],
        "knew:99999999": [False for _ in log],
        "line:": ["line:" in it.text for it in log],
    }
    for words, wanted in cases.items():
        browser.find(words)
        same(browser.run("return wullaphi.matches()"), [place for place, it in enumerate(wanted) if it], words)


def test_the_events_are_listed_in_words(browser: Browser) -> None:
    browser.open(page("lease"))
    browser.driver.find_element("css selector", "#list summary").click()
    browser.wait_for("return document.querySelectorAll('#event-list li').length > 0")
    listed = browser.run("return [...document.querySelectorAll('#event-list li')].map(it => it.textContent)")
    messages = browser.run("return wullaphi.messages.map(it => [it.from, it.to])")
    last: dict[int, int] = {}
    for place, event in enumerate(browser.data["events"]):
        before = [last[event["host"]]] if event["host"] in last else []
        before += [one for one, other in messages if other == place]
        last[event["host"]] = place
        inside = " (in the moment)" if place in browser.data["moment"] else ""
        after = [browser.where(it) for it in before]
        behind = f", after {' and '.join([', '.join(after[:-1]), after[-1]] if after[1:] else after)}" if after else ""
        same(listed[place], f"{browser.where(place)}{inside}: {event['text']}{behind}", "an event")
    same(len(listed), len(browser.data["events"]), "the list")


def test_all_events_are_listed_piece_by_piece(browser: Browser) -> None:
    browser.open(page("late"))
    count = len(browser.data["events"])
    assert count == 10000
    browser.run("""
        const list = document.getElementById("event-list");
        window.pieces = [];
        new MutationObserver(() => pieces.push(list.childElementCount)).observe(list, { childList: true });""")
    for _ in range(2):  # what is listed stays
        browser.driver.find_element("css selector", "#list summary").click()
        browser.wait_for("return document.getElementById('event-list').childElementCount === arguments[0]", count)
        browser.driver.find_element("css selector", "#list summary").click()
    pieces = browser.run("return pieces")
    same(pieces[-1], count, "the last piece")
    most = max(after - before for before, after in zip([0, *pieces], pieces))
    assert len(pieces) >= 4 and most < count / 2, pieces
    for place in (0, 5000, count - 1):
        said = browser.run("return document.getElementById('event-list').children[arguments[0]].textContent", place)
        assert said.startswith(browser.where(place)) and browser.data["events"][place]["text"] in said, said
