"""A page of several questions: the list of them, what is shown of each, the address, keys, notes and copies."""
import json
import re

import pytest
from page_browser import ASKED, Browser
from page_cases import FAR, LEASE, page, same
from page_helper import Conditions, Data, Options, data_of, data_of_several, page_of, page_with, reply_of, words_in
from test_page_answer import TEXTS
from test_page_share import COPIED, saved

LOG = LEASE[0]
BOTH: Conditions = {name: ("while", "holds|writes") for name in ("ada", "ben")}
QUESTIONS: dict[str, Conditions] = {
    "free while ben writes": {"keeper": ("while", "free"), "ben": ("while", "writes")},
    "lease": BOTH,
    "never": {"ada": ("while", "steals"), "store": ("at", "stores")},
    "one alone": {"keeper": ("at", "lends")},
}
DATA = data_of_several(LOG, QUESTIONS, "lease.log")
PAGE = page_with(DATA)
NAMES = list(QUESTIONS)

CHOSEN = """return [...document.querySelectorAll("#questions [aria-current=true] b")].map(it => it.textContent)"""
# All that a page shows: the words, the list of the events, and the drawing. The list of the questions takes no room.
SHOWN = """const done = arguments[0], texts = id => document.getElementById(id).textContent;
    document.getElementById("questions").style.display = "none";
    document.getElementById("list").open = true;
    requestAnimationFrame(() => requestAnimationFrame(() => setTimeout(() => {
      const drawn = new XMLSerializer().serializeToString(document.getElementById("drawing"));
      const found = ["heading", "conditions", "cards", "extent", "words", "info", "event-list"].map(texts);
      document.getElementById("questions").style.display = "";
      done([...found, document.getElementById("why").title, document.getElementById("to-moment").hidden, drawn]);
    }, 100)))"""
IS_WRITTEN = "return location.hash.slice(1) === address()"


def choose(browser: Browser, name: str) -> None:
    browser.run("document.querySelectorAll('#questions a')[arguments[0]].click()", NAMES.index(name))
    browser.settle()


def shown(browser: Browser) -> list[object]:
    found: list[object] = browser.driver.execute_async_script(SHOWN)
    browser.settle()
    return found


def test_the_list_has_each_question_and_its_answer(browser: Browser) -> None:
    browser.open(PAGE)
    same(browser.run(TEXTS, "#questions a"), [
        "free while ben writes none", "lease found ada line 8, ben line 18", "never none",
        "one alone found keeper line 6"], "the list")
    same(browser.run(CHOSEN), ["lease"], "the first that has a moment")
    same(browser.run("return document.title"), "lease.log: lease: ada and ben could hold at once", "the title")
    same(browser.run("return document.getElementById('question-keys').hidden"), False, "the keys in the help")
    browser.open(page("lease"))
    same(browser.run("return ['questions', 'question-keys'].map(it => document.getElementById(it).hidden)"),
         [True, True], "of a page of one question")


def test_each_question_is_shown_as_on_a_page_of_its_own(browser: Browser) -> None:
    alone = {}
    for name, conditions in QUESTIONS.items():
        browser.open(page_with(data_of(LOG, Options(conditions, title="lease.log"))))
        alone[name] = shown(browser)
    browser.open(PAGE)
    for name in (NAMES[1], NAMES[0], NAMES[3], NAMES[2], NAMES[1]):
        choose(browser, name)
        same(browser.run(CHOSEN), [name], "the chosen one")
        for got, wanted in zip(shown(browser), alone[name]):
            same(got, wanted, name)


def test_a_question_without_a_moment_says_why(browser: Browser) -> None:
    browser.open(PAGE)
    choose(browser, "never")
    same(browser.text("heading"), "None: ada and store could not hold at once", "the heading")
    same(browser.run(TEXTS, ".card p"), ["In what is shown ada holds at no event."], "why")
    choose(browser, "free while ben writes")
    same(browser.run(TEXTS, ".card h2")[0], "The nearest missshow", "the nearest miss")
    same(browser.run("return ['why', 'play', 'to-moment'].map(it => document.getElementById(it).hidden)"), [True] * 3,
         "what leads to a moment")
    choose(browser, "lease")
    same(browser.run("return ['why', 'play', 'to-moment'].map(it => document.getElementById(it).hidden)"), [False] * 3,
         "and where there is one")


@pytest.mark.parametrize(("fragment", "name"), [
    ("", "lease"), ("#question=1", NAMES[0]), ("#question=4", NAMES[3]), ("#question=5", "lease"),
    ("#question=0", "lease"), ("#question=x", "lease"), ("#question=2.5", "lease"), ("#find=lease", "lease"),
])
def test_the_page_opens_on_the_question_of_the_address(browser: Browser, fragment: str, name: str) -> None:
    browser.open(PAGE, fragment)
    same(browser.run(CHOSEN), [name], fragment)
    browser.wait_for(IS_WRITTEN)
    same("question=" in browser.run("return location.hash"), name != "lease", "the address, where it isn't the first")


def test_where_none_has_a_moment_the_first_is_shown(browser: Browser) -> None:
    browser.open(page_with(data_of_several(LOG, {name: QUESTIONS[name] for name in (NAMES[2], NAMES[0])})))
    same(browser.run(CHOSEN), ["never"], "the first")


def test_back_and_forward_lead_from_question_to_question(browser: Browser) -> None:
    browser.open(PAGE)
    browser.find("lends")
    choose(browser, "one alone")
    browser.wait_for(IS_WRITTEN)
    same(browser.run("return location.hash"), "#question=4&find=lends", "the address; what is searched stays")
    same(browser.run("return wullaphi.state.find"), "lends", "in the field")
    choose(browser, "never")
    browser.wait_for(IS_WRITTEN)
    for step, name in (("back", "one alone"), ("back", "lease"), ("forward", "one alone"), ("forward", "never")):
        browser.run(f"history.{step}()")
        browser.wait_for(CHOSEN.replace("return", "const names =") + "; return names[0] === arguments[0]", name)
        browser.wait_for(IS_WRITTEN)
    same(browser.run(TEXTS, ".card p"), ["In what is shown ada holds at no event."], "the cards")


def test_a_link_is_that_of_the_view_and_the_question(browser: Browser) -> None:
    browser.open(PAGE)
    choose(browser, "one alone")
    browser.run(ASKED)
    browser.click(9)
    browser.run(COPIED)
    browser.run("document.getElementById('copy-link').click()")
    browser.wait_for("return copied.length === 1")
    fragment = "#" + browser.run("return copied[0]").partition("#")[2]
    browser.open(PAGE, fragment)
    same((browser.run(CHOSEN), browser.run("return wullaphi.state.kept")), (["one alone"], [9]), fragment)


def test_the_view_goes_to_the_moment_of_the_question(browser: Browser) -> None:
    """Nothing of the question before stays chosen, hidden or played."""
    log, options = FAR
    browser.open(page_with(data_of_several(log, {"far": options.conditions, "near": {"cam": ("at", "work")}})))
    browser.run("document.getElementById('host-list').querySelector('input').click()")
    browser.keys("w")
    choose_second = "document.querySelectorAll('#questions a')[1].click()"
    browser.run(choose_second)
    browser.settle()
    browser.run(ASKED)
    [moment] = browser.run("return wullaphi.data.moment")
    x, _ = browser.run("return wullaphi.place(arguments[0])", moment)
    assert 40 < x < 1280, x
    same(browser.run("return [wullaphi.state.kept, wullaphi.state.pair, wullaphi.state.hidden.size]"), [[], -1, 0],
         "what was chosen and hidden")
    same(browser.run("return document.getElementById('walk').hidden"), True, "the walk through the pairs")


def test_what_is_played_ends_with_the_question(browser: Browser) -> None:
    browser.open(PAGE)
    browser.run("document.documentElement.dataset.playEvery = '30'")
    browser.press("play")
    choose(browser, "one alone")
    same(browser.text("play"), "Play", "the button")
    same(browser.run("return [play.isOn, state.kept]"), [False, []], "nothing is played")
    browser.keys(".")
    same(browser.run("return state.kept.length"), 1, "what led to this moment is played")


def test_keys_go_to_the_next_question_and_the_previous_one(browser: Browser) -> None:
    browser.open(PAGE)
    for key, name in (("q", NAMES[2]), ("q", NAMES[3]), ("q", NAMES[0]), ("Q", NAMES[3]), ("Q", NAMES[2])):
        browser.keys(key)
        browser.settle()
        same(browser.run(CHOSEN), [name], key)
    browser.driver.find_element("id", "find").send_keys("qQ")
    typed = browser.run(CHOSEN), browser.run("return wullaphi.state.find")
    same(typed, ([NAMES[2]], "qQ"), "in a field they are text")
    browser.open(page("lease"))
    browser.keys("q")
    same(browser.text("heading"), "ada (line 8) and ben (line 18) could hold at once", "of one question")


def test_notes_stay_and_are_saved_with_the_question(browser: Browser) -> None:
    browser.open(PAGE)
    browser.click(3)
    browser.driver.find_element("id", "note").send_keys("look here")
    browser.run("document.getElementById('view').focus()")
    remarks = "return [...document.querySelectorAll('#drawing text.remark')].map(it => it.textContent)"
    choose(browser, "one alone")
    same(browser.run(remarks), ["\u270e look here"], "the note")
    name, text = saved(browser, "save-page")
    same(name, "lease.log.html", "the name of the saved page")
    browser.open(text)
    same((browser.run(CHOSEN), browser.run(remarks)), (["one alone"], ["\u270e look here"]), "the saved page")
    choose(browser, "lease")
    _, again = saved(browser, "save-page")
    browser.open(again)
    same((browser.run(CHOSEN), browser.run(remarks)), (["lease"], ["\u270e look here"]), "saved again")


def several_far() -> Data:
    """Two questions, of which the first has an event from far back."""
    log, options = FAR
    first = data_of(log, options)
    near = reply_of("near", log, Options({"ben": ("while", "takes")}, shown=99))
    place = next(i for i, event in enumerate(first["events"]) if event["text"].startswith("takes") and i)
    asked = [{"rule": "while", "condition": "takes"} if host["name"] == "ben" else None for host in first["hosts"]]
    return {**first, "question": "far", "others": [{**near, "moment": [place], "holds": [place], "watches": asked}]}


def test_an_event_from_far_back_is_shown_with_its_moment(browser: Browser) -> None:
    """A note at it stays, also where another question doesn't show it."""
    browser.open(page_with(several_far()))
    count = len(browser.data["events"])
    browser.click(0)
    browser.driver.find_element("id", "note").send_keys("long ago")
    browser.run("document.getElementById('view').focus()")
    browser.keys("q")
    browser.settle()
    same(browser.run("return [events.length, events.some(it => it.far), hosts[hostOf[members[0]]].name]"),
         [count - 1, False, "ben"], "the events")
    browser.run("note(5, 'new')")
    browser.keys("q")
    browser.settle()
    notes = json.loads(browser.text("notes"))
    same(sorted(it[2] for it in notes), ["long ago", "new"], "the notes")
    same(browser.run("return [events.length, [...notes.values()].sort()]"), [count, ["long ago", "new"]], "all of them")


def test_copies_and_files_are_of_the_question(browser: Browser) -> None:
    browser.open(PAGE)
    choose(browser, "one alone")
    browser.run(COPIED)
    browser.run("document.getElementById('copy-text').click()")
    browser.wait_for("return copied.length === 1")
    text = browser.run("return copied[0]")
    same(text.split("\n")[:3], ["keeper (line 6) could hold", "lease.log: one alone", "keeper: at lends"], "the text")
    name, drawn = saved(browser, "save-svg")
    same(name, "lease.log_one_alone.svg", "the name")
    assert "<title>keeper (line 6) could hold</title>" in drawn
    browser.look(media="print")
    places = "return [...document.querySelectorAll('#questions a')].map(it => it.offsetParent ? it.textContent : '')"
    same([it for it in browser.run(places) if it], ["one alone found keeper line 6"], "on paper")
    browser.look()


def test_the_words_of_all_questions_are_read_without_scripts(browser: Browser) -> None:
    browser.command("Emulation.setScriptExecutionDisabled", value=True)
    try:
        text = browser.show(PAGE)
        same(browser.driver.find_element("id", "questions").is_displayed(), False, "the list needs the script")
    finally:
        browser.command("Emulation.setScriptExecutionDisabled", value=False)
    for name, reply in zip(NAMES, [DATA, *DATA["others"]]):
        assert f"{name}: {reply['words']}".strip() in text, (name, text)
    browser.open(PAGE)
    same(browser.text("words"), DATA["others"][0]["words"].rstrip("\n"), "with scripts those of the question")


HOSTILE = ["</script><script>window.hurt=1</script>", "<img src=x onerror=window.hurt=1>", "\u202eright to left",
           "\"q' `t` ${window.hurt=1}", "a\u2028b", "\u05e9\u05e8\u05ea", "", "long " * 60, "&lt;</pre>&", "a\nb"]


def test_hostile_names_do_no_harm(browser: Browser) -> None:
    data = data_of_several(LOG, {name: BOTH for name in HOSTILE})
    browser.open(page_with(data))
    same(browser.run("return [...document.querySelectorAll('#questions b bdi')].map(it => it.textContent)"), HOSTILE,
         "each name stands apart from the words around it")
    for name in HOSTILE:
        same(browser.run("return data.question"), name, "the question")
        assert name.replace("\n", " ").strip() in browser.run("return document.title").replace("\n", " "), name
        browser.keys("q")
    counts = browser.run("""return [typeof window.hurt, document.scripts.length, document.images.length,
        document.querySelectorAll("[onload], [onerror]").length]""")
    same(counts, ["undefined", 2, 0, 0], "what a name would do")
    boxes = browser.run("return [...document.querySelectorAll('#questions a')].map(it => it.scrollWidth)")
    assert max(boxes) < 700 and browser.run("return document.documentElement.scrollWidth") <= 1280, boxes
    assert "</pre>" not in words_in(data).replace(HOSTILE[8], ""), "the words"


def test_the_answer_is_seen_without_scrolling(browser: Browser) -> None:
    """Who, when and why, below the list."""
    many = page_with(data_of_several(LOG, {f"question {number} of many": BOTH for number in range(30)}))
    for text in (PAGE, many):
        for size, most in (((1440, 900), 1 / 3), ((1024, 700), 2 / 5), ((390, 844), 1 / 3)):
            for mode in ("light", "dark"):
                browser.open(text, size=size, mode=mode)
                nav, heading, stage, wide = browser.run("""
                    const bottom = it => document.querySelector(it).getBoundingClientRect().bottom;
                    return [bottom("#questions"), bottom("h1"), document.getElementById("stage")
                      .getBoundingClientRect().top, document.documentElement.scrollWidth]""")
                cards = browser.run("""return [...document.querySelectorAll(".card p")]
                    .map(it => it.getBoundingClientRect().top)""")
                assert 0 < nav < heading and max(cards) < size[1] * most and stage < size[1] / 2, (size, cards, stage)
                assert wide <= size[0], (size, wide)


def test_the_chosen_question_is_in_sight_in_the_list(browser: Browser) -> None:
    many = page_with(data_of_several(LOG, {f"question {number} of many": BOTH for number in range(30)}))
    for size in ((1280, 720), (390, 844)):
        browser.open(many, "#question=27", size=size)
        seen = browser.run("""const box = it => document.querySelector(it).getBoundingClientRect();
            const list = box("#question-list"), it = box("#questions [aria-current=true]");
            return [it.left - list.left, list.right - it.right, it.top - list.top, list.bottom - it.bottom]""")
        assert all(it >= -1 for it in seen), (size, seen)


def test_a_question_of_a_page_of_the_program_is_a_page(pages: None) -> None:
    """Where one question is asked, nothing is said of several."""
    text = page_of(*LEASE)
    assert not re.search(r'"(question|others)":', text.partition('id="data">')[2].partition("</script>")[0])
