"""What a page says: the answer in its HTML, the conditions, and what its reader sees without scripts."""
import html.parser
import json

import pytest
from page_browser import Browser
from page_cases import ALL, LEASE, NONE, page, same
from page_helper import OPENING, Event, Options, data_in, page_of, page_with

# What a reader sees where the diagram would be.
WITHOUT_SCRIPTS = "The diagram of the events is drawn by a script, and scripts are switched off."

HOSTILE = "</pre><script>document.title='ran'</script> & &lt; <!-- \"quoted\" ]]>"


class Words(html.parser.HTMLParser):
    """The text of the element of the answer."""

    def __init__(self, text: str) -> None:
        super().__init__()
        self.within, self.text, self.elements = False, "", 0
        self.feed(text)

    def handle_starttag(self, tag: str, attrs: list[tuple[str, str | None]]) -> None:
        self.within = dict(attrs).get("id") == "words"
        self.elements += 1

    def handle_endtag(self, tag: str) -> None:
        self.within = False

    def handle_data(self, data: str) -> None:
        if self.within:
            self.text += data


def hostile() -> str:
    """A page of a log whose texts would be markup."""
    log = [Event(1, "a&b", {"a&b": 1}, f"holds {HOSTILE}"), Event(2, "ben", {"ben": 1}, f"holds {HOSTILE}")]
    return page_of(log, Options({name: ("while", "holds") for name in ("a&b", "ben")}))


def test_words_stand_in_the_html(pages: None) -> None:
    elements = Words(page("lease")).elements
    for text in (*(page(name) for name in ALL), hostile()):
        words = Words(text.partition(OPENING)[0])
        same(words.text, data_in(text)["words"], "the words in the HTML")
        same(Words(text).elements, elements, "the elements of the page")


def test_the_answer_is_read_without_scripts(browser: Browser) -> None:
    browser.command("Emulation.setScriptExecutionDisabled", value=True)
    try:
        for text in (page("lease"), page("none"), hostile()):
            browser.driver.get("about:blank")
            shown = browser.show(text)
            for line in data_in(text)["words"].splitlines():
                assert line in shown, (line, shown)
            assert "Moment" not in shown and "Why?" not in shown, f"buttons that do nothing: {shown}"
            assert WITHOUT_SCRIPTS in shown, shown
    finally:
        browser.command("Emulation.setScriptExecutionDisabled", value=False)


def test_conditions_are_said_as_the_words_mean(browser: Browser) -> None:
    said = {("while", "holds|writes"): "while holds|writes", ("at", "work .*holds"): "at work .*holds",
            ("while", "from takes until done"): "from takes until done",
            ("from", "takes until done"): "from takes until done"}
    for (rule, condition), wanted in said.items():
        data = json.loads(json.dumps(data_in(page("lease"))))
        for host in data["hosts"]:
            if "rule" in host:
                host.update(rule=rule, condition=condition)
        browser.open(page_with(data))
        same(browser.text("conditions"), f"ada and ben: {wanted}", "the conditions")
        for host in data["hosts"]:
            if host["name"] == "ben":
                host.update(rule="at", condition="gives")
        browser.open(page_with(data))
        same(browser.text("conditions"), f"ada: {wanted}  \u00b7  ben: at gives", "two conditions")


def test_a_script_overwrites_nothing(browser: Browser) -> None:
    """With scripts the same words stand there."""
    for log in (LEASE, NONE):
        browser.open(page_of(*log))
        same(browser.text("words"), browser.data["words"].rstrip("\n"), "the words")


@pytest.mark.parametrize("answer, heading", [
    ("found", "ada (line 8) and ben (line 18) could hold at once"),
    ("undecided", "Undecided: no moment so far at which ada and ben could hold at once"),
    ("none", "None: ada and ben could not hold at once"),
    ("definite", "ada (line 8) and ben (line 18) held at once, in every order of the events"),
    ("possible", "ada (line 8) and ben (line 18) could hold at once, though not in every order of the events"),
])
@pytest.mark.parametrize("title", ["lease.log", ""])
def test_the_heading_says_the_answer(browser: Browser, answer: str, heading: str, title: str) -> None:
    data = data_in(page("lease"))
    moment = data["moment"] if answer in ("found", "definite", "possible") else None
    browser.open(page_with({**data, "answer": answer, "title": title, "moment": moment}))
    same(browser.text("heading"), heading, "the heading")
    held = {"found": "ada and ben could hold at once", "possible": "ada and ben could hold at once",
            "definite": "ada and ben held at once"}.get(answer, heading)
    same(browser.run("return document.title"), f"{title}: {held}" if title else held, "the title")
    assert WITHOUT_SCRIPTS not in browser.driver.find_element("tag name", "body").text


def test_the_heading_of_any_two_hosts(browser: Browser) -> None:
    browser.open(page_with({**data_in(page("lease")), "asks": "two", "title": ""}))
    same(browser.text("heading"), "Two could hold at once: ada (line 8) and ben (line 18)", "the heading")


def test_a_page_tells_no_other_where_it_was_read(browser: Browser) -> None:
    """The address of a page says what its reader looked at."""
    browser.open(page("lease"))
    policy = browser.run("return document.head.querySelector('meta[name=referrer]')?.content")
    same(policy, "no-referrer", "the policy")
