"""The page of runs that must have overlapped: their boxes, what they know of each other, and why."""
import itertools
import re

from page_browser import Browser
from page_cases import LEASE, page, same
from page_helper import TOP, Data, Event, Log, Options, data_in, data_of, is_before, page_with, random_log, read_shiviz

# The places of a run's first event and of the one at which it is over, if there is one.
Run = tuple[int, int | None]

HOLDS = "holds|writes|learns"
TOLD = read_shiviz(TOP / "examples" / "lease_told.log")


def runs_of(log: Log, host: str, expression: str) -> list[Run]:
    """The longest rows of a host's events from which its condition holds."""
    runs: list[Run] = []
    begin = None
    for place, event in enumerate(log):
        if event.host != host:
            continue
        is_held = re.search(expression, event.text) is not None
        if is_held and begin is None:
            begin = place
        elif not is_held and begin is not None:
            runs.append((begin, place))
            begin = None
    return runs + ([(begin, None)] if begin is not None else [])


def overlapping(log: Log, hosts: list[str], expression: str) -> list[Run] | None:
    """The first run of each host of which each begins before any other one is over, whichever way the events came."""
    for choice in itertools.product(*(runs_of(log, host, expression) for host in hosts)):
        if all(over is None or is_before(log[begin], log[over])
               for (begin, _), (_, over) in itertools.permutations(choice, 2)):
            return list(choice)
    return None


def definite(log: Log, hosts: list[str], expression: str, knows_ends: bool = True) -> Data:
    """The data of the page of a log in which the conditions must have held at once."""
    runs = overlapping(log, hosts, expression)
    assert runs is not None
    data = data_of(log, Options({host: ("while", expression) for host in hosts}, title="told.log"))
    over = [None if end is None or not knows_ends else log[end].line for _, end in runs]
    return {**data, "asks": "definitely", "answer": "definite", "words": "definitely\n",
            "moment": [begin for begin, _ in runs], "over": over}


def told(knows_ends: bool = True) -> str:
    """The page of two who learn of each other: by lines at which runs are over, or where none was over at first."""
    return page_with(definite(TOLD, ["ada", "ben"], HOLDS, knows_ends))


def boxes(browser: Browser) -> list[tuple[float, float]]:
    """The two ends of each box about bars, from left to right."""
    path = browser.run("return document.querySelector('#drawing .members').getAttribute('d')")
    return sorted((float(left), float(right)) for left, right in re.findall(r"M(-?[\d.]+) -?[\d.]+H(-?[\d.]+)v", path))


def places(browser: Browser, events: list[int]) -> list[float]:
    """How far right these events stand in the drawing."""
    left: float = browser.run("""
        const view = document.getElementById("view");
        return view.getBoundingClientRect().left + view.clientLeft""")
    return [browser.run("return wullaphi.place(arguments[0])[0]", it) - left for it in events]


def is_near(got: float, wanted: float) -> bool:
    return abs(got - wanted) < 1


def test_the_runs_are_boxes(browser: Browser) -> None:
    """From the first event to the one at which the run is over, which may stand behind the one that made it known."""
    for knows_ends in (True, False):
        browser.open(told(knows_ends))
        line = browser.run("return document.querySelector('#drawing .moment').getAttribute('d')")
        same(line, "", "the line of a moment")
        runs = overlapping(TOLD, ["ada", "ben"], HOLDS) or []
        wanted = sorted(tuple(places(browser, [begin, over or 0])) for begin, over in runs)
        got = boxes(browser)
        assert len(got) == 2 and all(map(is_near, sum(got, ()), sum(wanted, ()))), (got, wanted)
        same(len(browser.dots("members")), 4, "rings at the first events, and boxes")
        same(browser.text("to-moment"), "Runs", "the button")
        shown = browser.run("""return [...document.querySelectorAll("#legend [data-of]")].filter(it => !it.hidden)
            .map(it => it.dataset.of)""")
        same(shown, ["bar", "overlap", "runs"], "the legend")


def test_a_run_that_is_not_over_goes_on(browser: Browser) -> None:
    log = TOLD[:-2]
    browser.open(page_with(definite(log, ["ada", "ben"], HOLDS)))
    right = browser.run("return document.getElementById('view').clientWidth")
    assert all(end >= right for _, end in boxes(browser)), boxes(browser)
    same(browser.run("return wullaphi.lit().past"), [], "nothing is asked of their ends")
    browser.keys("w")
    for host in ("ada", "ben"):
        wanted = f"The run of {host} isn't over in what is shown, so nothing is asked of it."
        assert wanted in browser.text("walk-words"), browser.text("walk-words")


def test_it_opens_where_all_runs_last(browser: Browser) -> None:
    for seed in range(40, 44):
        log = random_log(seed, 300, 3, chatty=0.9, hold=0.75)
        data = definite(log, ["host0", "host1"], "holds")
        browser.open(page_with(data), size=(390, 844))
        last = max(data["moment"], key=lambda it: float(browser.run("return wullaphi.column[arguments[0]]", it)))
        [x] = places(browser, [last])
        width = browser.run("return document.getElementById('view').clientWidth")
        assert 0 < x < width, (seed, x, width)


def test_blue_is_how_an_end_knows_of_a_beginning(browser: Browser) -> None:
    lit = 0
    for seed in range(60, 96):
        log = random_log(seed, 60, 4, chatty=0.9, hold=0.8)
        hosts = ["host0", "host1", "host2"]
        runs = overlapping(log, hosts, "holds")
        if runs is None:
            continue
        browser.open(page_with(definite(log, hosts, "holds")))
        wanted = {place for (begin, _), (_, over) in itertools.permutations(runs, 2) if over is not None
                  for place in range(len(log)) if is_on(log, begin, over, place)}
        same(browser.run("return wullaphi.lit().past"), sorted(wanted), f"blue, log {seed}")
        same(browser.run("return wullaphi.lit().future"), [], f"orange, log {seed}")
        lit += bool(wanted)
    assert lit > 6, f"only {lit} logs have ends of runs"


def is_on(log: Log, begin: int, over: int, place: int) -> bool:
    """Whether an event is one of these two or between them."""
    after = place == begin or is_before(log[begin], log[place])
    return after and (place == over or is_before(log[place], log[over]))


def test_why_says_which_event_each_end_knows(browser: Browser) -> None:
    browser.open(told())
    browser.press("why")
    same(browser.text("walk-words"),
         "Pair 1 of 1. ben line 32, at which its run is over, knows ada line 8, with which the other one begins. "
         "ada line 30, at which its run is over, knows ben line 16, with which the other one begins. "
         "So each began before the other was over, in every order of the events: both held at once.", "why")
    chains = [(chain[0], chain[-1]) for chain in browser.run("return wullaphi.chains()")]
    by_line = {event.line: place for place, event in enumerate(TOLD)}
    same(chains, [(by_line[8], by_line[32]), (by_line[16], by_line[30])], "the chains")


def test_an_end_that_is_not_shown(browser: Browser) -> None:
    """The first events come before what is shown, and one run is over there too."""
    data = definite(TOLD, ["ada", "ben"], HOLDS)
    first = data["moment"][0]
    far = {**data["events"][first], "clock": [], "far": True}
    near = data["events"][data["moment"][1]:]
    shown = {**data, "events": [far, *near], "moment": [0, 1], "over": [10, None],
             "left_out": {**data["left_out"], "before": data["moment"][1]}}
    browser.open(page_with(shown))
    browser.press("why")
    assert "The run of ada is over at line 10, which isn't shown." in browser.text("walk-words")
    [x] = places(browser, [1])
    (left, right), _ = boxes(browser)
    assert left < right < x, (left, right, x)


def test_possibly_is_shown_as_found(browser: Browser) -> None:
    """All but the heading and the title is the same."""
    data = data_in(page("lease"))
    drawn = []
    for answer in ("found", "possible"):
        browser.open(page_with({**data, "asks": "definitely", "answer": answer}))
        drawn.append(browser.run("return document.getElementById('drawing').innerHTML"))
    same(drawn[0] == drawn[1], True, "the drawings")
    heading = "ada (line 8) and ben (line 18) could hold at once, though not in every order of the events"
    same(browser.text("heading"), heading, "the heading")
    assert LEASE[1].title == "lease.log"


def test_one_host_alone(browser: Browser) -> None:
    log = [Event(1, "ada", {"ada": 1}, "holds"), Event(2, "ada", {"ada": 2}, "gives")]
    browser.open(page_with(definite(log, ["ada"], "holds")))
    same(len(boxes(browser)), 1, "boxes")
    same(browser.run("return document.getElementById('why').hidden"), True, "no pair to ask about")
