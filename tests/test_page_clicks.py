"""What one click and two clicks keep, light and say."""
import random

from page_browser import Browser
from page_cases import events_of, page, same, small
from page_helper import Log, is_before, page_of


def fewest_messages(log: Log, edges: set[tuple[int, int]], first: int, then: int) -> int:
    """How many messages lead from one event to another at least."""
    fewest = {first: 0}
    for place in range(first, len(log)):  # each event stands behind all that came before it
        before = [other for other in range(place) if log[other].host == log[place].host]
        ways = [fewest[other] for other in before if other in fewest]
        ways += [fewest[one] + 1 for one, other in edges if other == place and one in fewest]
        if ways and place != first:
            fewest[place] = min(ways)
    return fewest[then]


def test_two_clicks_say_the_order(browser: Browser) -> None:
    ordered = 0
    for seed in range(20, 30):
        chance = random.Random(seed)
        browser.open(page_of(*small(seed)))
        log = events_of(browser.data)
        edges = {(it["from"], it["to"]) for it in browser.run("return wullaphi.messages")}
        for _ in range(8):
            one, other = chance.sample(range(len(log)), 2)
            browser.keys("\ue00c")
            browser.click(one)
            same(browser.run("return wullaphi.state.kept"), [one], "kept")
            browser.click(other)
            same(browser.run("return wullaphi.state.kept"), [one, other], "kept")
            info, chains = browser.text("info"), browser.run("return wullaphi.chains()")
            where = f"log {seed}, events {one} and {other}: {info}"
            first, then = (one, other) if is_before(log[one], log[other]) else (other, one)
            if not is_before(log[first], log[then]):
                assert f"Nothing orders {browser.where(one)} and {browser.where(other)}" in info, where
                same(chains, [], where)
                continue
            ordered += 1
            assert f"{browser.where(first)} came before {browser.where(then)}" in info, where
            [chain] = chains
            same((chain[0], chain[-1]), (first, then), where)
            hops = 0
            for a, b in zip(chain, chain[1:]):
                assert is_before(log[a], log[b]), (where, chain)
                if log[a].host != log[b].host:
                    assert (a, b) in edges, (where, chain)
                    assert f"{browser.where(a)} \u2192 {browser.where(b)}" in info, where
                    hops += 1
                else:
                    between = [it for it in range(a + 1, b) if log[it].host == log[a].host]
                    same(between, [], where)
            assert hops == 0 or f"by {hops} message" in info, where
            same(hops, fewest_messages(log, edges, first, then), f"the messages, {where}")
            browser.settle()
            assert browser.run("return document.querySelector('#drawing .chain').getAttribute('d')"), where
    assert 20 < ordered < 75, f"{ordered} of 80 pairs are ordered: too few of one kind"


def test_click_keeps_and_lets_go(browser: Browser) -> None:
    browser.open(page("lease"))
    browser.click(3)
    browser.hover(12)
    same(browser.run("return [wullaphi.state.kept, wullaphi.lit().of]"), [[3], 3], "while another is pointed at")
    for event in (3, 12):
        assert browser.where(event) in browser.text("info"), browser.text("info")
    browser.click(12)
    browser.hover(6)
    same(browser.run("return wullaphi.state.kept"), [3, 12], "two, while a third is pointed at")
    assert browser.where(6) in browser.text("info") and "came before" in browser.text("info"), browser.text("info")
    browser.click(3)
    same(browser.run("return wullaphi.state.kept"), [3], "a third click begins anew")
    browser.click(3)
    same(browser.run("return wullaphi.state.kept"), [], "clicked again")
    browser.click(3)
    browser.click_at(*browser.run("""
        const box = document.getElementById("view").getBoundingClientRect();
        return [box.right - 40, box.bottom - 40]"""))
    same(browser.run("return wullaphi.state.kept"), [], "clicked beside")


def test_a_tap_keeps(browser: Browser) -> None:
    browser.open(page("lease"), size=(390, 844))
    browser.command("Emulation.setTouchEmulationEnabled", enabled=True)
    x, y = browser.place(8)
    browser.command("Input.dispatchTouchEvent", type="touchStart", touchPoints=[{"x": x + 6, "y": y + 6}])
    browser.command("Input.dispatchTouchEvent", type="touchEnd", touchPoints=[])
    browser.settle()
    browser.command("Emulation.setTouchEmulationEnabled", enabled=False)
    same(browser.run("return wullaphi.state.kept"), [8], "kept")
