"""How long a page takes to open, and to answer the pointer."""
import random

import pytest
from page_browser import Browser
from page_cases import page, same

HOVERS = """
const [events, done] = arguments, view = document.getElementById("view"), times = [];
const next = () => {
  const i = events.pop();
  if (i === undefined) return done(times);
  const [x, y] = wullaphi.place(i), start = performance.now();
  view.dispatchEvent(new PointerEvent("pointermove", { clientX: x, clientY: y, pointerType: "mouse", bubbles: true }));
  requestAnimationFrame(() => {
    const channel = new MessageChannel();
    channel.port1.onmessage = () => { times.push(performance.now() - start); setTimeout(next, 5); };
    channel.port2.postMessage(0);
  });
};
next();"""


@pytest.mark.measures
def test_is_fast(browser: Browser) -> None:
    chance = random.Random(7)
    opened = []
    for _ in range(3):
        browser.open(page("late"))
        opened.append(browser.run("return openedAfter"))
    same(len(browser.data["events"]), 10000, "events shown")
    print(f"10,000 events: opens in {min(opened):.0f} to {max(opened):.0f} ms")
    assert min(opened) < 10000, opened
    inside = browser.run("""
        const view = document.getElementById("view"), box = view.getBoundingClientRect();
        const isInside = x => x > box.left + 80 && x < box.left + view.clientWidth - 9;
        return [...wullaphi.data.events.keys()].filter(i => isInside(wullaphi.place(i)[0]))""")
    for where, events in (("at the opening zoom", chance.sample(inside, 48)),
                          ("all in view", chance.sample(range(10000), 48))):
        if where == "all in view":
            browser.press("zoom-all")
            browser.settle()
            assert browser.run("return wullaphi.isCrowded()"), "all in view"
        times = sorted(browser.driver.execute_async_script(HOVERS, events))
        print(f"10,000 events, {where}: 48 hovers take a median of {times[24]:.0f} ms, 95 % up to {times[45]:.0f}, "
              f"the worst {times[-1]:.0f}")
        assert times[45] < 500, times
