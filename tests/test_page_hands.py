"""Which keys, wheels and buttons a page takes, and which it leaves to the browser."""
import pytest
from page_browser import Browser
from page_cases import page, same

# Each key that does something while the view has the focus.
KEYS = ["/", "+", "=", "-", "0", "m", "w", "n", "N", "Escape", "ArrowRight", "ArrowLeft", "ArrowUp", "ArrowDown",
        "Home", "End", "Enter", " ", ".", ",", "p"]

# What a page shows, and what has the focus.
SHOWN = """return [wullaphi.address(), wullaphi.current(), document.getElementById("view").scrollLeft,
    document.activeElement.id]"""

# Whether a page leaves a key to the browser, or a turn of the wheel over an event.
LEAVES_KEY = """
    const [key, modifiers] = arguments, view = document.getElementById("view");
    view.focus();
    return view.dispatchEvent(new KeyboardEvent("keydown", { key, bubbles: true, cancelable: true, ...modifiers }));"""
LEAVES_WHEEL = """
    const [modifiers] = arguments, [clientX, clientY] = wullaphi.place(3);
    return document.elementFromPoint(clientX, clientY).dispatchEvent(new WheelEvent("wheel",
      { deltaY: -120, clientX, clientY, bubbles: true, cancelable: true, ...modifiers }));"""

# Sends events of a pointer to what stands where an event is drawn.
POINTER = """
    const [kinds, event] = arguments, [clientX, clientY] = wullaphi.place(event);
    for (const kind of kinds) document.elementFromPoint(clientX, clientY).dispatchEvent(new PointerEvent(kind,
      { clientX, clientY, button: 0, pointerType: "mouse", bubbles: true }));"""


@pytest.mark.parametrize("modifier", ["altKey", "ctrlKey", "metaKey"])
def test_keys_with_a_modifier_are_left_to_the_browser(browser: Browser, modifier: str) -> None:
    browser.open(page("lease"))
    browser.click(3)
    browser.run("document.getElementById('view').focus()")
    before = browser.run(SHOWN)
    for key in KEYS:
        assert browser.run(LEAVES_KEY, key, {modifier: True}), f"{modifier} and {key!r} are taken"
        same(browser.run(SHOWN), before, f"{modifier} and {key!r}")


def test_keys_without_a_modifier_are_taken(browser: Browser) -> None:
    browser.open(page("lease"))
    browser.click(3)
    same([key for key in KEYS if browser.run(LEAVES_KEY, key, {})], [], "left to the browser")


@pytest.mark.parametrize("modifier", ["ctrlKey", "metaKey"])
def test_the_wheel_zooms_with(browser: Browser, modifier: str) -> None:
    browser.open(page("lease"))
    step = browser.run("return wullaphi.state.step")
    assert not browser.run(LEAVES_WHEEL, {modifier: True}), "the browser would zoom too"
    assert browser.run("return wullaphi.state.step") > step * 1.2


@pytest.mark.parametrize("modifier", ["", "altKey", "shiftKey"])
def test_the_wheel_is_left_to_the_browser_with(browser: Browser, modifier: str) -> None:
    browser.open(page("lease"))
    step = browser.run("return wullaphi.state.step")
    assert browser.run(LEAVES_WHEEL, {modifier: True} if modifier else {})
    same(browser.run("return wullaphi.state.step"), step, "the zoom")


@pytest.mark.parametrize("button, buttons, moves", [("left", 1, 150), ("right", 2, 0), ("middle", 4, 0)])
def test_the_left_button_alone_drags(browser: Browser, button: str, buttons: int, moves: int) -> None:
    browser.open(page("large"))
    before = browser.run("return document.getElementById('view').scrollLeft")
    x, y = browser.place(browser.data["moment"][0])
    browser.mouse("mouseMoved", x, y)
    browser.mouse("mousePressed", x, y, button=button, clickCount=1)
    for by in (10, 60, 150):
        browser.mouse("mouseMoved", x - by, y, button=button, buttons=buttons)
    browser.mouse("mouseReleased", x - 150, y, button=button, clickCount=1)
    browser.settle()
    after = browser.run("return document.getElementById('view').scrollLeft")
    same((after - before, browser.run("return wullaphi.state.kept")), (moves, []), f"the {button} button")


def test_a_pointer_that_is_cancelled_is_no_click(browser: Browser) -> None:
    """Nor is what is let go behind that."""
    browser.open(page("lease"))
    down, up, cancel = "pointerdown", "pointerup", "pointercancel"
    for kinds, kept in (([down, cancel], []), ([up], []), ([down, up], [3])):
        browser.run(POINTER, kinds, 3)
        same(browser.run("return wullaphi.state.kept"), kept, kinds)


def test_the_field_of_the_search_says_whether_it_is_understood(browser: Browser) -> None:
    browser.open(page("lease"))
    browser.press("regex")

    def said() -> str:
        return str(browser.run("return document.getElementById('find').getAttribute('aria-invalid')"))
    for words, is_wrong in (("holds (", "true"), ("holds ()", "false"), ("[", "true")):
        browser.find(words)
        same(said(), is_wrong, words)
    browser.keys("\ue003")
    same(said(), "false", "nothing is sought")
