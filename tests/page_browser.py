"""A browser in which a page is looked at: it opens pages at a size, in a mode, and points, clicks and types."""
import contextlib
import pathlib
import re
import shutil
import time
from typing import Any

from page_helper import Data, data_in
from selenium import webdriver
from selenium.common.exceptions import WebDriverException
from selenium.webdriver.chrome.service import Service
from selenium.webdriver.common.action_chains import ActionChains

# What a page hasn't done by then it doesn't do.
SECONDS = 600

# What the tests ask of a page, from the names of its script.
ASKED = """
    const all = () => [...events.keys()], those = part => all().filter(i => partOf(cone, i) === part);
    window.wullaphi = { data, state, address, before, chainOf, column, messages, momentColumn,
      runs, current: () => current,
      lit: () => cone && { of: cone === momentCone ? "moment" : cone.of[0],
        past: those("past"), future: those("future") },
      chains: () => lit.map(([chain]) => chain), matches: () => matches, isCrowded: () => crowded,
      place: i => {
        const box = view.getBoundingClientRect();
        return [box.left + view.clientLeft + xOf(i), box.top + view.clientTop + rowY(hostOf[i]) - view.scrollTop];
      } };"""


Size = tuple[int, int]
Place = tuple[float, float]


def program(name: str) -> str:
    file = shutil.which(name)
    assert file, f"{name} is missing: .ci/install installs it"
    return file


def driver_of(options: Any) -> Any:
    """A driver with its browser. Somebody else may take the driver's port before it does, and on a busy machine the
    browser may come too late for it, so it is started again then."""
    def start() -> Any:
        return webdriver.Chrome(options=options, service=Service(program("chromedriver")))

    for _ in range(2):
        with contextlib.suppress(WebDriverException):
            return start()
    return start()


class Browser:
    """A browser that serves all tests."""

    def __init__(self, room: pathlib.Path) -> None:
        # Selenium says little of its types.
        options: Any = webdriver.ChromeOptions()
        options.binary_location = program("chromium")
        for word in ("--headless=new", "--no-sandbox", "--disable-dev-shm-usage", "--disable-gpu"):
            options.add_argument(word)
        options.set_capability("goog:loggingPrefs", {"browser": "ALL"})
        self.driver: Any = driver_of(options)
        self.driver.set_script_timeout(SECONDS)
        self.room = room
        self.data: Data = {}
        # When the page's first drawing has been painted, in milliseconds after the navigation began.
        self.command("Page.addScriptToEvaluateOnNewDocument", source="""
            addEventListener("DOMContentLoaded", () => requestAnimationFrame(() => {
              const channel = new MessageChannel();
              channel.port1.onmessage = () => { window.openedAfter = performance.now(); };
              channel.port2.postMessage(0);
            }))""")

    def command(self, name: str, **words: Any) -> Any:
        return self.driver.execute_cdp_cmd(name, words)

    def run(self, script: str, *words: Any) -> Any:
        return self.driver.execute_script(script, *words)

    def look(self, size: Size = (1280, 720), mode: str = "light", media: str = "screen") -> None:
        self.command("Emulation.setDeviceMetricsOverride", width=size[0], height=size[1], deviceScaleFactor=1,
                     mobile=size[0] < 500)
        self.command("Emulation.setEmulatedMedia", media=media,
                     features=[{"name": "prefers-color-scheme", "value": mode}])

    def open(self, page: str, fragment: str = "", size: Size = (1280, 720), mode: str = "light") -> None:
        """Opens a page, the text of a file."""
        self.look(size, mode)
        file = pathlib.Path(self.room) / "page.html"
        file.write_text(page, encoding="utf-8", newline="")
        self.driver.get("about:blank")
        self.driver.get(file.as_uri() + fragment)
        self.run(ASKED)
        self.data = data_in(page)
        self.settle()

    def show(self, page: str) -> str:
        """What a page shows as text whose scripts are switched off."""
        file = pathlib.Path(self.room) / "page.html"
        file.write_text(page, encoding="utf-8", newline="")
        self.driver.get(file.as_uri())
        return str(self.driver.find_element("tag name", "body").text)

    def settle(self) -> None:
        """Waits until two frames have been drawn."""
        self.driver.execute_async_script(
            "const done = arguments[0]; requestAnimationFrame(() => requestAnimationFrame(() => setTimeout(done, 0)))")

    def wait_for(self, script: str, *words: Any) -> None:
        """Waits until a script returns true."""
        until = time.monotonic() + SECONDS
        while not self.run(script, *words):
            assert time.monotonic() < until, f"it never came: {script} {words}"
            time.sleep(0.02)

    def place(self, event: int) -> Place:
        """Where an event stands in the window; the view is moved to it first where it's out of sight."""
        x, y = self.run("""
            const view = document.getElementById("view"), box = view.getBoundingClientRect();
            const gutter = document.querySelector(".gutter").width.baseVal.value;
            let [x, y] = wullaphi.place(arguments[0]);
            if (x < box.left + gutter + 15 || x > box.left + view.clientWidth - 15)
              view.scrollLeft += x - box.left - (gutter + view.clientWidth) / 2;
            if (y < box.top + 20 || y > box.top + view.clientHeight - 20)
              view.scrollTop += y - box.top - view.clientHeight / 2;
            return wullaphi.place(arguments[0]);""", event)
        return x, y

    def mouse(self, kind: str, x: float, y: float, **words: Any) -> None:
        self.command("Input.dispatchMouseEvent", type=kind, x=x, y=y, **words)

    def hover(self, event: int) -> None:
        self.mouse("mouseMoved", *self.place(event))

    def click(self, event: int) -> None:
        self.click_at(*self.place(event))

    def click_at(self, x: float, y: float) -> None:
        self.mouse("mouseMoved", x, y)
        for kind in ("mousePressed", "mouseReleased"):
            self.mouse(kind, x, y, button="left", clickCount=1)

    def press(self, name: str) -> None:
        """Clicks on the element with this name."""
        self.driver.find_element("id", name).click()

    def text(self, name: str) -> str:
        return str(self.run("return document.getElementById(arguments[0]).textContent", name))

    def keys(self, *keys: str) -> None:
        actions: Any = ActionChains
        actions(self.driver, duration=0).send_keys(*keys).perform()

    def find(self, words: str) -> None:
        field = self.driver.find_element("id", "find")
        field.clear()
        field.send_keys(words)

    def where(self, event: int) -> str:
        """How the page names an event."""
        shown = self.data["events"][event]
        return f"{self.data['hosts'][shown['host']]['name']} line {shown['line']}"

    def dots(self, kind: str) -> list[tuple[int, int]]:
        """The places of the marks of a kind in the drawing, rounded."""
        path = self.run("return document.querySelector('#drawing .' + arguments[0]).getAttribute('d')", kind)
        return sorted((round(float(x)), round(float(y))) for x, y in re.findall(r"M(-?[\d.]+) (-?[\d.]+)", path))
