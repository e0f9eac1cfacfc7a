"""Colours, dark and light, sizes, paper, and what is read aloud."""
import base64
import math
import re

from page_browser import Browser
from page_cases import SIZES, in_rows, page, same

MODES = ["light", "dark"]


def luminance(colour: str) -> float:
    parts = [int(colour[at:at + 2], 16) / 255 for at in (1, 3, 5)]
    linear = [part / 12.92 if part <= 0.03928 else ((part + 0.055) / 1.055) ** 2.4 for part in parts]
    return float(sum(weight * part for weight, part in zip((0.2126, 0.7152, 0.0722), linear)))


def contrast(one: str, other: str) -> float:
    light, dark = sorted((luminance(one), luminance(other)), reverse=True)
    return (light + 0.05) / (dark + 0.05)


# How colours look to eyes that lack one kind of cone (Machado and others, 2009, in full strength).
BLIND = {"protanopia": ((0.152, 1.053, -0.205), (0.115, 0.786, 0.099), (-0.004, -0.048, 1.052)),
         "deuteranopia": ((0.367, 0.861, -0.228), (0.280, 0.673, 0.047), (-0.012, 0.043, 0.969)),
         "tritanopia": ((1.256, -0.077, -0.179), (-0.078, 0.931, 0.148), (0.005, 0.691, 0.304))}


def lab(colour: str, eyes: str | None = None) -> tuple[float, float, float]:
    parts = [int(colour[at:at + 2], 16) / 255 for at in (1, 3, 5)]
    linear = [part / 12.92 if part <= 0.04045 else ((part + 0.055) / 1.055) ** 2.4 for part in parts]
    if eyes:
        linear = [min(1, max(0, sum(weight * part for weight, part in zip(row, linear)))) for row in BLIND[eyes]]
    to_xyz = ((0.4124, 0.3576, 0.1805), (0.2126, 0.7152, 0.0722), (0.0193, 0.1192, 0.9505))
    xyz = [sum(weight * part for weight, part in zip(row, linear)) / white
           for row, white in zip(to_xyz, (0.9505, 1, 1.089))]
    f = [part ** (1 / 3) if part > 0.008856 else 7.787 * part + 16 / 116 for part in xyz]
    return 116 * f[1] - 16, 500 * (f[0] - f[1]), 200 * (f[1] - f[2])


def distance(one: str, other: str, eyes: str | None = None) -> float:
    return math.dist(lab(one, eyes), lab(other, eyes))


def test_colours_can_be_told(browser: Browser) -> None:
    for mode in MODES:
        browser.open(page("lease"), mode=mode)
        names = ["ground", "ink", "plain", "line", "past", "future", "moment", "bar", "rim", "both"]
        colours = dict(zip(names, browser.run("""
            const style = getComputedStyle(document.documentElement);
            return arguments[0].map(it => style.getPropertyValue("--" + it).trim())""", names)))
        for name in ("plain", "line", "past", "future", "moment", "rim"):
            assert contrast(colours[name], colours["ground"]) >= 3, (mode, name)
        for name in ("ink", "plain"):
            assert contrast(colours[name], colours["ground"]) >= 4.5, (mode, name)
        for name in ("plain", "past", "future", "moment"):
            for bar in ("bar", "both"):
                assert contrast(colours[name], colours[bar]) >= 3, (mode, name, "on", bar)
        for eyes in (None, *BLIND):
            for one, other in (("past", "future"), ("past", "plain"), ("future", "plain"), ("past", "moment"),
                               ("future", "moment")):
                assert distance(colours[one], colours[other], eyes) >= 20, (mode, one, other, eyes)
        shapes = browser.run("""return ["past-dots", "future-dots"].map(it =>
            getComputedStyle(document.querySelector("#drawing ." + it)).strokeLinecap)""")
        same(shapes, ["round", "square"], "the shapes beside the colours")


def test_dark_and_light_differ(browser: Browser) -> None:
    shots = []
    for mode in MODES:
        browser.open(page("lease"), mode=mode)
        shots.append(browser.driver.get_screenshot_as_base64())
        ground, ink = browser.run("const s = getComputedStyle(document.body); return [s.backgroundColor, s.color]")
        same(sum(map(int, re.findall(r"\d+", ground)[:3])) > 380, mode == "light", f"{mode}: the ground {ground}")
        same(sum(map(int, re.findall(r"\d+", ink)[:3])) > 380, mode == "dark", f"{mode}: the ink {ink}")
    assert shots[0] != shots[1]


def test_names_stay_in_view(browser: Browser) -> None:
    browser.open(page("lease"), size=SIZES[0])
    written = browser.run("""return [...document.querySelectorAll("#drawing text[data-host]")]
        .map(it => it.firstChild.textContent)""")
    same(written, in_rows(browser.data), "short names are written whole")
    for name in ("lease", "ring", "large", "window"):
        for size in SIZES:
            browser.open(page(name), size=size)
            for left in (0, 700, 10 ** 7):
                browser.run("document.getElementById('view').scrollLeft = arguments[0]", left)
                browser.settle()
                wrong = browser.run("""
                    const view = document.getElementById("view"), box = view.getBoundingClientRect(), wrong = [];
                    const gutter = document.querySelector(".gutter").getBoundingClientRect();
                    if (gutter.height < view.clientHeight - 4) wrong.push("the gutter is low");
                    for (const text of document.querySelectorAll("#drawing text[data-host]")) {
                      const at = text.getBoundingClientRect(), y = (at.top + at.bottom) / 2;
                      if (at.left < box.left || at.right > gutter.right || gutter.left > box.left + 2)
                        wrong.push(text.textContent);
                      if (y > box.top + 2 && y < box.top + view.clientHeight - 2 &&
                        !document.elementFromPoint(at.left + 3, y).closest("[data-host], .gutter"))
                        wrong.push("covered");
                    }
                    if (document.documentElement.scrollWidth > innerWidth) wrong.push("the page is too wide");
                    if (box.height < 230) wrong.push("the view is low");
                    return wrong;""")
                same(wrong, [], f"{name} at {size}, {left}")


def test_paper_shows_what_is_in_view(browser: Browser) -> None:
    for name in ("lease", "ring", "window"):
        for size in SIZES:
            browser.open(page(name), size=size, mode="dark")
            drawn = browser.run("return document.getElementById('drawing').outerHTML")
            browser.look(size, "dark", "print")
            browser.settle()
            wrong = browser.run("""
                const view = document.getElementById("view"), drawing = document.getElementById("drawing"), wrong = [];
                const box = drawing.getBoundingClientRect();
                if (getComputedStyle(view).overflowX !== "visible") wrong.push("it scrolls");
                if (box.left < 0 || box.right > innerWidth + 1) wrong.push("it is too wide: " + box.right);
                for (const text of document.querySelectorAll("#drawing text[data-host]")) {
                  const at = text.getBoundingClientRect();
                  if (at.left < 0 || at.right > innerWidth || at.bottom > box.bottom + 1) wrong.push(text.textContent);
                }
                const legend = document.getElementById("legend").getBoundingClientRect();
                if (legend.top < box.bottom - 2) wrong.push("overlaps");
                if (document.getElementById("tools").getBoundingClientRect().height) wrong.push("the buttons");
                if (getComputedStyle(document.body).backgroundColor !== "rgb(255, 255, 255)") wrong.push("dark");
                return wrong;""")
            same(wrong, [], f"{name} at {size}")
            browser.look((794, 1123), "light", "print")
            browser.settle()
            again, right = browser.run("""const drawing = document.getElementById("drawing");
                return [drawing.outerHTML, drawing.getBoundingClientRect().right]""")
            same(again, drawn, f"{name} at {size}, on paper")
            assert right <= 795, f"{name} at {size}, on paper: {right}"
            browser.look(size, "light")
            paper = base64.b64decode(browser.command("Page.printToPDF", printBackground=True)["data"])
            pages = len(re.findall(rb"/Type\s*/Page\b", paper))
            assert 1 <= pages <= 2, f"{name} at {size}: {pages} pages"


def test_can_be_read_aloud(browser: Browser) -> None:
    browser.open(page("lease"))
    wrong = browser.run("""
        const wrong = [];
        for (const it of document.querySelectorAll("button, input, summary, [role=application], #drawing"))
          if (!(it.getAttribute("aria-label") || it.textContent.trim() || it.closest("label")))
            wrong.push(it.outerHTML);
        if (document.documentElement.lang !== "en") wrong.push("no language");
        if (!document.title.includes("lease.log")) wrong.push(document.title);
        if (document.querySelectorAll("h1").length !== 1) wrong.push("headings");
        if (document.getElementById("info").getAttribute("aria-live") !== "polite") wrong.push("info isn't live");
        if (document.getElementById("drawing").getAttribute("role") !== "img") wrong.push("the drawing has no role");
        for (const id of ["keys"]) if (!document.getElementById(id).textContent.trim()) wrong.push(id);
        return wrong;""")
    same(wrong, [], "names, roles, title")
